"""Tests of the files that waywire-inspect reads and writes.

    python3 -m tests.inspector.files [CLASS[.TEST]]..

The environment is that of inspecting.py."""
import os
import resource
import signal
import subprocess

from tests.checks import has_come
from tests.inspector.inspecting import INSPECT, LONG, SYNC, main, sync
from tests.inspector.words import REGISTRY, Talking

READ_TOO = "waywire-inspect: {}: {} is read too, and is not written over\n"


class Files(Talking):
    def setUp(self):
        super().setUp()
        self.recording = f"> {REGISTRY.hex()}\n"
        self.write(self.recorded, self.recording)

    def write(self, path, text):
        with open(path, "w", encoding="utf-8") as file:
            file.write(text)

    def held(self, path):
        with open(path, encoding="utf-8") as file:
            return file.read()

    def refused(self, said, *words):
        """The tool says this and nothing else, and its files stay as they were."""
        before = sorted(os.listdir(self.folder))
        self.assertEqual(self.ran(*words, status=125), ("", said))
        self.assertEqual(sorted(os.listdir(self.folder)), before)
        self.assertEqual(self.held(self.recorded), self.recording)

    def other_paths(self, path):
        """The same file by a link, a symbolic link and another path."""
        made = [f"{path}.{it}" for it in ("link", "symbolic")]
        os.link(path, made[0])
        os.symlink(path, made[1])
        return [path, *made, f"{self.folder}/../{os.path.basename(self.folder)}/{os.path.basename(path)}"]

    def test_an_output_that_is_the_recording(self):
        for it in self.other_paths(self.recorded):
            self.refused(READ_TOO.format("--output", it), "--read", self.recorded, "--output", it)
        with open(self.recorded, "a", encoding="ascii") as file:
            said, told = self.ran("--read", self.recorded, status=125, stdout=file)
        self.assertEqual((said, told), (None, "waywire-inspect: standard output is a file that is read too, and is not "
                                              "written over\n"))
        self.assertEqual(self.held(self.recorded), self.recording)

    def test_an_output_without_a_name(self):
        """The option behind it is not taken for a file."""
        for option in ("--picture", "--output", "--record"):
            said = f"waywire-inspect: {option} wants a file, and --read is an option (./--read is a file)\n"
            self.refused(said, option, "--read", self.recorded)

    def test_an_output_that_is_a_text(self):
        """The tables of --tables, those beside the recording, and the names beside them."""
        tables, beside, names = f"{self.folder}/own.tables", f"{self.recorded}.tables", f"{self.folder}/own.names"
        for path in (tables, beside, names):
            self.write(path, "")
        self.refused(READ_TOO.format("--output", beside), "--read", self.recorded, "--output", beside)
        given = ["--tables", tables]
        for path in (tables, names):
            self.refused(READ_TOO.format("--output", path), "--read", self.recorded, *given, "--output", path)
        for option, path in (("--record", tables), ("--output", names), ("--picture", tables)):
            self.refused(READ_TOO.format(option, path), *given, option, path, "true")
        self.refused(READ_TOO.format("the tables of --record", beside), "--tables", beside, "--record", self.recorded,
                     "true")

    def test_a_second_client_whose_recording_is_read(self):
        tables = f"{self.folder}/b.rec.2"
        self.write(tables, "")
        self.start("--tables", tables, "--record", f"{self.folder}/b.rec")
        pairs = [self.client(), self.client()]
        for client, compositor in pairs:
            self.passes(client, compositor, REGISTRY)
        self.tool.send_signal(signal.SIGTERM)
        self.assertEqual(self.tool.communicate(timeout=LONG)[1],
                         f"waywire-inspect: {tables} is read too, and is not written over\n")
        self.assertEqual(self.held(tables), "")

    def test_outputs_that_are_one_file(self):
        """Also if it is not there yet, and by two paths."""
        path = f"{self.folder}/new"
        for other in (path, f"{self.folder}/./new"):
            self.refused("waywire-inspect: --output and --record name the same file\n", "--output", path, "--record",
                         other, "true")
            self.refused("waywire-inspect: --output and --picture name the same file\n", "--output", path, "--picture",
                         other, "true")
        os.symlink(self.recorded, f"{self.folder}/symbolic")
        self.refused("waywire-inspect: --output and --record name the same file\n", "--output", self.recorded,
                     "--record", f"{self.folder}/symbolic", "true")

    def test_an_output_that_is_whole(self):
        """It keeps its permissions, and a link to it stays one."""
        path, link = f"{self.folder}/out", f"{self.folder}/symbolic"
        self.write(path, "old\n")
        os.chmod(path, 0o640)
        os.symlink("out", link)
        printed = self.ran("--read", self.recorded)[0]
        self.assertEqual(self.ran("--read", self.recorded, "--output", link), ("", ""))
        self.assertEqual(self.held(path), printed)
        self.assertEqual((os.stat(path).st_mode & 0o777, os.readlink(link)), (0o640, "out"))
        self.assertEqual(sorted(os.listdir(self.folder)), ["a.rec", "display", "out", "symbolic"])
        new = f"{self.folder}/new"
        self.assertEqual(self.ran("--read", self.recorded, "--output", new), ("", ""))
        self.assertEqual(self.held(new), printed)
        self.assertEqual(self.ran("--read", self.recorded, "--output", "/dev/stdout"), (printed, ""))

    def test_an_output_that_fails(self):
        """The old file stays, and nothing is left beside it."""
        path = f"{self.folder}/out"
        self.write(path, "old\n")
        with open(self.recorded, "w", encoding="ascii") as file:
            file.writelines(f"> {sync(number).hex()}\n" for number in range(2, 999))

        def limit():
            signal.signal(signal.SIGXFSZ, signal.SIG_IGN)
            resource.setrlimit(resource.RLIMIT_FSIZE, (8192, 8192))

        ran = subprocess.run([*INSPECT, "--read", self.recorded, "--output", path], preexec_fn=limit, **self.how({}))
        self.assertIn(f"cannot write to {path}", ran.stderr)
        self.assertEqual((self.held(path), len(os.listdir(self.folder))), ("old\n", 3))

    def test_an_output_that_is_not_done(self):
        """A signal ends the tool, and the old file stays."""
        path, pipe = f"{self.folder}/out", f"{self.folder}/pipe"
        self.write(path, "old\n")
        os.mkfifo(pipe)
        for number in (signal.SIGINT, signal.SIGTERM):
            self.start("--read", pipe, "--output", path, stdin=subprocess.DEVNULL)
            self.assertTrue(has_come(lambda: any(it.startswith("out.") for it in os.listdir(self.folder))))
            self.tool.send_signal(number)
            self.tool.communicate(timeout=LONG)
            self.assertEqual(self.tool.returncode, -number)
            self.assertEqual((self.held(path), len(os.listdir(self.folder))), ("old\n", 4))

    def test_an_output_of_nothing(self):
        """The lines of a session come as they are printed; a tool that prints nothing leaves the old file."""
        path = f"{self.folder}/out"
        self.write(path, "old\n")
        self.ran("--output", path, "no-such-command", status=125)
        self.assertEqual(self.held(path), "old\n")
        self.listener.accept()[0].close()
        self.start("--output", path)
        requests, events = self.client()
        self.passes(requests, events, sync(2))
        self.assertTrue(has_come(lambda: self.of_one(self.held(path)) == SYNC.format(2)))


if __name__ == "__main__":
    main()
