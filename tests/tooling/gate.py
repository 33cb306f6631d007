"""The tools that run proofs and tests: the timed gate, the quick look and all of it."""

import contextlib
import io
import os
import re
import subprocess
import sys
import tempfile
import time
import unittest
import unittest.mock

from scripts import crates, machine, timed_gate
from tests import checks
from tests.checks import TOP, read
from tests.parts import all as whole
from tests.parts import c, quick


class TimedGate(unittest.TestCase):
    tool = timed_gate

    def test_status_is_the_commands(self):
        command = [sys.executable, "-m", "scripts.timed_gate", "sh", "-c", "exit 3"]
        ran = subprocess.run(command, cwd=TOP, stdout=subprocess.PIPE, text=True)
        self.assertEqual(ran.returncode, 3)
        self.assertIn("processor minutes in", ran.stdout.split("\n")[-2])
        command[-1] = "kill -9 $$"
        self.assertEqual(subprocess.run(command, cwd=TOP, stdout=subprocess.DEVNULL).returncode, 128 + 9)

    def ran(self, *words, status=0):
        """The status of the tool, and the commands that it runs, all of them with this status."""
        commands = []

        def run(measured, command, folder=None, env=None):
            commands.append(" ".join(command).replace(f"{TOP}/", ""))
            measured.status = measured.status or status
            measured.spent.append((1.0, 2.0))
            if command[:2] == ["rt", "ci"]:
                self.leave(folder)

        with (
            contextlib.redirect_stdout(io.StringIO()) as output,
            unittest.mock.patch.object(sys, "argv", ["timed-gate", *words]),
            unittest.mock.patch.object(self.tool.Measured, "run", run),
            unittest.mock.patch.object(self.tool.crates, "TOP", self.top),
            unittest.mock.patch.object(self.tool, "takes_anew", lambda: True),
            unittest.mock.patch.object(self.tool.toolchain.Clone.__init__, "__defaults__", (self.top,)),
        ):
            ended = self.tool.main()
        return ended, commands, output.getvalue()

    def leave(self, folder):
        """What `rt ci` leaves in a copy, in which no mutant is."""
        files = {os.path.relpath(it, folder) for it in checks.files_below(folder)}
        self.assertEqual(files, {"crates.txt", "crates/low/src/lib.rt", "crates/low/data/out.txt"})
        os.makedirs(f"{folder}/crates/low/out/rlib/low.rlib")
        for path in ("out/low", "out/rlib/low.rlib/format"):
            with open(f"{folder}/crates/low/{path}", "w", encoding="utf-8") as file:
                file.write("made")

    def setUp(self):
        folder = tempfile.TemporaryDirectory()
        self.addCleanup(folder.cleanup)
        self.top = folder.name
        for path in ("crates/low/src/lib.rt", "crates/low/data/out.txt", "crates/low/must-fail/a.edit",
                     "crates/low/out/old", "out/other", ".git/config"):
            os.makedirs(f"{self.top}/{os.path.dirname(path)}", exist_ok=True)
            open(f"{self.top}/{path}", "w", encoding="utf-8").close()
        with open(f"{self.top}/crates.txt", "w", encoding="utf-8") as file:
            file.write("low: std\n")

    def test_the_gate(self):
        """It is run over a copy without mutants. What it builds is put in its place, as old as the beginning."""
        before = time.time_ns()
        status, commands, said = self.ran(status=3)
        self.assertEqual((status, commands), (3, ["rt ci"]))
        self.assertEqual(said.splitlines()[-1], "rt ci: 1.0 processor minutes in 2.0 minutes")
        for path in ("out/low", "out/rlib/low.rlib"):
            made = os.stat(f"{self.top}/crates/low/{path}").st_mtime_ns
            self.assertTrue(before - 10**9 < made <= time.time_ns(), path)
        self.assertTrue(os.path.exists(f"{self.top}/crates/low/must-fail/a.edit"))
        open(f"{self.top}/crates/low/out/rlib/stamp", "w", encoding="utf-8").close()
        os.utime(f"{self.top}/crates/low/out/rlib/low.rlib", (7, 7))
        self.ran()
        self.assertEqual(os.stat(f"{self.top}/crates/low/out/rlib/low.rlib").st_mtime, 7)

    def test_other_commands(self):
        self.assertEqual(self.ran("make", "all")[:2], (0, ["make all"]))

    def test_figures_for_the_page(self):
        """Nothing is taken from earlier runs. They are written only if all ended well and no figure is lacking."""
        status, commands, said = self.ran("--write")
        wanted = ["rt ci --anew", f"{sys.executable} -m scripts.mutants --all", "./test rattle"]
        self.assertEqual((status, [it.rpartition(f"{self.top}/")[2] for it in commands]), (1, wanted))
        self.assertIn("docs/GATE.md is as it was: no figure of wl_wire (proof), ", said)
        status, commands, said = self.ran("--write", status=4)
        self.assertEqual(status, 4)
        self.assertIn("docs/GATE.md is as it was: status 4", said)

    def test_what_the_page_says(self):
        run = self.tool.Measured()
        run.spent, run.table = [(60.0, 20.0), (30.0, 10.0), (10.0, 5.0)], {"wl_wire": {"proof": 1.0, "mutants": 0.5}}
        said = self.tool.figures(run, {"RT_JOBS": "4"}, "2026-01-02", "abc")
        self.assertIn("On 2026-01-02 at commit abc, on ", said)
        self.assertIn(", in all 100.0 processor minutes in 35.0 minutes.", said)
        self.assertIn("| `wl_wire` | 1.0 | 0.5 | 1.5 |\n", said)

    def test_other_processes_are_not_counted(self):
        self.assertIsNone(self.tool.part_of(f"/proc/{os.getpid()}"))

    def test_a_crate_is_proved_in_one_process(self):
        """As many at once as there are processors, or as RT_JOBS says. Where memory may be short, rt
        decides."""
        most = machine.processors()
        enough = most * self.tool.MEMORY_EACH
        for free, before, jobs in ((enough, {}, str(most)), (enough - 1, {}, None),
                                   (enough, {"RT_JOBS": "7"}, "7")):
            with (
                unittest.mock.patch.object(machine, "free", return_value=free),
                unittest.mock.patch.dict(os.environ, before),
            ):
                if not before:
                    os.environ.pop("RT_JOBS", None)
                self.assertEqual(self.tool.in_lanes().get("RT_JOBS"), jobs)

    def test_free_memory(self):
        """It is what the system has, or less by the limit of a control group."""
        told = {"/proc/meminfo": b"MemTotal: 9 kB\nMemAvailable:   5 kB\n"}
        group = {"/sys/fs/cgroup/memory.max": b"4000\n", "/sys/fs/cgroup/memory.stat": b"file 7\nanon 1000\n"}
        for files, free in ((told, 5120), ({**told, **group}, 3000),
                            ({**told, **group, "/sys/fs/cgroup/memory.max": b"max\n"}, 5120)):
            with unittest.mock.patch.object(machine, "read", lambda path, files=files: files.get(path, b"")):
                self.assertEqual(machine.free(), free)

    def test_no_row_without_a_figure(self):
        """A crate with a part that was not timed is named, and the page has the marks for the figures."""
        table = {"wl_text": {"proof": 1.0, "mutants": 0.0}}
        self.assertEqual(self.tool.lacking(table, ["wl_text"]), [])
        self.assertEqual(self.tool.lacking(table, ["wl_text", "waywire"]), ["waywire (proof)"])
        table["wl_wire"] = {"proof": 1.0, "mutants": 0.0}
        self.assertEqual(self.tool.has("wl_wire", "mutants"), True)
        self.assertEqual(self.tool.lacking(table, ["wl_wire"]), ["wl_wire (mutants)"])
        page = read("docs/GATE.md")
        self.assertLess(page.index(self.tool.BEGINS), page.index(self.tool.ENDS))

    def test_rows(self):
        table = {"b": dict.fromkeys(self.tool.PARTS, 1.0), "a": {"proof": 0.25, "mutants": 0.0}}
        found = self.tool.rows(table, ["a", "b"])[2:]
        self.assertEqual(found[0], "| `a` | 0.2 | - | 0.2 |")
        self.assertEqual(found[2], "| All | 1.2 | 1.0 | 2.2 |")
        self.assertEqual(self.tool.rows(table, ["a", "b"], 2)[2:], found)
        self.assertEqual(self.tool.rows({**table, "c": table["a"]}, ["a", "b"], 1)[2:], [
            "| `b` | 1.0 | 1.0 | 2.0 |", "| the other 2 | 0.5 | - | 0.5 |", "| All | 1.5 | 1.0 | 2.5 |"])


class Quick(unittest.TestCase):
    tool = quick

    def test_what_a_tool_counts(self):
        for said, status, counted in (
            ("1 passed, 0 failed\nskipped: a: b\n3 passed, 0 failed", 0, (3, 0)),
            ("failed: c\n3 passed, 2 failed", 1, (3, 2)),
            ("3 passed, 0 failed", 1, (3, 1)),
            ("it stopped", 0, (0, 1)),
        ):
            with contextlib.redirect_stdout(io.StringIO()) as output:
                count = self.tool.Count()
                self.tool.tool(count, "a tool", "sh", "-c", f"echo '{said}'; exit {status}")
            self.assertEqual((count.passed, count.failed), counted, said)
            self.assertIn("a tool: ", output.getvalue())
            self.assertEqual("skipped: a: b" in output.getvalue(), "skipped" in said)

    def ran(self, part, said):
        """The commands that a part runs, of which each says this, and what it leaves out."""
        commands = []

        def run(_, *words):
            commands.append(" ".join(words))
            return int("not" in said and words[0] == "make"), f"{said}\n1 passed, 0 failed\n"

        with (
            contextlib.redirect_stdout(io.StringIO()),
            unittest.mock.patch.object(self.tool, "run", run),
            unittest.mock.patch.object(self.tool.checks, "is_installed", lambda _: True),
        ):
            count = self.tool.Count()
            part(count)
        return commands[1:], count.left

    def test_what_is_built_is_tested(self):
        """Over the proved program and the library for C more is run, and what is not run is named."""
        tools = ["./test program", "./test compare", "./test memory"]
        program, pages = "crates/waywire/out/waywire", "./test pages AtOnce"
        compiled = "out/unproved/waywire"
        found = self.ran(self.tool.at_program, "waywire 1.0.0")
        self.assertEqual(found, ([*(f"{it} {program}" for it in tools), pages], []))
        found, left = self.ran(self.tool.at_program, "this run is not proved")
        self.assertEqual(found, [*(f"{it} {compiled}" for it in tools[:2]), pages])
        self.assertIn(tools[2], left[0])
        found = self.ran(self.tool.at_library, "built")
        self.assertEqual(found, (["python3 -m scripts.toolchain proved waywire", f"./test c {program}",
                                  "./test rust", "./test stubs", "./test libwayland",
                                  "./test picture", "./test pages OverTheLibrary"], []))
        found, left = self.ran(self.tool.at_library, "not built")
        self.assertEqual(found, ["./test stubs Modules"])
        self.assertIn("./test c", left[0])

    def proved(self, *lost):
        """What is proved of two crates and those above them, if these are not proved; and what is left out."""
        found = {it: crates.Crate(it, "", uses) for it, uses in (
            ("low", []), ("middle", ["low"]), ("high", ["middle"]), ("other", []), ("beside", ["low"]))}
        tried = []

        def proof(name, _):
            tried.append(name)
            return name not in lost

        with (
            unittest.mock.patch.object(self.tool, "proof", proof),
            unittest.mock.patch.object(self.tool.crates, "read", lambda: found),
        ):
            count = self.tool.Count()
            proved = self.tool.proofs(["middle", "low"], count)
        return tried, proved, count.left

    def test_crates_above_are_proved_too(self):
        """They come after those that they use, and are left out if one of these is not proved."""
        order = ["low", "middle", "beside", "high"]
        self.assertEqual(self.proved(), (order, order, []))
        tried, proved, left = self.proved("middle")
        self.assertEqual((tried, proved), (["low", "middle", "beside"], ["low", "beside"]))
        self.assertEqual(left, ["the proof of high, which stands on what is not proved: ./test quick high"])

    def test_what_is_run_for_a_crate(self):
        """The mutants of the named crates, the tests in Rattle that use one, and the stored runs if the program
        does."""
        commands = []
        with (
            contextlib.redirect_stdout(io.StringIO()),
            unittest.mock.patch.object(self.tool, "layout", lambda *_: None),
            unittest.mock.patch.object(self.tool, "proof", lambda *_: True),
            unittest.mock.patch.object(self.tool, "tool", lambda _, what, *words: commands.append(" ".join(words))),
            unittest.mock.patch.object(self.tool, "stored_runs", lambda _: commands.append("runs")),
        ):
            for names in (["wl_twins"], ["program_arguments"], ["test_player"], ["wl_wire"]):
                self.tool.judged(names, self.tool.Count())
        self.assertEqual(commands[0], "./test rattle test_layers proxy jobs")
        self.assertEqual(commands[1:3], ["./test rattle test_programs jobs", "runs"])
        self.assertEqual(commands[3], "./test rattle test_player test_scenes test_sweeps")
        self.assertEqual((commands[4], commands[-1]), ("python3 -m scripts.mutants wl_wire", "runs"))

    def test_words(self):
        """`./test` runs all, and `./test quick` a change to the named crates."""
        for words, wanted in ((["--whole"], "whole"), (["wl_wire", "wl"], "wl_wire wl")):
            called = []
            with (
                contextlib.redirect_stdout(io.StringIO()) as output,
                unittest.mock.patch.object(sys, "argv", ["quick", *words]),
                unittest.mock.patch.object(self.tool, "whole", lambda count: called.append("whole")),
                unittest.mock.patch.object(self.tool, "judged", lambda names, count: called.append(" ".join(names))),
            ):
                self.assertEqual(self.tool.main(), 1, "nothing has passed")
            self.assertEqual(called, [wanted])
            self.assertEqual(output.getvalue().splitlines()[-1], "0 passed, 1 failed")
        ran = subprocess.run([f"{TOP}/test", "quick"], capture_output=True, text=True, check=False)
        self.assertEqual((ran.returncode, ran.stdout, ran.stderr), (2, "", "test quick: a crate must be named\n"))

    def test_names(self):
        command = [f"{TOP}/test", "quick", "wl_wire", "no_crate"]
        ran = subprocess.run(command, capture_output=True, text=True, check=False)
        self.assertEqual((ran.returncode, ran.stdout), (2, ""))
        self.assertIn("no_crate", ran.stderr)


class OfTheInspector(unittest.TestCase):
    """What `./test c` makes of the tests that it runs as programs of their own."""

    def inspected(self, said):
        """What is reported of a run with this output."""
        with (
            contextlib.redirect_stdout(io.StringIO()) as output,
            unittest.mock.patch.object(c, "run", lambda *_, **__: said),
        ):
            try:
                c.inspecting(None, file="a")
            except checks.Skipped as why:
                return f"all: {why}"
            except checks.Failed as why:
                return f"failed: {why}"
        return output.getvalue()

    def test_what_is_skipped_is_told(self):
        self.assertEqual(self.inspected("..\n2 passed, 0 failed\n"), "")
        self.assertEqual(self.inspected("\n0 passed, 0 failed\n"), "failed: a has run no test")
        skipped = "\nskipped: a.b: no foot\n"
        self.assertEqual(self.inspected(f"{skipped}2 passed, 0 failed\n"), skipped[1:])
        said = self.inspected(f"{skipped}0 passed, 0 failed\n")
        self.assertEqual(said, "all: a.b: no foot")
        late = "sway has not come up within 120 s: ''"
        said = self.inspected(f"\nskipped: a.b: {late}\n0 passed, 0 failed\n")
        self.assertEqual(said, f"all: a.b: {late}")
        self.assertEqual(self.inspected("1 passed, 0 failed\n"), f"all: {late}")


class All(unittest.TestCase):
    """`./test all`, with a stand-in for each of its parts."""

    def said(self, **parts):
        """The status and the output of a run, in which these parts, by the last words of their names, are other
        scripts."""
        commands = {}
        for name in whole.PARTS:
            script = parts.get(re.split("[ _.]", name)[-1], "echo '1 passed, 0 failed'")
            commands[name] = ["sh", "-c", script]
        with (
            contextlib.redirect_stdout(io.StringIO()) as output,
            unittest.mock.patch.object(sys, "argv", ["./test all"]),
            unittest.mock.patch.object(whole, "PARTS", commands),
        ):
            return whole.main(), output.getvalue()

    def test_parts(self):
        """It runs each part of `./test`, and no other."""
        names = {it.removesuffix(".py") for it in os.listdir(os.path.dirname(whole.__file__)) if it[0] != "_"}
        run = [it[1] for it in whole.PARTS.values() if it[0] == "./test"]
        self.assertEqual(sorted([*run, "all", "quick"]), sorted(names))
        steps = [name for lists in whole.STEPS for names in lists for name in names]
        self.assertEqual(steps, [*whole.PARTS])
        page = subprocess.run([f"{TOP}/test", "--help"], capture_output=True, text=True, check=True).stdout
        self.assertEqual(re.findall(r"(?m)^    ([a-z]+)", page), run)

    def test_all_is_well(self):
        status, said = self.said(c="""echo 'skipped: a compositor: weston is not installed'
echo '3 passed, 0 failed'""")
        self.assertEqual((status, said.splitlines()[-1]), (0, "16 passed, 0 failed"))
        skipped = "./test c: a compositor: weston is not installed\n"
        self.assertIn(f"What was skipped:\n{skipped}", said)
        self.assertNotIn("What failed:", said)

    def failing(self, count, **parts):
        """What is printed at the end about failures."""
        status, said = self.said(**parts)
        self.assertEqual((status, said.splitlines()[-1]), (1, f"{count} failed"))
        return said.partition("What failed:\n")[2]

    def test_layout(self):
        said = self.failing("2 passed, 1", layout="""echo 'failed: layout of a: b.rt'
echo '2 passed, 1 failed'
exit 1""")
        wanted = "./test layout, 2 passed, 1 failed:\nfailed: layout of a: b.rt\n"
        self.assertTrue(said.startswith(wanted), said)

    def test_what_failed_and_why(self):
        said = self.failing("14 passed, 1", c="""echo skipped: one: two
printf 'failed: values: status 1\nvalues.c:7: no\n'
echo skipped: three: four
echo '1 passed, 1 failed'
exit 1""")
        lines = ["./test c, 1 passed, 1 failed:", "failed: values: status 1", "values.c:7: no"]
        self.assertEqual(said.splitlines()[:3], lines)
        self.assertNotIn("three", said)

    def test_an_exception(self):
        said = self.failing("13 passed, 1", rust="exec python3 -c 'raise OSError(7, str(9))'")
        wanted = "which ended with status 1 and has no count of what passed and failed:\nTraceback "
        self.assertTrue(said.startswith(f"./test rust, {wanted}"), said)
        self.assertIn("OSError: [Errno 7] 9\n", said)

    def test_a_signal(self):
        for signal, name, is_memory in ((9, "KILL", True), (15, "TERM", False)):
            said = self.failing("13 passed, 1", picture=f"kill -{signal} $$")
            self.assertIn(f"./test picture, which ended by signal {signal} ({name}) and", said)
            self.assertEqual("for lack of memory" in said, is_memory, said)

    def test_a_status_that_no_count_explains(self):
        said = self.failing("14 passed, 1", tools="echo '1 passed, 0 failed'; exit 3")
        self.assertIn("./test tools, which ended with status 3 though nothing of its", said)

    def test_the_gate(self):
        """If the system killed a proof, that is reported as such."""
        def gate(*lines):
            said = " ".join(f"'{it}'" for it in (*lines, "5 passed, 1 failed", "rt ci: 9"))
            said = self.failing("18 passed, 1", gate=f"printf '%s\\n' {said}; exit 1")
            head = "scripts.timed_gate, 5 passed, 1 failed:"
            self.assertEqual(said.splitlines()[: 1 + len(lines)], [head, *lines])
            self.assertIn("\nrt ci: 9\nin all: ", said)
            return said

        tried = "rt: must-fail a/b.edit: NOT TRIED: its check ended with status 3"
        self.assertNotIn("for lack of memory", gate(tried))
        gate("rt: a: the program had not ended after 120 seconds", "rt: FAILED: a (run)")
        killed = "rt: the check was killed, most likely for memory: once more"
        self.assertIn("for lack of memory", gate(killed, "rt: c NOT PROVED"))

    def test_an_exception_in_a_test(self):
        """It is counted, and the tests after it are run."""
        def of_no_kind():
            raise KeyError("here")

        def one():
            pass

        with contextlib.redirect_stdout(io.StringIO()) as output:
            self.assertEqual(checks.count_functions([of_no_kind, one]), 1)
        self.assertIn("failed: of no kind: KeyError: 'here'\nTraceback", output.getvalue())
        with self.assertRaisesRegex(checks.Failed, r"\Ash -c kill -9 \$\$: signal 9\n\Z"):
            checks.run(["sh", "-c", "kill -9 $$"])
        self.assertEqual(output.getvalue().splitlines()[-1], "1 passed, 1 failed")

    def test_cases_are_named(self):
        class Cases(unittest.TestCase):
            def test_a(self):
                raise KeyError("here")

            def test_b(self):
                checks.need("no-such-command")

        with contextlib.redirect_stdout(io.StringIO()) as output:
            checks.count_cases(unittest.defaultTestLoader.loadTestsFromTestCase(Cases))
        lines = output.getvalue().splitlines()
        whys = [it.rpartition(": ")[2] for it in lines if it.startswith(("failed: ", "skipped: "))]
        self.assertEqual(whys, ["'here'", "no-such-command is not installed"])
        self.assertEqual(lines[-1], "0 passed, 1 failed")
