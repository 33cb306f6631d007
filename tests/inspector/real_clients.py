"""Real clients, with waywire-inspect between them and their compositor: the tool prints the messages that the
clients print."""
import collections
import re
import signal
import time

from tests import compositors
from tests.checks import COMES_UP, end, has_come, joined_tables, need
from tests.inspector.inspecting import LONG, Inspected
from tools.waywire import table_text

# The status of the tool if its command has made no connection.
NO_CONNECTION = 125
# The interface of an object that a client has destroyed, which libwayland no longer knows.
ZOMBIE = None
# A message as both print it; `number` is its first argument, if that is a number.
Told = collections.namedtuple("Told", "interface id name number")
# The opcodes of events, by the names of their interfaces and their own.
OPCODES = {(interface.name, it.name): opcode
           for interface in table_text.read_more(table_text.core_tables(), joined_tables())
           for opcode, it in enumerate(interface.event)}


class RealClients(Inspected):
    """Clients of libwayland, which WAYLAND_DEBUG makes say each message. A subclass starts a
    compositor. A test is skipped if a program of the distribution does not start."""

    # How clients end by SIGINT; of others it is not known.
    STATUS = {"weston-simple-shm": 0, "weston-flower": 128 + signal.SIGINT}
    # A line of WAYLAND_DEBUG: a time, an arrow where it is a request, and the message. Of an event for an
    # object that the client has destroyed libwayland knows no names, and prints the id with a sign.
    DEBUG = re.compile(r"\[ *[\d.]+\] (?:\{[^}]*\} )?(?:discarded )?( -> )?(?:(\w+)|\[\w+\])[@#](-?\d+)"
                       r"\.(\w+|\[event \d+\])\((?:(-?\d+)[.,)])?")
    LINE = re.compile(r"(->|<-) (\w+)@(\d+)\.(\w+)\((?:(-?\d+)[., )])?")

    def start_compositor(self, words, path, kept):
        """Starts a compositor, which is ended with the test."""
        return self.enterContext(compositors.running(words, path, self.folder, **kept))

    def end_all(self, programs):
        for it in programs:
            end(it)

    def parted(self, lines, form):
        """The requests, and the events of wl_display and others."""
        requests, own, others = [], [], []
        for line in lines:
            if not (found := form.match(line)):
                continue
            told = Told(*found.groups()[1:])
            told = told._replace(id=str(int(told.id) % 2**32))
            if found[1] and "->" in found[1]:
                requests.append(told)
            else:
                (own if told.interface == "wl_display" else others).append(told)
        return requests, own, others

    def as_they_came(self, told, printed):
        """The events that the client has printed, in the order in which they came. The client prints an event
        for an object that it has destroyed when it reads it, and any other event when it acts on it, some time
        later."""
        zombies = collections.Counter(it for it in told if it.interface is ZOMBIE)
        others, came = collections.deque(it for it in told if it.interface is not ZOMBIE), []
        opcodes = {it: OPCODES.get((it.interface, it.name)) for it in printed}
        zombie_of = {it: Told(ZOMBIE, it.id, f"[event {opcodes[it]}]", None) for it in printed}
        for it in printed:
            if others and others[0] == it:
                others.popleft()
            elif zombies[zombie_of[it]]:
                zombies[zombie_of[it]] -= 1
            else:
                break
            came.append(it)
        # One may have been read behind others that were not acted on any more.
        unread = zombies - collections.Counter(zombie_of[it] for it in printed[len(came):])
        return [*came, *others, *unread.elements()]

    def begins(self, whole, front, which):
        """Whether a list begins with another one and is not much longer. It may be much longer if a client
        waited."""
        for at, one in enumerate(front):
            if whole[at : at + 1] != [one]:
                self.fail(f"{which}, number {at} on: {front[at:at + 5]}, not {whole[at:at + 5]}")
        self.assertLess(len(whole) - len(front), 1000, which)

    def has_all(self, whole, part, which):
        """Whether a list has all elements of another one, each at least as often, and not much else."""
        self.assertFalse(collections.Counter(part) - collections.Counter(whole), which)
        self.assertLess(len(whole) - len(part), 1000, which)

    def start_at_files(self, *words, until=lambda said: len(said.splitlines()) > 40):
        """Starts the tool with files for what it says, and waits until a client has said so much. A
        client that says nothing has not come up."""
        paths = [f"{self.folder}/{it}" for it in ("said", "error")]
        with open(paths[0], "wb") as said, open(paths[1], "wb") as error:
            self.start(*words, stdout=said, stderr=error)
        self.comes_up(paths, " ".join(words))
        self.comes_true(lambda: until(self.read(paths[0])) or self.tool.poll() is not None)
        # What comes a little later is looked at, too.
        time.sleep(1)
        return paths

    def comes_up(self, paths, name):
        """Waits until the tool has said something of a client. One that makes no connection is
        skipped."""
        has_come(lambda: self.read(paths[0]) or self.tool.poll() is not None)
        if not self.read(paths[0]):
            self.assertIn(self.tool.poll(), (None, NO_CONNECTION), self.read(paths[1]))
            error = self.read(paths[1])[-300:]
            self.skipTest(f"{name} has not come up within {COMES_UP} s: {error!r}")

    def comes_true(self, test):
        self.assertTrue(has_come(test, LONG), f"it has not come within {LONG} s")

    def read(self, path):
        with open(path, encoding="utf-8", errors="replace") as file:
            return file.read()

    def same_messages(self, error, said, has_queues=False):
        """The client prints the same messages as the tool, in the same order in each direction, except at the
        end: it may not have sent some requests that it wrote, or not have acted on some events. A client with
        queues of its own may act on the events of one queue before earlier events of another one, so only the
        events for each object are in order. Its threads take events of wl_display off their queue and print
        them a little later, so two threads may print them in the other order; these events are only counted.
        Returns how many messages were compared."""
        told = self.parted(error.splitlines(), self.DEBUG)
        printed = self.parted(said.splitlines(), self.LINE)
        # libwayland says nothing of an event for an object that nobody listens to.
        heard = {it[:2] for it in told[2]}
        others = [it for it in printed[2] if it[:2] in heard or (ZOMBIE, it.id) in heard]
        self.begins(told[0], printed[0], "requests")
        if has_queues:
            self.has_all(printed[1], told[1], "events of wl_display")
        else:
            self.begins(printed[1], told[1], "events of wl_display")
        for one in {it.id for it in (*told[2], *others)} if has_queues else {None}:
            its = [[it for it in events if one in (None, it.id)] for events in (told[2], others)]
            self.begins(its[1], self.as_they_came(*its), f"events for {one or 'objects'}")
        return sum(map(len, (printed[0], told[1], told[2])))

    def inspected(self, *command, meanwhile=lambda path: None, least=20, **kept):
        """Runs a client for a while: it says each message, and so does the tool; and what was recorded has
        the same verdict. `meanwhile` is given the path of what the tool says. Returns that."""
        need(command[0])
        self.env["WAYLAND_DEBUG"] = "1"
        paths = self.start_at_files("--record", self.recorded, *command, **kept)
        meanwhile(paths[0])
        self.comes_true(lambda: self.read(paths[0]).count("-> ") > least or self.tool.poll() is not None)
        self.finish(signal.SIGINT, None)
        # The tool tells one again to end that has not ended after two seconds, and then kills it.
        usual, status = self.STATUS.get(command[0]), self.tool.returncode
        late = (128 + signal.SIGTERM, 128 + signal.SIGKILL)
        self.assertTrue(usual is None or status in (usual, *late), status)
        said, error = (self.read(it) for it in paths)
        self.assertGreater(error.count(" -> "), least)
        self.same_messages(error, said)
        verdict = said.splitlines()[-1]
        self.assertTrue(verdict.startswith("lawful: "), verdict)
        self.checked(self.recorded, said.splitlines(), "--tables", self.all_tables())
        return said
