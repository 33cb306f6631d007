"""Tests the library for C: builds it if it is not built yet, and runs programs in C that use it.

    ./test c [PROGRAM] [--short | TEST..]

PROGRAM is a built `waywire`, which traces what the session in C wrote. `--short`, as in `make check`, runs only the
tests that take seconds and need no compositor. With names of tests, such as installed, only these are run:
TESTS_IN_ORDER in tests/parts/c.py lists them. It prints what failed, and what was skipped because something is not
installed (scripts/install-packages installs all of it). The last line counts what passed and failed. The exit status
is 0 if nothing failed."""
import glob
import os
import re
import subprocess
import sys
import tempfile

from scripts import usage
from tests import checks, clipboards, compositors, gnome, reference
from tests.checks import (COMPILERS, LONG, STRICT, TOP, Failed, Skipped, can, ended, is_installed, is_whole,
                          joined_tables, need, need_protocols, protocols, run, start_and_wait)
from tests.installing import (compiled_without_a_proof, debian_package, debian_package_at_a_clean_debian,
                              inspector_is_installed, installed, installing_compiles_nothing, package,
                              taken_from_a_package)
from tools.waywire import table_text

OUT = os.path.join(TOP, "out", "c")
ARCHIVE = os.path.join(OUT, "libwaywire.a")
INSPECT = os.path.join(OUT, "waywire-inspect")
REPLAY = os.path.join(OUT, "waywire-replay")
TESTS = os.path.join(TOP, "tests", "c")
EXAMPLES = os.path.join(TOP, "examples", "c")
C = ["cc", "-O1", "-g", "-Wall", "-Wextra", "-Werror", "-Wno-missing-field-initializers", "-I", os.path.join(TOP, "include"), "-I", TESTS]
VALGRIND = ["valgrind", "-q", "--leak-check=full", "--show-leak-kinds=all", "--errors-for-leak-kinds=all",
            "--error-exitcode=9"]
COLOUR = "ff336699"
# The files of tests whose compositor did not start, and its output.
LATE = {}


def libwayland(*parts):
    """The arguments of the compiler for parts of libwayland."""
    need("pkg-config")
    found = subprocess.run(["pkg-config", "--cflags", "--libs", *parts], capture_output=True)
    if found.returncode or not is_whole("libwayland-dev"):
        raise Skipped(f"{', '.join(parts)} is not installed")
    return found.stdout.decode().split()


def compiled(name, *more, sources=()):
    """Compiles a program of tests/c against the header and the archive, and returns its path."""
    path = os.path.join(OUT, name)
    files = [os.path.join(TESTS, name + ".c"), *sources]
    run([*C, "-std=gnu11", *files, ARCHIVE, "-o", path, *more])
    return path


def wrapped(*functions):
    """The arguments of the compiler for functions that a test replaces."""
    return [f"-Wl,--wrap={it}" for it in functions]


# What tests/c/refusing.h replaces.
REFUSING = ("malloc", "calloc", "realloc", "free")


def of_program(test_name, name, *words, wraps=(), sources=(), checked=None, timeout=LONG):
    """A test that a program of tests/c ends well with these words, and under valgrind with the words `checked`."""
    def test(_program):
        path = compiled(name, *wrapped(*wraps), sources=sources)
        run([path, *words], timeout=timeout)
        if checked is not None:
            need("valgrind")
            run([*VALGRIND, path, *checked])
    test.__name__ = test_name
    return test


# ---- the tests


def header_is_c99_and_cpp(_program):
    headers = ("waywire.h", "waywire-core.h", "waywire-socket.h")
    text = "".join(f"#include <{it}>\n" for it in headers) + "int main(void) { return 0; }\n"
    for words in (["cc", "-std=c99", "-x", "c"], ["c++", "-std=c++11", "-x", "c++"]):
        need(words[0])
        run([*words, "-Wall", "-Wextra", "-Wpedantic", "-Werror", "-fsyntax-only", "-I", "include", "-"],
            input=text.encode())


def stub_of(name, path):
    """Makes the header of a protocol, and returns its name."""
    header = f"{name}-stubs.h"
    with open(os.path.join(OUT, header), "w", encoding="utf-8") as file:
        file.write(run(["tools/stubs-from-xml", path]))
    return header


def every_stub(name, header, path, *words, tables=()):
    """Compiles and runs a program that sends each message of a protocol by its typed call."""
    source = os.path.join(OUT, f"every_{name}.c")
    with open(source, "w", encoding="utf-8") as file:
        given = [*words, *(f"--tables={it}" for it in tables)]
        file.write(run([sys.executable, "-m", "tests.every_stub", *given, header, path]))
    built = source[:-2]
    run([*C, "-std=c99", "-I", OUT, source, ARCHIVE, "-o", built])
    said = run([built, *tables])
    if said == "0 messages\n":
        raise Failed(f"{name}: no message was sent")


def every_message_goes_by_its_stub(_program):
    """Each message of the core and of each protocol in protocols/ is sent by its typed call, and dispatched."""
    run([*C, "-I", OUT, "-fsyntax-only", "include/waywire-core.h"])
    every_stub("core", "waywire-core.h", "protocols/core/core.xml", "--prefix", "waywire_")
    tables = all_tables()
    for name, path in protocols().items():
        every_stub(name, stub_of(name, path), path, tables=[tables])


def stubs_compile_everywhere(_program):
    """The headers compile as C99 and as C++, together with each other and with those of libwayland."""
    headers = ["waywire-core.h", "waywire-socket.h", *(stub_of(*it) for it in protocols().items())]
    try:
        beside = libwayland("wayland-client", "wayland-server")
        headers = ["wayland-client.h", "wayland-server.h", *headers]
    except Skipped:
        beside = []
    text = "".join(f"#include <{it}>\n" for it in headers) + "int main(void) { return 0; }\n"
    for words in COMPILERS:
        if is_installed(words[0]):
            # Warnings about libwayland's own headers do not count.
            flags = [it for it in beside if it.startswith("-I")]
            run([*words, *STRICT, "-I", "include", "-I", OUT, *flags, "-"], input=text.encode())


# The calls that only one end has, and those that both have, as statements that use an end.
OF_ONE_END = {
    "client": ['waywire_client_bind({}, object, 1, "wl_seat", 1, &object)', "waywire_client_made({}, &object)",
               'waywire_client_bind_unannounced({}, object, 1, "wl_seat", 1, &object)',
               'waywire_client_more_tables({}, "", 0, NULL, NULL)', "waywire_wl_display_sync({}, display, NULL)"],
    "server": ["waywire_server_add_global({}, 0, 1, NULL)", "waywire_server_withdraw({}, 1)",
               "waywire_server_allow_globals({}, 2000)",
               "waywire_server_announce({}, NULL, NULL)", "waywire_server_drop_object({}, object)",
               "waywire_server_end_object({}, object)", "waywire_server_next_unanswered({}, &report)",
               'waywire_server_post_error({}, object, 1, "x")', "waywire_wl_callback_send_done({}, callback, 1)"],
}
OF_BOTH = ["waywire_end_live({}, object, NULL, NULL)", "waywire_end_next({}, &report)", "waywire_end_free({})",
           "waywire_end_tables({})", 'waywire_end_more_tables({}, "", 0, NULL, NULL)']
# Typed calls, with objects of the right interface and with objects of another.
OF_INTERFACES = {
    "right": ["waywire_wl_surface_attach(client, surface, buffer, 0, 0)",
              "waywire_wl_surface_send_enter(server, surface, output)",
              "waywire_wl_surface_frame(client, surface, &callback)", "surface = waywire_wl_surface_of(object)",
              "waywire_end_live(client.end, surface.object, NULL, NULL)"],
    "wrong": ["waywire_wl_surface_attach(client, buffer, surface, 0, 0)",
              "waywire_wl_surface_attach(client, object, buffer, 0, 0)",
              "waywire_wl_surface_send_enter(server, output, surface)", "surface = object", "surface = buffer",
              "waywire_end_live(client.end, surface, NULL, NULL)", "buffer = waywire_wl_surface_of(object)"],
}
OF_ENDS = """#include <waywire-core.h>
void calls(waywire_client client, waywire_server server, waywire_object object, waywire_report report,
	waywire_wl_display display, waywire_wl_callback callback, waywire_wl_surface surface, waywire_wl_buffer buffer,
	waywire_wl_output output)
{{
	(void)client, (void)server, (void)object, (void)report;
	(void)display, (void)callback, (void)surface, (void)buffer, (void)output;
	{};
}}
"""


def compiles(words, statements):
    """Whether a compiler accepts these calls. Only errors of the language count, not warnings."""
    text = OF_ENDS.format(";\n\t".join(statements))
    ran = subprocess.run([*words, "-w", "-fsyntax-only", "-I", "include", "-"], cwd=TOP, input=text.encode(),
                         capture_output=True, timeout=LONG)
    return ran.returncode == 0


def ends_and_objects_have_types(_program):
    """In C and in C++: a call that only one end has compiles neither with the other end nor with the member `end`. A
    call that both ends have compiles only with `end`. A typed call does not compile with an object of another
    interface."""
    right = [it.format(end) for end, calls in OF_ONE_END.items() for it in calls]
    right += [it.format(f"{end}.end") for end in OF_ONE_END for it in OF_BOTH]
    wrong = [it.format(given) for end, calls in OF_ONE_END.items() for it in calls
             for given in ("client", "server", f"{end}.end") if given != end]
    right += OF_INTERFACES["right"]
    wrong += [it.format(end) for end in OF_ONE_END for it in OF_BOTH] + OF_INTERFACES["wrong"]
    for words in COMPILERS:
        if not is_installed(words[0]):
            continue
        if not compiles(words, right):
            raise Failed(f"{words[0]}: it refuses calls that are right")
        for it in wrong:
            if compiles(words, [it]):
                raise Failed(f"{words[0]}: {it} compiles")


def session(program):
    """The session of the demonstration, carried in pieces of three sizes, and the trace of what passed."""
    path = compiled("session")
    with open(os.path.join(TESTS, "session.out"), encoding="utf-8") as file:
        wanted = file.read()
    for most in ("1", "7", "4096"):
        recording = os.path.join(OUT, f"session-{most}.rec")
        if run([path, most, recording]) != wanted:
            raise Failed(f"carries of {most} bytes: the output differs from tests/c/session.out")
        if program and run([program, "trace", recording]) != demonstration(program):
            raise Failed(f"carries of {most} bytes: the trace differs from the demonstration's")


def demonstration(program):
    """The trace of the demonstration: its output without the last line."""
    return "".join(run([program, "demo"]).splitlines(True)[:-1])


def values(_program):
    run([compiled("values")])
    run([compiled("edges")])
    run([compiled("decoded")])


def all_tables():
    """Writes the joined texts of protocols/ to a file, and returns its path."""
    joined = os.path.join(OUT, "all.tables")
    with open(joined, "wb") as file:
        file.write(joined_tables())
    return joined


def inspector_says_what_the_reference_says(_program):
    """The lines and the verdict for each recording in examples/, with the core's tables and with more, however the
    pieces are cut."""
    path, more = compiled("inspector"), all_tables()
    core = table_text.core_tables()
    with open(more, "rb") as file:
        known = {"-": core, more: table_text.read_more(core, file.read())}
    for recording in sorted(glob.glob(os.path.join(TOP, "examples", "*.rec"))):
        with open(recording, "rb") as file:
            text = file.read()
        for tables, read in known.items():
            lines, verdict = reference.judged(read, text)
            wanted = "".join(f"{it}\n" for it in [*lines, verdict])
            for most in ("1", "7", "100000"):
                if run([path, recording, tables, most], verdict.startswith("broken: ")) != wanted:
                    raise Failed(f"{recording} {tables}, parts of {most} bytes: it says something else")


def no_error_and_no_leak(_program):
    need("valgrind")
    run([*VALGRIND, compiled("inspector"), "examples/surface.rec", "-", "7"])
    run([*VALGRIND, compiled("session"), "7"])
    run([*VALGRIND, compiled("values")])
    run([*VALGRIND, compiled("edges")])


MEMORY = ("malloc", "realloc", "free")
OUTPUTS = "protocols/output-management.tables"
USERS = os.path.join(TOP, "c", "lib", "users.c")
ALONE = (
    # In each run another allocation of a call fails.
    of_program("refused_allocations", "refused", wraps=REFUSING),
    # What an inspector says about messages that are judged or not, however they are cut; also if any allocation fails.
    of_program("followed_messages", "following", wraps=REFUSING, checked=()),
    # The caller's pointers at objects of both ranges of ids are kept apart, and their memory grows with their number.
    of_program("pointers_of_both_ranges", "users", wraps=MEMORY[:2], sources=[USERS], checked=()),
    # Ends with objects that the server makes: their pointers, their cost, and allocations that fail.
    of_program("objects_of_the_server", "made", wraps=MEMORY),
    # Objects of the server that are replaced while they live: the reports have the old objects and their pointers, and a
    # program that frees these leaks nothing.
    of_program("replaced_objects", "replaced", OUTPUTS, checked=[OUTPUTS]),
    # An end's tables grow while it has objects: texts that are refused, when tables are freed, and a late global.
    of_program("tables_that_grow", "more_tables", "all", checked=()),
    # What a server's caller does in place of the library: it ends objects, and answers faults.
    of_program("server_whose_caller_decides", "ended", checked=()),
    # A million messages of random calls, some of them wrong, compared with a model; some allocations fail.
    of_program("random_calls", "fuzz", "1000000", wraps=MEMORY[:2], timeout=2 * LONG),
    # A connection that is broken or closed while descriptors wait leaves none open.
    of_program("no_descriptor_is_left_open", "closing"),
    # Everything arrives through a socket that takes only a part at a time, without a second buffer.
    of_program("socket_takes_a_part", "parts"),
    # Bytes whose tokens had no room wait in the space that was lent, whatever is read and sent meanwhile.
    of_program("space_keeps_what_was_written", "space"),
    # A server asks for the room of its outbox once for the messages of a read; nothing that is written takes the room of
    # a callback, and a global that a callback adds comes before the answer to the next message.
    of_program("asks_for_room_once_a_read", "asking",
               wraps=("waywire_end_out_room", "waywire_server_announce"), checked=()),
    # 100,000 open registries take less than 120 MB.
    of_program("many_registries", "registries"),
    # Ten gigabytes pass an inspector.
    of_program("long_session_takes_no_more_memory", "long_session", timeout=2 * LONG),
)


def sockets(_program):
    """Sockets: each environment variable and each error, the lock, a socket that was left behind, descriptors."""
    with tempfile.TemporaryDirectory() as folder:
        run([compiled("sockets", *wrapped("flock")), tempfile.mkdtemp(dir=folder)])


def connections(_program):
    """Connections: which callbacks they call, when data are destroyed, how they wait and end. An object that an event
    makes is destroyed if nobody listens to the event."""
    checked = VALGRIND if can("connections under valgrind", "valgrind") else []
    for name in ("connections", "connection_ends", "unheard"):
        more = [*wrapped("clock_gettime", "poll"), "-pthread"] if name == "connection_ends" else []
        path = compiled(name, *more)
        run([path])
        run([*checked, path])


def connections_without_memory(_program):
    """In each run another allocation of a connection's calls fails."""
    path = compiled("connection_memory", *wrapped(*REFUSING))
    with tempfile.TemporaryDirectory() as folder:
        run([path, folder])


def instructions_of(program, work, beside):
    """The instructions of one round of a task of a program, beside so many registries or messages."""
    counted = ["valgrind", "--tool=callgrind", "--callgrind-out-file=/dev/null",
               "--toggle-collect=measured"]
    command = [os.path.join(OUT, program), work, str(beside)]
    said = run([*counted, *command], with_error=True)
    return int(re.search(r"Collected *: *(\d+)", said)[1]) / int(said.split()[0])


def works_beside_many_registries(_program):
    """With 10,000 open registries, making and destroying objects and registries, announcing and reading globals takes
    at most three times the instructions that it takes with ten."""
    need("valgrind")
    compiled("registries")
    for work in ("destroys", "announces", "opens", "replaces", "tells"):
        few, many = (instructions_of("registries", work, it) for it in (10, 10_000))
        if many > 3 * few:
            raise Failed(f"{work}: {many:.0f} instructions each, and beside ten {few:.0f}")


def works_beside_waiting_messages(_program):
    """An event that is answered by a request, a request, and a sync take the same instructions beside 0, 500 and 5,000
    messages that wait to be sent."""
    need("valgrind")
    compiled("waiting")
    for work in ("answers", "requests", "syncs"):
        none, *more = (instructions_of("waiting", work, it) for it in (0, 500, 5000))
        if max(more) > 1.1 * none:
            raise Failed(f"{work}: {max(more):.0f} instructions each, and beside no message {none:.0f}")


def growth_takes_what_is_added(_program):
    """The tables of an end that grows by one interface after another: of a thousand, each takes at most four times the
    instructions that it takes of a hundred. Nothing leaks."""
    need("valgrind")
    path = compiled("growing")
    for end in ("client", "server", "extended"):
        few, many = (instructions_of("growing", end, it) for it in (100, 1000))
        if many > 4 * few:
            raise Failed(f"{end}: {many:.0f} instructions each of a thousand, and of a hundred {few:.0f}")
        run([*VALGRIND, path, end, "20"])


def shared_tables(_program):
    """Threads share tables: nothing leaks, and there is no data race."""
    path = compiled("shared", "-pthread")
    run([path])
    need("valgrind")
    run([*VALGRIND, path])
    for tool in ("helgrind", "drd"):
        run(["valgrind", "-q", f"--tool={tool}", "--error-exitcode=9", path])


def no_leak_to_the_sanitizer(_program):
    """LeakSanitizer finds nothing, if the compiler has it."""
    probe = subprocess.run(["cc", "-fsanitize=leak", "-x", "c", "-", "-o", os.path.join(OUT, "probe")],
                           input=b"int main(void) { return 0; }", capture_output=True)
    if probe.returncode or subprocess.run([os.path.join(OUT, "probe")], capture_output=True).returncode:
        raise Skipped("the compiler has no LeakSanitizer, or it cannot run here")
    for name in ("shared", "values", "edges", "decoded", "connections"):
        run([compiled(name, "-fsanitize=leak", "-pthread")])


def example(name, *words, folder=OUT):
    need("make")
    need_protocols()
    run(["make", "-s", "-C", EXAMPLES, "CFLAGS=-O1 -g -Wall -Wextra -Werror", f"OUT={folder}",
         f"library={ARCHIVE}", *words])
    return os.path.join(folder, name)


def examples(_program):
    """The example client opens a surface at the example server, which reads its picture."""
    need("make")
    with tempfile.TemporaryDirectory() as folder:
        socket = os.path.join(folder, "wayland-test")
        checked = VALGRIND if can("the examples under valgrind", "valgrind") else []
        server = start_and_wait([*checked, example("server"), socket], socket)
        try:
            run([*checked, example("client")], env={**os.environ, "WAYLAND_DISPLAY": socket})
            output = ended(server)
        finally:
            server.kill()
        if output != f"server: a picture of 64 by 64, its first pixel {COLOUR}\n":
            raise Failed(f"the server says {output!r}")


def exports_its_calls_alone(_program):
    """Both libraries export each call of the headers, and nothing else."""
    need("nm")
    text = checks.read("include/waywire.h") + checks.read("include/waywire-socket.h")
    lines = [it for it in text.splitlines() if not it.startswith(("static", "typedef"))]
    declared = {it for line in lines for it in re.findall(r"^[a-z].*?(waywire_\w+)\(", line)}
    for words in (["nm", "-g", "--defined-only", ARCHIVE],
                  ["nm", "-D", "--defined-only", os.path.join(OUT, "libwaywire.so")]):
        defined = {line.split()[2] for line in run(words).splitlines() if len(line.split()) == 3}
        if defined != declared:
            raise Failed(f"{words[-1]}: {sorted(defined ^ declared)} is not both declared and defined")


def sockets_are_those_of_libwayland(_program):
    """Connecting fails with the same errors as in libwayland, and each library respects the other's locks."""
    words = libwayland("wayland-client", "wayland-server")
    with tempfile.TemporaryDirectory() as folder:
        run([compiled("beside_libwayland", *words), tempfile.mkdtemp(dir=folder)])


def libwayland_at_our_server(_program):
    """A client of libwayland at our server, over a socket, with descriptors both ways."""
    words = libwayland("wayland-client")
    run([compiled("our_server", *words)])


def compositor(_program):
    """The example client at a compositor of the distribution, without a screen."""
    need("weston", "make")
    with tempfile.TemporaryDirectory() as folder:
        words, path, kept = compositors.weston(folder, os.environ)
        with compositors.running(words, path, folder, **kept):
            run([example("client")], env={**kept["env"], "WAYLAND_DISPLAY": path})


def client_of_weston_at_our_compositor(_program):
    compositors.serves_a_client_of_weston(example("server"))


def client_of_gtk_at_our_compositor(_program):
    checked = VALGRIND if can("the example server under valgrind", "valgrind") else []
    compositors.serves_a_client_of_gtk(*checked, example("server"))


def example_server():
    """The command that starts the example compositor, with data-control, under valgrind."""
    if "data-control" not in protocols():
        raise Skipped("wlr-data-control is not installed")
    checked = VALGRIND if can("the example server under valgrind", "valgrind") else []
    return [*checked, example("server"), "--stay"]


def texts_at_our_compositor(_program):
    clipboards.passes_texts(*example_server())


def clients_go_at_our_compositor(_program):
    clipboards.goes_on_without_a_client(*example_server())


def much_at_our_clipboard(_program):
    words = example_server()
    clipboards.bears_much(compiled("clipboard", "-I", OUT), *words)


def greedy_clients_at_our_compositor(_program):
    server = example("server")
    clipboards.bears_greedy_clients(compiled("greedy", "-I", OUT), server, "--stay")


def idle_clients_at_our_compositor(_program):
    clipboards.idle_clients_give_way(example("server"), "--stay")


def gtk_copies_and_pastes_at_our_compositor(_program):
    clipboards.serves_gtk([example("client"), "--paste"], *example_server())


def foot_copies_at_our_compositor(_program):
    clipboards.serves_foot(*example_server())


def windows_copy_and_paste_at_our_compositor(_program):
    """Without data-control, wl-copy and wl-paste open windows, which get the focus."""
    checked = VALGRIND if can("the example server under valgrind", "valgrind") else []
    with tempfile.TemporaryDirectory() as folder:
        client, server = (example(it, "DATA_CONTROL=", folder=folder) for it in ("client", "server"))
        clipboards.client_pastes_at_ours([client, "--paste"], [], *checked, server)


def client_pastes_at_our_compositor(_program):
    checked = VALGRIND if can("the example client under valgrind", "valgrind") else []
    clipboards.client_pastes_at_ours([example("client"), "--paste"], checked, *example_server())


def client_pastes_during_a_drag(_program):
    checked = VALGRIND if can("the example client under valgrind", "valgrind") else []
    client = example("client")
    clipboards.client_pastes_during_a_drag(compiled("dragging", "-I", OUT), [client, "--paste"], checked)


def client_pastes_at_sway(_program):
    checked = VALGRIND if can("the example client under valgrind", "valgrind") else []
    clipboards.client_pastes_at_sway([example("client"), "--paste"], checked)


def inspecting(program, *names, by=(), file="inspecting", folder="inspector"):
    """Runs tests of a file in tests/inspector or tests/replay, with a command that runs the tools. Says which are
    skipped, and why. If a compositor did not start, it is not tried again."""
    if file in LATE:
        raise Skipped(LATE[file])
    env = {**os.environ, "INSPECT": " ".join([*by, INSPECT]), "REPLAY": " ".join([*by, REPLAY])}
    if program and os.path.exists(program):
        env["WAYWIRE"] = program
    said = run([sys.executable, "-m", f"tests.{folder}.{file}", *names], env=env, timeout=2 * LONG)
    skipped = re.findall("^skipped: (.*)", said, re.M)
    late = re.search(r": ((?:sway|weston) has not come up .*)", said)
    if late:
        LATE[file] = late[1]
    if said.endswith("\n0 passed, 0 failed\n"):
        if not skipped:
            raise Failed(f"{file} has run no test")
        raise Skipped("; ".join(skipped))
    for it in skipped:
        print(f"skipped: {it}")


def inspector_has_no_error_and_no_leak(program):
    need("valgrind")
    inspecting(program, "Asking", by=[*VALGRIND, "--track-fds=yes"], file="questions")
    inspecting(program, "Hanging.test_what_hangs", "Hanging.test_a_buffer", "Hanging.test_a_selection",
               by=[*VALGRIND, "--track-fds=yes"], file="hangs")
    inspecting(program, "Bytes.test_descriptors", "Bytes.test_what_cannot_be_cut", "Verbs.test_lines", "Ends.test_a_signal",
               by=[*VALGRIND, "--track-fds=yes"], file="faults")
    inspecting(program, "Names.test_in_json", "Names.test_arrays_of_numbers", "Names.test_what_an_xml_says",
               by=[*VALGRIND, "--track-fds=yes"], file="names")
    inspecting(program, "Before", by=[*VALGRIND, "--track-fds=yes"], file="lines")
    inspecting(program, "Judging", "Files.test_a_recording", "Lacking.test_null_for_an_object_that_is_gone",
               by=[*VALGRIND, "--track-fds=yes"], file="debug_logs")
    inspecting(program, "Unjudged", "Broken.test_what_was_destroyed", "Printing.test_stats", "Json.test_messages",
               "Json.test_kinds_of_arguments", "Json.test_births", "Json.test_broken", "Json.test_unjudged",
               "Tables.test_an_interface_that_is_given", "Recording.test_head_and_times",
               by=[*VALGRIND, "--track-fds=yes"], file="words")
    inspecting(program, "Passing.test_bytes_and_descriptors", "Judging.test_a_command",
               "Judging.test_several_clients", "Failing.test_a_compositor_that_goes",
               "Sockets.test_its_socket_and_its_lock", by=[*VALGRIND, "--track-fds=yes"])


def inspector_at_mutter(_program):
    """Programs of GTK 3 and 4 at the compositor of GNOME."""
    gnome.is_judged_at_mutter(INSPECT)


def of_inspector(name, file="inspecting", tests="", needed=""):
    """A test that runs tests of a file in tests/inspector, if what they need is installed."""
    def test(program):
        need(*needed.split())
        inspecting(program, *tests.split(), file=file)
    test.__name__ = name
    return test


def of_desktop(name, kind, needed):
    """A test of programs at sway, with a keyboard and a text in the clipboard."""
    return of_inspector(f"inspector_at_{name}", "at_a_desktop", f"Desktop.test_{kind}", f"sway wtype wl-copy {needed}")


INSPECTOR = (
    # waywire-inspect passes everything on, names what breaks a rule, and reports what goes wrong.
    of_inspector("inspector", tests="Passing Sockets Judging Failing"),
    # What it prints, records and reads.
    of_inspector("inspector_words", "words"),
    # The XML that it reads.
    of_inspector("inspector_installed_xml", "installed_xml"),
    # What was asked and not answered, and when a session ended.
    of_inspector("inspector_questions", "questions"),
    # What hangs, while it does.
    of_inspector("inspector_hangs", "hangs"),
    # What the program says of the same recordings.
    of_inspector("inspector_verdicts", "verdicts"),
    # What --strict refuses, and what ends the tool at once.
    of_inspector("inspector_strict", "strict"),
    # The keys of --json, and their schema.
    of_inspector("inspector_json_lines", "json_lines", needed="jq"),
    # The names that it prints beside numbers.
    of_inspector("inspector_names", "names"),
    # The files that it reads and writes.
    of_inspector("inspector_files", "files"),
    of_inspector("inspector_windows", "windows"),
    # Those of a direction, and those of a file that changes.
    of_inspector("inspector_filters", "filters"),
    # Recordings of any length, and those that grow.
    of_inspector("inspector_reads_long_recordings", "long_recordings"),
    # Faults on purpose, in messages that pass.
    of_inspector("inspector_faults", "faults"),
    of_inspector("inspector_silences", "silences"),
    # What it prints beside messages: times, programs, what led to an error.
    of_inspector("inspector_lines", "lines"),
    # Logs of WAYLAND_DEBUG.
    of_inspector("inspector_debug_logs", "debug_logs"),
    # Generated sessions with interfaces that it does not know.
    of_inspector("inspector_names_what_is_so", "unknown_sessions"),
    # Recorded sessions, read without some of their tables.
    of_inspector("inspector_without_tables", "without_tables"),
    # The cost of an attack is linear in the number of its messages.
    of_inspector("inspector_takes_what_passes", "attacks", needed="valgrind"),
)
# It prints the messages that WAYLAND_DEBUG or the compositor's log names.
INSPECTOR_AT_PROGRAMS = (
    # Also if the compositor hangs or is killed.
    of_inspector("inspector_at_a_client_of_weston", "at_weston", "Weston.test_simple_shm "
                 "Weston.test_the_compositor_hangs Weston.test_the_compositor_is_killed", "weston weston-simple-shm"),
    # Faults on purpose.
    of_inspector("inspector_makes_faults_at_a_client_of_weston", "at_weston", "Weston.test_faults",
                 "weston weston-simple-shm"),
    of_inspector("inspector_makes_faults_at_a_client_of_gtk", "at_weston", "Weston.test_faults_of_gtk", "weston zenity"),
    of_inspector("inspector_makes_faults_at_programs", "faults_at_programs", needed="sway wl-copy wl-paste"),
    # The script of docs/BUILDS.md.
    of_inspector("inspector_in_a_build", "in_a_build", needed="weston weston-simple-shm"),
    of_inspector("inspector_at_a_client_of_cairo", "at_weston", "Weston.test_flower", "weston weston-flower"),
    of_inspector("inspector_at_a_client_of_gtk", "at_weston", "Weston.test_gtk", "weston zenity"),
    # A compositor that makes an object for each selection.
    of_inspector("inspector_at_clients_that_copy_and_paste", "at_sway", "Sway.test_wl_paste Sway.test_wl_copy",
                 "sway wl-copy wl-paste"),
    of_inspector("inspector_at_a_client_of_gtk_that_copies_and_pastes", "at_sway", "Sway.test_gtk",
                 "sway wl-copy wl-paste wtype zenity"),
    of_desktop("programs_of_gtk3", "gtk3", "zenity gtk3-demo"),
    of_desktop("programs_of_gtk4", "gtk4", "gtk4-demo"),
    inspector_at_mutter,
    # Each message, judged or not.
    of_inspector("inspector_beside_the_log_of_mutter", "at_mutter", needed="mutter dbus-daemon"),
    of_desktop("a_program_of_qt", "qt", "featherpad"),
    of_desktop("foot", "foot", "foot"),
    of_desktop("swaybg", "swaybg", "swaybg"),
    of_desktop("wlr_randr", "wlr_randr", "wlr-randr"),
    of_desktop("waybar", "waybar", "waybar"),
    of_desktop("mpv", "mpv", "mpv"),
    of_desktop("the_clients_of_weston", "weston", "weston-flower"),
    of_desktop("the_primary_selection", "primary_selection", "wl-paste"),
    # What it reads in their logs is what it has said of their sessions.
    of_inspector("inspector_debug_logs_at_sway", "debug_logs_of_programs", "AtSway TheLogOfSway", "sway wtype wl-copy"),
    of_inspector("inspector_debug_logs_at_weston", "debug_logs_of_programs", "AtWeston", "weston"),
    of_inspector("inspector_debug_logs_at_kwin_and_mutter", "debug_logs_of_programs", "AtKWinAndMutter",
                 "kwin_wayland mutter dbus-daemon"),
    # It names the message of sway that breaks a rule.
    of_desktop("wf_recorder", "wf_recorder", "wf-recorder"),
)


def replay(program):
    """waywire-replay at compositors that the tests play: what it sends, where the sessions part, what it refuses."""
    inspecting(program, file="replaying", folder="replay")


def replay_has_no_error_and_no_leak(program):
    need("valgrind")
    inspecting(program, "Playing", "Parting", by=[*VALGRIND, "--track-fds=yes"], file="replaying", folder="replay")


def replay_at_compositors(program):
    """Programs that were recorded at a compositor are played there to their end."""
    inspecting(program, file="at_compositors", folder="replay")


TESTS_IN_ORDER = (header_is_c99_and_cpp, every_message_goes_by_its_stub,
                  stubs_compile_everywhere, ends_and_objects_have_types, session, values,
                  inspector_says_what_the_reference_says, no_error_and_no_leak, *ALONE,
                  sockets, connections, connections_without_memory, works_beside_many_registries,
                  works_beside_waiting_messages, growth_takes_what_is_added, shared_tables,
                  no_leak_to_the_sanitizer, exports_its_calls_alone, examples, installed, installing_compiles_nothing,
                  package, debian_package, debian_package_at_a_clean_debian,
                  sockets_are_those_of_libwayland, libwayland_at_our_server, compositor,
                  client_of_weston_at_our_compositor, client_of_gtk_at_our_compositor,
                  texts_at_our_compositor, clients_go_at_our_compositor, much_at_our_clipboard,
                  greedy_clients_at_our_compositor, idle_clients_at_our_compositor,
                  gtk_copies_and_pastes_at_our_compositor, foot_copies_at_our_compositor,
                  windows_copy_and_paste_at_our_compositor, client_pastes_at_our_compositor,
                  client_pastes_during_a_drag, client_pastes_at_sway,
                  *INSPECTOR, inspector_has_no_error_and_no_leak, replay, replay_has_no_error_and_no_leak,
                  replay_at_compositors, inspector_is_installed, taken_from_a_package,
                  compiled_without_a_proof, *INSPECTOR_AT_PROGRAMS)
BY_NAME = {it.__name__: it for it in TESTS_IN_ORDER}
# What `make check` runs.
SHORT = [BY_NAME[it] for it in """header_is_c99_and_cpp ends_and_objects_have_types session values tables_that_grow
    followed_messages pointers_of_both_ranges replaced_objects sockets connections
    no_descriptor_is_left_open socket_takes_a_part space_keeps_what_was_written exports_its_calls_alone
    examples""".split()]


def asked(words):
    """The program and the tests that the command line names."""
    named = [BY_NAME[it] for it in words if it in BY_NAME]
    others = [it for it in words if it not in BY_NAME and it != "--short"]
    for place, it in enumerate(others):
        if place or not os.path.isfile(it):
            usage.refuse(f"{it} is {'a second program' if place else 'neither a test nor a file'}")
    tests = SHORT if "--short" in words else named or TESTS_IN_ORDER
    return os.path.abspath(others[0]) if others else None, tests


def main():
    program, tests = asked(usage.words(__doc__, "--short"))
    if not can("the library for C", "cc", "make"):
        return checks.counted(0, 0)
    if not checks.make() or not os.path.exists(ARCHIVE):
        print("failed: the library for C is not built")
        return checks.counted(0, 1)
    return checks.count_functions(tests, program)
