"""Tests the library for Rust, with the library for C that `make` has built.

    ./test rust

cargo builds the library without any registry. These are run:

- its lints, its tests, also under valgrind, its documentation, also if the library for C is not installed, what
  `cargo package` packs, and how it is linked, statically and not;
- its examples, also outside the repository: the window at both example compositors and at one of the distribution;
  clients of the distribution at the example compositor, where they also copy and paste; clients that ask it for more
  than it has; the client that pastes, there, at sway and during a drag; the window, a client of the distribution and a
  clipboard through the proxy, which leaves no descriptor open;
- each message of the installed protocols, through its typed call.

It prints what failed and what was skipped. The last line counts. The exit status is 0 if nothing failed."""

import contextlib
import glob
import os
import re
import select
import shutil
import signal
import socket
import struct
import subprocess
import sys
import tempfile

from scripts import protocol_files, usage
from tests import checks, clipboards, compositors
from tests.checks import LONG, TOP, Failed, Skipped, can, comes_to_listen, end, has_come, need

PACKAGES = os.path.join(TOP, "rust")
OUT = os.path.join(TOP, "out", "rust")
INSTALLED = os.path.join(OUT, "installed")
EXAMPLES = os.path.join(OUT, "debug", "examples")
TABLES = os.path.join(TOP, "protocols")
# No library is found by pkg-config.
WITHOUT_LIBRARY = {"PKG_CONFIG_PATH": "/nowhere", "PKG_CONFIG_LIBDIR": "/nowhere"}
# A program over the packed packages.
OVER_PACKED = """[package]
name = "over-packed"
version = "0.0.0"
edition = "2021"
publish = false

[dependencies]
waywire.path = "{package}"

[patch.crates-io]
waywire-sys.path = "{declarations}"

[workspace]
"""
PRINTS_A_NAME = """fn main() {
    let tables = waywire::Tables::core().expect("there is memory");
    let surface = tables.interface("wl_surface").expect("the core has it");
    println!("{}", tables.name(surface).expect("it has a name"));
}
"""
# The first id of the objects that a server makes.
FIRST_SERVER_ID = 0xff000000


def environment(**more):
    return {**os.environ, "WAYWIRE_DIR": INSTALLED, "CARGO_TARGET_DIR": OUT, "CARGO_NET_OFFLINE": "true", **more}


def run(words, timeout=LONG, **more):
    """Runs a command in the folder of the packages, and returns its output."""
    return checks.run(words, with_error=True, cwd=PACKAGES, env=environment(**more), timeout=timeout)


class Running:
    """A server at a path, which ends with the test."""

    def __init__(self, words, path, **more):
        self.said = tempfile.TemporaryFile()
        self.process = subprocess.Popen(words, env=environment(**more), stdout=self.said, stderr=self.said)
        if not comes_to_listen(self.process, path):
            self.process.kill()
            raise Failed(f"{words[0]}: it does not listen\n{self.output()}")

    def output(self):
        """Its output so far. The position at which it goes on writing does not change."""
        said = self.said.fileno()
        return os.pread(said, os.fstat(said).st_size, 0).decode()

    def ended(self):
        """Its output, once it has ended by itself."""
        try:
            status = self.process.wait(LONG)
        except subprocess.TimeoutExpired:
            self.stop()
            raise Failed(f"{self.process.args[0]}: it does not end") from None
        if status:
            raise Failed(f"{self.process.args[0]}: status {status}\n{self.output()[-800:]}")
        return self.output()

    def stop(self):
        end(self.process)


def cargo_version():
    """The first two numbers of cargo's version."""
    found = re.match(r"cargo (\d+)\.(\d+)", checks.run(["cargo", "--version"]))
    return tuple(map(int, found.groups())) if found else (0, 0)


def can_make_examples():
    """Whether the examples can be built: `make` makes a module for them from the file of xdg-shell."""
    return "xdg-shell" in protocol_files.found()


def example(name):
    if not can_make_examples():
        raise Skipped("wayland-protocols is not installed")
    return os.path.join(EXAMPLES, name)


def example_with_data_control():
    """The example compositor, if it has the protocol of wl-copy and wl-paste."""
    if "data-control" not in protocol_files.found():
        raise Skipped("wlr-data-control is not installed")
    return example("compositor")


def lints():
    if can("the layout of Rust", "rustfmt"):
        run(["cargo", "fmt", "--all", "--check"])
    if subprocess.run(["cargo", "clippy", "--version"], capture_output=True).returncode:
        raise Skipped("clippy is not installed")
    targets = ["--all-targets"] if can_make_examples() else ["--lib", "--tests"]
    run(["cargo", "clippy", "--workspace", *targets, "--", "-D", "warnings"])


def tests():
    run(["cargo", "test", "--workspace", *([] if can_make_examples() else ["--lib", "--tests"])])


def every_message_goes_by_its_typed_call():
    """The messages of the core, and of the protocols whose files are installed."""
    folder = os.path.join(OUT, "typed")
    checks.run([sys.executable, "-m", "tests.every_typed_call", folder])
    words = ["--offline", f"--manifest-path={folder}/Cargo.toml"]
    if not subprocess.run(["cargo", "clippy", "--version"], capture_output=True).returncode:
        run(["cargo", "clippy", "--all-targets", *words, "--", "-D", "warnings"])
    run(["cargo", "test", *words])


def documentation():
    run(["cargo", "doc", "--workspace", "--no-deps"], RUSTDOCFLAGS="-D warnings")


def documentation_without_the_library():
    """It can be made if the library for C is not installed. Linking then says what is missing."""
    # Nor does the archive count that `make` has put into the package.
    env = environment(**WITHOUT_LIBRARY, WAYWIRE_STATIC="0", RUSTDOCFLAGS="-D warnings",
                      CARGO_TARGET_DIR=os.path.join(OUT, "without"))
    del env["WAYWIRE_DIR"]
    told = "libwaywire is not found"
    for words, is_linked in ((["doc", "--no-deps"], False), (["test", "--test", "threads"], True)):
        it = subprocess.run(["cargo", *words], cwd=PACKAGES, env=env, check=False, capture_output=True, text=True)
        if told not in it.stderr or (it.returncode == 0) == is_linked:
            raise Failed(f"cargo {words[0]}: status {it.returncode}\n{it.stderr[-800:]}")


def packages():
    """Both can be packed without a registry, with all that `make` makes, and what is packed builds. A program over
    them links the archive that is packed, and needs nothing else of the library."""
    if cargo_version() < (1, 90):
        raise Skipped("cargo is older than 1.90, and packs no packages that need each other")
    packed = os.path.join(OUT, "packed")
    shutil.rmtree(os.path.join(packed, "package"), ignore_errors=True)
    env = environment(CARGO_TARGET_DIR=packed)
    words = ["cargo", "package", "--workspace", "--offline", "--allow-dirty"]
    checks.run(words, with_error=True, cwd=PACKAGES, env=env, timeout=LONG)
    [package], [declarations] = (glob.glob(f"{packed}/package/{it}-[0-9]*[0-9]") for it in ("waywire", "waywire-sys"))
    wanted = [f"{package}/{it}" for it in ("src/wayland.rs", "src/data_device.rs", "examples/window.rs")]
    missing = [it for it in (*wanted, f"{declarations}/lib/libwaywire.a") if not os.path.exists(it)]
    if missing:
        raise Failed(f"not packed: {missing}")
    runs_over(package, declarations)


def runs_over(package, declarations):
    """A program over packages in these folders runs, and no library is found outside them."""
    env = environment(**WITHOUT_LIBRARY, CARGO_TARGET_DIR=os.path.join(OUT, "over-packed"))
    del env["WAYWIRE_DIR"]
    with tempfile.TemporaryDirectory() as room:
        os.mkdir(f"{room}/src")
        for name, text in {"Cargo.toml": OVER_PACKED.format(package=package, declarations=declarations),
                           "src/main.rs": PRINTS_A_NAME}.items():
            with open(f"{room}/{name}", "w", encoding="utf-8") as file:
                file.write(text)
        said = checks.run(["cargo", "run", "--quiet"], with_error=True, cwd=room, env=env, timeout=LONG)
    if said != "wl_surface\n":
        raise Failed(f"it says {said!r}")


def examples_outside_the_repository():
    """A copy of the installed packages builds with the installed library, and needs nothing else."""
    example("window")
    with tempfile.TemporaryDirectory() as folder:
        copy = os.path.join(folder, "copy")
        shutil.copytree(os.path.join(INSTALLED, "share", "waywire", "rust"), copy)
        env = environment(CARGO_TARGET_DIR=os.path.join(OUT, "outside"))
        checks.run(["cargo", "build", "--examples"], with_error=True, cwd=f"{copy}/waywire", env=env, timeout=LONG)


def linked_as_wanted():
    """From the installed packages, an example is linked with the archive by the feature `static`, and then shows its
    window with no libwaywire.so in reach; pkg-config finds the archive. With WAYWIRE_STATIC=0 it is linked with the
    shared library, in the folder of WAYWIRE_LIB_DIR. If the wanted library is not there, the build says so."""
    example("window")
    need("ldd", "pkg-config")
    with tempfile.TemporaryDirectory() as folder:
        copy = os.path.join(folder, "copy")
        shutil.copytree(os.path.join(INSTALLED, "share", "waywire", "rust"), copy)
        os.makedirs(f"{folder}/shared/lib")
        shutil.copy(os.path.join(INSTALLED, "lib", "libwaywire.so"), f"{folder}/shared/lib")
        env = environment(CARGO_TARGET_DIR=os.path.join(OUT, "linked"))
        for it in ("WAYWIRE_DIR", "LD_LIBRARY_PATH"):
            env.pop(it, None)
        program = os.path.join(OUT, "linked", "debug", "examples", "window")
        for words, variables, is_shared in (
                ([], {"WAYWIRE_STATIC": "0", "WAYWIRE_LIB_DIR": f"{INSTALLED}/lib"}, True),
                (["--features", "static"], {"PKG_CONFIG_PATH": f"{INSTALLED}/lib/pkgconfig"}, False)):
            build = ["cargo", "build", "--example", "window", *words]
            checks.run(build, with_error=True, cwd=f"{copy}/waywire", env={**env, **variables}, timeout=LONG)
            needed = checks.run(["ldd", program], env=env)
            if ("libwaywire" in needed) != is_shared:
                raise Failed(f"{words} {variables}: it needs {needed}")
        shows_a_window(program)
        said = checks.run(["cargo", "check", "--features", "static"], with_error=True, cwd=f"{copy}/waywire",
                          env={**env, "WAYWIRE_DIR": f"{folder}/shared"}, timeout=LONG)
        if f"no libwaywire.a in {folder}/shared/lib" not in said:
            raise Failed(f"it does not say that there is no archive: {said}")


def no_error_under_valgrind():
    """No invalid read or write, and no leak. Memory that Rust's test harness still reaches does not count."""
    need("valgrind")
    leaks = [f"--{it}=definite" for it in ("show-leak-kinds", "errors-for-leak-kinds")]
    for test in ("core", "descriptors", "following", "more_tables", "socket", "threads", "typed"):
        said = run(["cargo", "test", "--no-run", "--test", test])
        program = os.path.join(PACKAGES, said.rpartition("(")[2].partition(")")[0])
        run(["valgrind", "-q", "--leak-check=full", *leaks, "--error-exitcode=9", program, "--test-threads=1"])


def shows_a_window(window):
    """The window's picture comes to the example compositor."""
    with tempfile.TemporaryDirectory() as folder:
        path = os.path.join(folder, "wayland-test")
        ours = Running([example("compositor"), path], path)
        try:
            run([window], XDG_RUNTIME_DIR=folder, WAYLAND_DISPLAY="wayland-test")
            if ours.ended() != "a picture of 64 by 64, its first pixel ff336699\n":
                raise Failed(f"the compositor says {ours.output()!r}")
        finally:
            ours.stop()


def window_at_our_compositor():
    shows_a_window(example("window"))


def two_clients_at_the_small_compositor():
    """A client of the distribution draws one picture after another, and our window shows its own meanwhile."""
    need("weston-simple-shm")
    with tempfile.TemporaryDirectory() as folder:
        path = os.path.join(folder, "wayland-test")
        where = {"XDG_RUNTIME_DIR": folder, "WAYLAND_DISPLAY": "wayland-test"}
        ours = Running([example("small_compositor"), path], path)
        client = subprocess.Popen(["weston-simple-shm"], env=environment(**where), stderr=subprocess.DEVNULL)

        def pictures(number):
            return ours.output().count(f"client {number} shows a picture\n")

        def draws(count):
            if not has_come(lambda: pictures(0) >= count or client.poll() is not None) or client.poll() is not None:
                raise Failed(f"weston-simple-shm does not draw: the compositor says {ours.output()!r}")

        try:
            compositors.connects(client, path)
            draws(3)
            run([example("window")], **where)
            draws(pictures(0) + 3)
            client.send_signal(signal.SIGINT)
            if client.wait(LONG):
                raise Failed(f"weston-simple-shm: status {client.returncode}")
            ours.ended()
            if pictures(1) != 1:
                raise Failed(f"the compositor says {ours.output()!r}")
        finally:
            client.kill()
            ours.stop()


def client_of_weston_at_our_compositor():
    compositors.serves_a_client_of_weston(example("compositor"))


def client_of_gtk_at_our_compositor():
    compositors.serves_a_client_of_gtk(example("compositor"))


def texts_at_our_compositor():
    clipboards.passes_texts(example_with_data_control())


def clients_go_at_our_compositor():
    clipboards.goes_on_without_a_client(example_with_data_control())


def compiled(name, **headers):
    """Compiles a program of the tests in C with headers of typed calls, each made from the file of a protocol.
    Returns its path."""
    program, stubs = os.path.join(OUT, name), os.path.join(OUT, "stubs")
    os.makedirs(stubs, exist_ok=True)
    for header, protocol in headers.items():
        with open(os.path.join(stubs, header.replace("_", "-") + ".h"), "w", encoding="utf-8") as file:
            file.write(checks.run(["tools/stubs-from-xml", protocol_files.found()[protocol]]))
    folders = [f"-I{it}" for it in (f"{INSTALLED}/include", stubs)]
    archive = os.path.join(INSTALLED, "lib", "libwaywire.a")
    checks.run(["cc", "-std=gnu11", *folders, f"tests/c/{name}.c", archive, "-o", program])
    return program


def much_at_our_clipboard():
    compositor = example_with_data_control()
    clipboards.bears_much(compiled("clipboard", data_control="data-control"), compositor)


def greedy_clients_at_our_compositor():
    compositor = example("compositor")
    program = compiled("greedy", wayland="data-device", xdg_shell="xdg-shell")
    clipboards.bears_greedy_clients(program, compositor)


def idle_clients_at_our_compositor():
    clipboards.idle_clients_give_way(example("compositor"))


def compositor_that_stays():
    """With --stay it serves a client after the last one has gone. It names a script that it cannot open."""
    with tempfile.TemporaryDirectory() as folder:
        path = os.path.join(folder, "wayland-test")
        ours = Running([example("compositor"), "--stay", path], path)
        try:
            for _ in range(2):
                clipboards.asks_once(path)
                if has_come(lambda: ours.process.poll() is not None, 1):
                    raise Failed(f"it has ended with its last client: {ours.output()!r}")
        finally:
            end(ours.process)
        ran = subprocess.run([example("compositor"), path, f"{folder}/script"], env=environment(), capture_output=True)
        if ran.returncode != 1 or f"{folder}/script: ".encode() not in ran.stderr:
            raise Failed(f"it does not name the script: {ran.stderr!r}")


def gtk_copies_and_pastes_at_our_compositor():
    clipboards.serves_gtk([example("paste")], example_with_data_control())


def foot_copies_at_our_compositor():
    clipboards.serves_foot(example_with_data_control())


def client_pastes_at_our_compositor():
    clipboards.client_pastes_at_ours([example("paste")], [], example_with_data_control())


def client_pastes_during_a_drag():
    client = example("paste")
    program = compiled("dragging", wayland="data-device", xdg_shell="xdg-shell")
    clipboards.client_pastes_during_a_drag(program, [client], [])


def client_pastes_at_sway():
    clipboards.client_pastes_at_sway([example("paste")], [])


def compositor_without_data_control():
    """The compositor builds without the file of that protocol."""
    example("compositor")
    folder = os.path.join(OUT, "without-data-control")
    run(["cargo", "build", "--example", "compositor"], DATA_CONTROL="", CARGO_TARGET_DIR=folder)


def draws(folder, display, proxy):
    """A client of the distribution draws through a proxy, which prints its messages."""
    env = environment(XDG_RUNTIME_DIR=folder, WAYLAND_DISPLAY=display)
    client = subprocess.Popen(["weston-simple-shm"], env=env, stderr=subprocess.DEVNULL)
    try:
        compositors.connects(client, os.path.join(folder, display))
        # Its first picture comes after it has set its handler of the signal.
        has_come(lambda: ".attach(" in proxy.output() or client.poll() is not None)
        if not proxy.output() and client.poll() is not None:
            raise Skipped("weston-simple-shm has not come up")
        client.send_signal(signal.SIGINT)
        if client.wait(LONG):
            raise Failed(f"weston-simple-shm: status {client.returncode}")
    finally:
        client.kill()


def at_a_compositor_of_the_distribution():
    """The window at weston, and then through the proxy; a client of libwayland through the proxy."""
    need("weston", "weston-simple-shm")
    with tempfile.TemporaryDirectory() as folder:
        words, display, kept = compositors.weston(folder, environment())
        outer, inner = ({"XDG_RUNTIME_DIR": folder, "WAYLAND_DISPLAY": it} for it in (display, "inner"))
        with compositors.running(words, display, folder, **kept):
            run([example("window")], **outer)
            for client in (lambda _: run([example("window")], **inner),
                           lambda proxy: draws(folder, "inner", proxy)):
                path = os.path.join(folder, "inner")
                proxy = Running([example("proxy"), path], path, **outer)
                try:
                    client(proxy)
                    if ".attach(" not in proxy.ended():
                        raise Failed(f"the proxy says {proxy.output()[-300:]!r}")
                finally:
                    proxy.stop()


def pasted(room, display, tables):
    """A client pastes through a proxy, which prints the objects that the compositor makes."""
    path = os.path.join(room, "pastes")
    proxy = Running([example("proxy"), path, tables], path, WAYLAND_DISPLAY=display)
    try:
        client = subprocess.run(["wl-paste", "--no-newline"], env=environment(WAYLAND_DISPLAY=path), check=False,
                                capture_output=True, timeout=LONG)
        said = proxy.ended()
    finally:
        proxy.stop()
    if client.stdout and f"(new id zwlr_data_control_offer_v1@{FIRST_SERVER_ID})" not in said:
        raise Failed(f"no object of the compositor passes the proxy, which says {said[-800:]!r}")
    return client.stdout.decode()


def copies(proxy, path, pasted_there):
    """A client copies through a proxy at a path, until its text is pasted. The proxy ends with it."""
    client = subprocess.Popen(["wl-copy", "--foreground", "waywire"], env=environment(WAYLAND_DISPLAY=path))
    try:
        if not has_come(lambda: pasted_there() == "waywire"):
            raise Failed(f"nothing is pasted; the proxy of the copy says {proxy.output()[-800:]!r}")
    finally:
        end(client)
    proxy.ended()


def clipboard_through_the_proxy():
    """One client copies and another pastes, each through a proxy."""
    need("sway", "wl-copy", "wl-paste")
    tables = os.path.join(TABLES, "data-control.tables")
    with tempfile.TemporaryDirectory(prefix="sway-") as room:
        words, display, kept = compositors.sway(room, environment())
        with compositors.running(words, display, room, **kept):
            path = os.path.join(room, "copies")
            proxy = Running([example("proxy"), path, tables], path, WAYLAND_DISPLAY=display)
            try:
                copies(proxy, path, lambda: pasted(room, display, tables))
            finally:
                proxy.stop()


def word(number):
    return struct.pack("<I", number)


def text(said):
    data = said.encode() + b"\0"
    return word(len(data)) + data + bytes(-len(data) % 4)


class Wire:
    """One side of a connection, played by these tests."""

    def __init__(self, its_socket):
        self.socket = its_socket
        self.socket.settimeout(LONG)

    def says(self, target, opcode, body=b"", descriptors=()):
        data = struct.pack("<IHH", target, opcode, 8 + len(body)) + body
        socket.send_fds(self.socket, [data], descriptors)

    def bytes(self, length):
        data = b""
        while len(data) < length and (part := self.socket.recv(length - len(data))):
            data += part
        return data

    def hears(self):
        """The target and the opcode of the next message, and its arguments as 32-bit words."""
        target, opcode, length = struct.unpack("<IHH", self.bytes(8))
        return target, opcode, struct.unpack(f"<{length // 4 - 2}I", self.bytes(length - 8))


@contextlib.contextmanager
def played(manager, version, tables):
    """A client and a compositor, played by these tests, with the proxy between them. The compositor has one global.
    Has both sides, the compositor's registry, and the global's name at the client."""
    with tempfile.TemporaryDirectory() as room, socket.socket(socket.AF_UNIX) as listener, \
            socket.socket(socket.AF_UNIX) as its:
        listener.bind(f"{room}/compositor")
        listener.listen()
        listener.settimeout(LONG)
        words = [example("proxy"), f"{room}/proxy", os.path.join(TABLES, tables)]
        proxy = Running(words, f"{room}/proxy", WAYLAND_DISPLAY=f"{room}/compositor")
        try:
            its.connect(f"{room}/proxy")
            client, compositor = Wire(its), Wire(listener.accept()[0])
            (_, _, (registry,)), (_, _, (callback,)) = compositor.hears(), compositor.hears()
            compositor.says(registry, 0, word(1) + text(manager) + word(version))  # global
            compositor.says(callback, 0, word(0))  # done
            compositor.says(1, 1, word(callback))  # delete_id
            client.says(1, 1, word(2))  # get_registry
            _, _, (name, *_) = client.hears()
            client.says(2, 0, word(name) + text(manager) + word(version) + word(3))  # bind
            yield client, compositor, registry, name
            client.socket.close()
            proxy.ended()
            compositor.socket.close()
        finally:
            proxy.stop()


def proxy_between_sides_that_are_played():
    """The compositor sends the client a descriptor for a data source that the client has destroyed: the proxy closes
    it. If the compositor withdraws a global, the proxy withdraws it too."""
    with played("wl_data_device_manager", 3, "data-device.tables") as (client, compositor, registry, name):
        client.says(3, 0, word(4))  # create_data_source
        client.says(4, 1)  # destroy
        # get_registry, bind, create_data_source, destroy
        _, _, (_, _, (source,)), ended = (compositor.hears() for _ in range(4))
        if ended != (source, 1, ()):
            raise Failed(f"the proxy does not destroy the source {source}: {ended}")
        pasting, given = os.pipe()
        compositor.says(source, 1, text("text/plain"), [given])  # send
        os.close(given)
        if not select.select([pasting], [], [], LONG)[0]:
            raise Failed("the proxy keeps the descriptor")
        os.close(pasting)
        compositor.says(registry, 1, word(1))  # global_remove
        told = client.hears(), client.hears()
        if told != ((1, 1, (4,)), (2, 1, (name,))):  # delete_id, global_remove
            raise Failed(f"the client is told {told}")


def proxy_where_an_output_is_replaced():
    """The compositor uses the id of an output again. The client gets a new output, with another id, and the events for
    it."""
    manager, version = "zwlr_output_manager_v1", 2
    with played(manager, version, "output-management.tables") as (client, compositor, _, _):
        _, (_, _, (*_, own)) = (compositor.hears() for _ in range(2))  # get_registry, bind
        for it in range(3):
            head = FIRST_SERVER_ID + it
            compositor.says(own, 0, word(FIRST_SERVER_ID))  # head
            compositor.says(FIRST_SERVER_ID, 4, word(it))  # enabled
            compositor.says(FIRST_SERVER_ID, 9)  # finished
            told = [client.hears() for _ in range(3)]
            if told != [(3, 0, (head,)), (head, 4, (it,)), (head, 9, ())]:
                raise Failed(f"the client is told {told}")


TESTS_IN_ORDER = (lints, tests, every_message_goes_by_its_typed_call, documentation,
                  documentation_without_the_library, packages, examples_outside_the_repository, linked_as_wanted,
                  no_error_under_valgrind,
                  window_at_our_compositor, two_clients_at_the_small_compositor,
                  client_of_weston_at_our_compositor, client_of_gtk_at_our_compositor,
                  texts_at_our_compositor, clients_go_at_our_compositor, much_at_our_clipboard,
                  greedy_clients_at_our_compositor, idle_clients_at_our_compositor, compositor_that_stays,
                  gtk_copies_and_pastes_at_our_compositor, foot_copies_at_our_compositor,
                  client_pastes_at_our_compositor, client_pastes_during_a_drag, client_pastes_at_sway,
                  compositor_without_data_control,
                  at_a_compositor_of_the_distribution, clipboard_through_the_proxy, proxy_between_sides_that_are_played,
                  proxy_where_an_output_is_replaced)


def main():
    usage.words(__doc__, most=0)
    if not can("the library for Rust", "cargo", "make", "cc"):
        return checks.counted(0, 0)
    os.makedirs(OUT, exist_ok=True)
    if not checks.make("install", f"PREFIX={INSTALLED}", "program=none"):
        print("failed: the library for C is not built")
        return checks.counted(0, 1)
    return checks.count_functions(TESTS_IN_ORDER)
