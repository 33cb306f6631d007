"""Tests of what `make` installs and packs: `./test c` runs them."""

import glob
import os
import re
import shutil
import subprocess
import tempfile

from scripts import crates, proved_archive, unproved
from tests.checks import LONG, TOP, Failed, Skipped, can, ended, need, need_protocols, run, start_and_wait

TESTS = os.path.join(TOP, "tests", "c")
# The word for make that installs or packs the library as it is, without proving it again.
AS_IT_IS = "UNPROVED=1"


def installed(program):
    """pkg-config and CMake find an installed library, and programs are built with it. If `waywire` is built, it has
    the library's version, and its manual page has no error."""
    need("make", "pkg-config")
    with tempfile.TemporaryDirectory() as prefix:
        libraries = os.path.join(prefix, "lib", "here")
        run(["make", "-s", "install", f"PREFIX={prefix}", f"LIBDIR={libraries}", *with_program(program)])
        env = {**os.environ, "PKG_CONFIG_PATH": os.path.join(libraries, "pkgconfig")}
        for name in ("values", "connections"):
            builds_a_program(prefix, {**env, "LD_LIBRARY_PATH": libraries}, name)
        version = run(["pkg-config", "--modversion", "waywire"], env=env).strip()
        is_proved = run(["pkg-config", "--variable=proved", "waywire"], env=env).strip()
        if is_proved != ("no" if not_proved() else "yes"):
            raise Failed(f"of the library that is made {made_how()}, pkg-config says proved={is_proved}")
        numbers = dict(zip(("MAJOR", "MINOR", "PATCH"), version.split(".")))
        with open(os.path.join(prefix, "include", "waywire-version.h"), encoding="utf-8") as file:
            said = file.read()
        for line in (f'#define WAYWIRE_VERSION "{version}"\n',
                     *(f"#define WAYWIRE_VERSION_{it} {numbers[it]}\n" for it in numbers)):
            if line not in said:
                raise Failed(f"waywire-version.h lacks {line!r}")
        if can("found by cmake", "cmake"):
            found_by_cmake(prefix, libraries, version)
        has_what_the_header_names(prefix)
        has_no_dead_link(prefix)
        has_its_soname(libraries, version)
        tools_read_the_core(prefix)
        if program and os.path.exists(program):
            if run([program, "--version"]) != f"waywire {version}\n":
                raise Failed(f"the program has another version than {version}")
            is_a_manual_page(os.path.join(prefix, "share", "man", "man1", "waywire.1"))


def builds_a_program(folder, env, name="values"):
    """A program of tests/c is built with the library that pkg-config finds, and runs. Returns what pkg-config says."""
    words = run(["pkg-config", "--cflags", "--libs", "waywire"], env=env).split()
    run(["cc", f"tests/c/{name}.c", "-Itests/c", *words, "-o", f"{folder}/{name}"], env=env)
    run([f"{folder}/{name}"], env=env)
    return words


def tools_read_the_core(prefix, **kept):
    """The installed tools for XML read the installed file of the core."""
    for tool in ("tables-from-xml", "stubs-from-xml"):
        run([f"{prefix}/bin/waywire-{tool}", f"{prefix}/share/waywire/protocols/core/core.xml"], **kept)


def made_twice(goal, program):
    """Makes a package twice, which must be the same each time. Returns its path."""
    made = []
    for _ in range(2):
        path = os.path.join(TOP, run(["make", "-s", goal, AS_IT_IS, *with_program(program)]).split()[-1])
        with open(path, "rb") as file:
            made.append(file.read())
    if made[0] != made[1]:
        raise Failed("made twice, the package has other bytes")
    return path


def with_program(program):
    """The word for make that installs or packs a built program, if there is one."""
    return [f"program={program}"] if program else []


def is_a_manual_page(path):
    """groff finds no error in the manual pages."""
    if can(f"errors of {os.path.basename(path)}", "groff"):
        said = run(["groff", "-man", "-ww", "-z", path], with_error=True)
        if said:
            raise Failed(f"groff: {said}")


def has_what_the_header_names(prefix):
    """Each folder, page, header and tool that waywire.h names is installed, and so is the licence."""
    with open(os.path.join(prefix, "include", "waywire.h"), encoding="utf-8") as file:
        text = file.read()
    named = re.findall(r"share/[\w/]*\w", text)
    named += [f"share/doc/waywire/{it}" for it in ("LICENSE", *re.findall(r"\b[A-Z]+\.md", text))]
    named += [f"include/{it}" for it in re.findall(r"waywire-\w+\.h", text)]
    named += [f"bin/{it}" for it in re.findall(r"waywire-[a-z-]*from-xml", text)]
    named += ["share/doc/waywire/GUIDE.md", "share/doc/waywire/examples/client.c", "share/waywire/rust/waywire/src/lib.rs",
              "share/doc/waywire/examples/surface.rec"]
    missing = [it for it in named if not os.path.exists(os.path.join(prefix, it))]
    if missing or len(named) < 5:
        raise Failed(f"waywire.h names {named}, of which {missing} are not installed")


def has_no_dead_link(prefix):
    """Each link of an installed page leads to an installed file."""
    found = [os.path.join(at, it) for at, _, names in os.walk(os.path.join(prefix, "share")) for it in names]
    links = 0
    for page in (it for it in found if it.endswith(".md")):
        with open(page, encoding="utf-8") as file:
            for to in re.findall(r"\]\(([^)\s#]+)", file.read()):
                links += 1
                if not re.match(r"\w+:", to) and not os.path.exists(os.path.join(os.path.dirname(page), to)):
                    raise Failed(f"{page} has a dead link: {to}")
    if links < 20:
        raise Failed(f"the installed pages have {links} links")


def has_its_soname(libraries, version):
    """The shared object's name has the part of the version that says what is compatible."""
    need("readelf")
    numbers = version.split(".")
    soname = "libwaywire.so." + ".".join(numbers[:2] if numbers[0] == "0" else numbers[:1])
    if f"[{soname}]" not in run(["readelf", "-d", os.path.join(libraries, soname)]):
        raise Failed(f"the soname is not {soname}")


CMAKE = """cmake_minimum_required(VERSION 3.13)
project(user C)
find_package(waywire {version} REQUIRED)
foreach(kind waywire static)
  add_executable(with_${{kind}} {root}/tests/c/values.c)
  target_include_directories(with_${{kind}} PRIVATE {root}/tests/c)
  target_link_libraries(with_${{kind}} PRIVATE waywire::${{kind}})
endforeach()
"""


def found_by_cmake(prefix, libraries, version):
    """CMake finds both libraries of an installed tree."""
    user = os.path.join(prefix, "user")
    os.mkdir(user)
    with open(os.path.join(user, "CMakeLists.txt"), "w", encoding="utf-8") as file:
        file.write(CMAKE.format(version=version, root=TOP))
    run(["cmake", "-S", user, "-B", user, f"-Dwaywire_DIR={libraries}/cmake/waywire"])
    run(["cmake", "--build", user])
    for kind in ("waywire", "static"):
        run([os.path.join(user, f"with_{kind}")])


def installing_compiles_nothing(_program):
    """`make install` does not compile or link again what `make` has built. The linker gets LDFLAGS."""
    need("make")
    words = ["make", "-n", "install", "PREFIX=/somewhere", "DATADIR=/data", "LIBDIR=/libraries", "CC=compiler",
             "LD=linker", "AR=archiver"]
    if found := re.findall(r"(?m)^(?:compiler|linker|archiver) .*", run(words)):
        raise Failed(f"make install runs {found[0]}")
    said = run(["make", "-n", "-B", "CC=compiler", "LDFLAGS=--given", "out/c/waywire-inspect",
                "out/c/waywire-replay", "out/c/wayland/client/libwayland-client.so.0", "out/c/wayland/server/libwayland-server.so.0",
                f"out/c/libwaywire.so.{version_of_the_library()}"])
    linked = [it for it in re.sub(r"\\\n", "", said).splitlines() if it.startswith("compiler ") and " -c " not in it]
    if len(linked) != 5 or not all(" --given " in it for it in linked):
        raise Failed(f"not each of these is linked with LDFLAGS: {linked}")


def version_of_the_library():
    with open(os.path.join(TOP, "include", "waywire-version.h"), encoding="utf-8") as file:
        return re.search('"(.*)"', file.read())[1]


def made_how():
    """How the archive of the exports was made, in one word."""
    record = proved_archive.read(proved_archive.place())
    return record and record.how


def not_proved():
    """What the inspector says after the version of a library that is not proved."""
    return " (not proved)" if made_how() == proved_archive.UNPROVED else ""


def tells_its_version(tool):
    """The inspector has the library's version, and says whether that is proved."""
    wanted = f"waywire-inspect {version_of_the_library()}{not_proved()}\n"
    if run([tool, "--version"]) != wanted:
        raise Failed(f"{tool} does not say {wanted!r}")


def carries_the_proof(data):
    """Installed files have the proved archive if it was proved from nothing."""
    folder = os.path.join(data, "waywire", "proved")
    is_there = os.path.exists(folder)
    if is_there != (not proved_archive.why_not(proved_archive.place(), TOP)):
        raise Failed(f"{folder} is {'' if is_there else 'not '}there, and the archive is made {made_how()}")
    if is_there and proved_archive.why_not(folder, TOP):
        raise Failed(f"{folder} is not of these sources: {proved_archive.why_not(folder, TOP)}")


def taken_from_a_package(_program):
    """Without the toolchain, a copy of the repository is built with the archive of an installed library, and then is
    not if a proof changes. The message names the proof."""
    need("make")
    if why := proved_archive.why_not(proved_archive.place(), TOP):
        raise Skipped(f"the archive cannot go into a package: {why}")
    with tempfile.TemporaryDirectory() as room:
        run(["make", "-s", "install", f"PREFIX={room}/installed", "program=none"])
        copy = copy_of_what_make_reads(room)
        words = ["make", "-s", f"PREFIX={room}/installed"]
        run(words, cwd=copy, env=without_toolchain(room))
        tells_its_version(f"{copy}/out/c/waywire-inspect")
        shutil.rmtree(f"{copy}/crates/waywire_c/out")
        changed = "crates/wl_wire/proofs/Lib.antt"
        with open(f"{copy}/{changed}", "a", encoding="utf-8") as file:
            file.write("\n")
        ran = subprocess.run(words, cwd=copy, env=without_toolchain(room), capture_output=True, timeout=LONG)
        said = ran.stderr.decode()
        if not ran.returncode or changed not in said or "rt is not on this machine" not in said:
            raise Failed(f"status {ran.returncode}: {said}")


def compiled_without_a_proof(_program):
    """From nothing, the library is compiled without a proof. It serves, says what it is, and is installed with the
    same word alone."""
    need("make", "rt", "pkg-config")
    if not unproved.is_known():
        raise Skipped(f"this takes the toolchain {' or '.join(unproved.KNOWN)}")
    with tempfile.TemporaryDirectory() as room:
        copy = copy_of_what_make_reads(room)
        run(["make", "-s", "UNPROVED=1", f"PREFIX={room}"], cwd=copy)
        installing = ["make", "-s", "install", f"PREFIX={room}", "program=none"]
        bare = {name: it for name, it in os.environ.items() if name != "UNPROVED"}
        said = run(installing, 2, with_error=True, cwd=copy, env=bare)
        if "the library is not proved" not in said or os.path.exists(f"{room}/lib"):
            raise Failed(f"it is installed without UNPROVED=1, and says {said!r}")
        run([*installing, "UNPROVED=1"], cwd=copy)
        env = {**os.environ, "PKG_CONFIG_PATH": f"{room}/lib/pkgconfig", "LD_LIBRARY_PATH": f"{room}/lib"}
        builds_a_program(room, env)
        said = run([f"{room}/bin/waywire-inspect", "--version"])
        said += run(["pkg-config", "--variable=proved", "waywire"], env=env)
        if said != f"waywire-inspect {version_of_the_library()} (not proved)\nno\n":
            raise Failed(f"it says {said!r}")


def copy_of_what_make_reads(room):
    """A copy of what the library for C is made of, and of what is installed with it, without what was built."""
    copy = f"{room}/copy"
    of_crates = [f"crates/{it}" for it in crates.lowest_first(crates.read(), proved_archive.LIBRARY)]
    hide = shutil.ignore_patterns("out", "must-fail", "__pycache__", "waywire-core.h", "waywire-version.h", "wayland.rs",
                                  "target")
    for it in ("c", "include", "scripts", "tools", "docs", "examples", "protocols", "rust", *of_crates):
        shutil.copytree(f"{TOP}/{it}", f"{copy}/{it}", ignore=hide)
    for it in ("Makefile", "LICENSE", "HANDLES", "crates.txt", "crates/program_arguments/src/job.rt"):
        os.makedirs(os.path.dirname(f"{copy}/{it}"), exist_ok=True)
        shutil.copy(f"{TOP}/{it}", f"{copy}/{it}")
    return copy


# Run in a Debian with the package: a program is built with it, and the tools run.
AT_DEBIAN = """set -e
cc /tests/c/values.c -I/tests/c $(pkg-config --cflags --libs waywire) -o /tmp/values
/tmp/values
waywire-inspect --version
waywire-tables-from-xml /usr/share/waywire/protocols/core/core.xml >/dev/null
waywire-run true
"""


def debian_package(program):
    """The Debian package has its fields, is the same each time, and works where it is unpacked."""
    need("make", "dpkg-deb", "pkg-config")
    path = made_twice("deb", program)
    has_its_fields(path)
    with tempfile.TemporaryDirectory() as root:
        run(["dpkg-deb", "-x", path, root])
        serves_unpacked(root)


def has_its_fields(path):
    machine = run(["dpkg", "--print-architecture"]).strip()
    fields = {it: run(["dpkg-deb", "-f", path, it]).strip()
              for it in ("Package", "Version", "Architecture", "Maintainer", "Depends", "Description")}
    wanted = {"Package": "waywire", "Version": version_of_the_library(), "Architecture": machine}
    if any(fields[it] != wanted[it] for it in wanted) or not all(fields.values()):
        raise Failed(f"its fields are {fields}")
    if not re.fullmatch(r"libc6 \(>= 2\.\d+(\.\d+)?\), python3", fields["Depends"]):
        raise Failed(f"it depends on {fields['Depends']}")
    owners = {it.split()[1] for it in run(["dpkg-deb", "-c", path]).splitlines()}
    if owners != {"root/root"}:
        raise Failed(f"its files are of {owners}")


def serves_unpacked(root):
    """A program is built with the library in a folder, and the tools run there."""
    usr = os.path.join(root, "usr")
    config = glob.glob(f"{usr}/lib/**/pkgconfig", recursive=True)[0]
    env = {**os.environ, "PKG_CONFIG_PATH": config, "LD_LIBRARY_PATH": os.path.dirname(config)}
    words = builds_a_program(root, env)
    if f"-I{usr}/include" not in [os.path.normpath(it) for it in words]:
        raise Failed(f"pkg-config says {words}")
    tells_its_version(f"{usr}/bin/waywire-inspect")
    carries_the_proof(f"{usr}/share")
    knows_installed_tables(f"{usr}/bin/waywire-inspect", root)
    replays_with_installed_tables(f"{usr}/bin/waywire-replay", {**os.environ, "XDG_RUNTIME_DIR": root})
    tools_read_the_core(usr)
    run([f"{usr}/bin/waywire-run", "true"])
    for name in ("share/doc/waywire/copyright", "share/doc/waywire/LICENSE", "share/doc/waywire/GUIDE.md",
                 "share/waywire/rust/waywire/Cargo.toml", "share/doc/waywire/examples/client.c",
                 "share/man/man1/waywire-stubs-from-xml.1.gz"):
        if not os.path.exists(os.path.join(usr, name)):
            raise Failed(f"{name} is not in the package")


def debian_package_at_a_clean_debian(program):
    """The package is installed into a new Debian. There a program is built with it, and the tools run."""
    need("make", "dpkg-deb", "debootstrap")
    if os.geteuid():
        raise Skipped("only root can make a Debian")
    path = os.path.join(TOP, run(["make", "-s", "deb", AS_IT_IS, *with_program(program)]).split()[-1])
    with tempfile.TemporaryDirectory() as root:
        try:
            run(["debootstrap", "--variant=minbase", "--include=gcc,libc6-dev,pkg-config,python3",
                 suite(), root])
        except (Failed, subprocess.TimeoutExpired) as why:
            raise Skipped(f"debootstrap has not made one: {str(why)[-300:]}") from None
        shutil.copytree(TESTS, os.path.join(root, "tests", "c"))
        shutil.copy(os.path.join(TOP, "tests", "must.h"), os.path.join(root, "tests"))
        shutil.copy(path, os.path.join(root, "waywire.deb"))
        run(["chroot", root, "dpkg", "-i", "/waywire.deb"])
        said = run(["chroot", root, "sh", "-c", AT_DEBIAN])
        if f"waywire-inspect {version_of_the_library()}{not_proved()}\n" not in said:
            raise Failed(f"it says {said!r}")
        run(["chroot", root, "dpkg", "--purge", "waywire"])
        if left := glob.glob(f"{root}/usr/**/*waywire*", recursive=True):
            raise Failed(f"a purge leaves {left}")


def suite():
    """The name of this Debian release; `stable` if this is no Debian."""
    with open("/etc/os-release", encoding="utf-8") as file:
        found = re.search(r"(?m)^VERSION_CODENAME=(\w+)$", file.read())
    return found[1] if found else "stable"


def without_toolchain(top):
    """The environment of a machine without the toolchain, on which the package was unpacked at `top`."""
    path = os.pathsep.join(it for it in os.environ["PATH"].split(os.pathsep)
                           if not os.path.exists(os.path.join(it, "rt")))
    return {**os.environ, "PATH": path, "PKG_CONFIG_PATH": os.path.join(top, "lib", "pkgconfig"),
            "LD_LIBRARY_PATH": os.path.join(top, "lib")}


def package(program):
    """The package is the same each time, and works without the toolchain: a program is built with its library, and its
    program and its tools run. If xdg-shell is installed, the examples are built and run too."""
    need("make", "pkg-config", "tar")
    if not program or not os.path.exists(program):
        raise Skipped("the program is not built")
    archive = made_twice("dist", program)
    with tempfile.TemporaryDirectory() as folder:
        run(["tar", "-xzf", archive, "-C", folder])
        top = os.path.join(folder, *os.listdir(folder))
        env = without_toolchain(top)
        builds_a_program(folder, env)
        run([f"{top}/bin/waywire", "demo"], env=env)
        tools_read_the_core(top, env=env)
        run([f"{top}/bin/waywire-run", "true"], env=env)
        carries_the_proof(f"{top}/share")
        need_protocols()
        packed_examples(os.path.join(top, "share", "doc", "waywire", "examples"), env)


def packed_examples(folder, env):
    """The examples of a package are built, and the client shows a window at the server."""
    run(["make", "-s", "-C", folder], env=env)
    socket = os.path.join(folder, "wayland-test")
    server = start_and_wait([os.path.join(folder, "server"), socket], socket, env=env)
    try:
        run([os.path.join(folder, "client")], env={**env, "WAYLAND_DISPLAY": socket})
        ended(server)
    finally:
        server.kill()


def inspector_is_installed(_program):
    """An installed tool has the library's version, finds the tables, and its manual page has no error."""
    need("make")
    with tempfile.TemporaryDirectory() as prefix:
        data = os.path.join(prefix, "data", "here")
        run(["make", "-s", "install", f"PREFIX={prefix}", f"DATADIR={data}", "program=none"])
        tool = os.path.join(prefix, "bin", "waywire-inspect")
        tells_its_version(tool)
        env = {**os.environ, "XDG_RUNTIME_DIR": prefix, "WAYLAND_DISPLAY": "none", "XDG_DATA_DIRS": prefix}
        words = [tool, "--verbose", "true"]
        said = subprocess.run(words, env=env, capture_output=True, timeout=LONG)
        if said.returncode != 125 or said.stderr.count(b"\n") != 1 or b"no compositor" not in said.stderr:
            raise Failed(f"status {said.returncode}: {said.stderr.decode()}")
        for name in ("inspect", "replay", "picture", "run", "tables-from-xml", "stubs-from-xml"):
            is_a_manual_page(os.path.join(data, "man", "man1", f"waywire-{name}.1"))
        knows_installed_tables(tool, prefix)
        replays_with_installed_tables(os.path.join(prefix, "bin", "waywire-replay"), env)
        run([os.path.join(prefix, "bin", "waywire-picture"), "examples/surface.rec", "-o", f"{prefix}/page.html"])


def replays_with_installed_tables(tool, env):
    """The tool reads a recording of interfaces that the core lacks, and finds no compositor."""
    words = [tool, os.path.join(TOP, "examples", "drm_lease.rec")]
    said = subprocess.run(words, env=env, capture_output=True, timeout=LONG)
    if said.returncode != 125 or said.stdout or b": cannot connect to a compositor: " not in said.stderr:
        raise Failed(f"status {said.returncode}: {said.stderr.decode()}")


def knows_installed_tables(tool, folder):
    """The tool reads the installed texts and names, makes a text from XML, and makes a page. It prints nothing to
    standard error."""
    recording = os.path.join(folder, "session.rec")
    shutil.copy(os.path.join(TOP, "examples", "drm_lease.rec"), recording)
    said = run([tool, "--read", recording], with_error=True)
    if not said.endswith("\nlawful: 3 requests, 5 events, 0 and 0 bytes left\n"):
        raise Failed(f"it says {said!r}")
    said = run([tool, "--read", os.path.join(TOP, "examples", "gtk_dialog.rec")])
    for it in ("capabilities(3 pointer|keyboard)", "array[4] {4 activated}"):
        if it not in said:
            raise Failed(f"it does not print {it}")
    xml = os.path.join(folder, "own.xml")
    with open(xml, "w", encoding="utf-8") as file:
        file.write('<protocol name="p"><interface name="own" version="1"/></protocol>')
    run([tool, "--read", recording, "--tables", xml, "--only", "own"])
