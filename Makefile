# Builds the library for C, and on it the tool `waywire-inspect` and the libraries of `waywire-run`.
#
#     make            proves and builds the library if it is not built yet, reusing what was proved in this clone
#                     (scripts/toolchain.py), and then builds the tools. If a package has the archive of the exports that
#                     was proved from these sources, it takes that, and proves nothing
#     make UNPROVED=1 compiles the library without a proof, unless a proved one is there
#     make install    installs all of it, with the manual pages, the table texts (in PREFIX/share/waywire/protocols),
#                     the packages for Rust, the guide and the examples; also the program `waywire`, if that is built
#                     (./waywire --build)
#     make dist       packs all of that for machines without the toolchain
#     make deb        makes a Debian package of it
#     make check      runs the short tests of the library for C; ./test c runs all of them
#
# A package has an archive that was proved from nothing: `make dist` and `make deb` prove again what `make` has proved
# over kept work (scripts/proved_archive.py). A library that is not proved is installed and packed with UNPROVED=1 alone.
#
#     make install PREFIX=/usr/local LIBDIR=/usr/local/lib DESTDIR=
#     make PROVED=FOLDER      also looks for a proved archive in FOLDER, share/waywire/proved of a package
PREFIX ?= /usr/local
LIBDIR ?= $(PREFIX)/lib
INCLUDEDIR ?= $(PREFIX)/include
BINDIR ?= $(PREFIX)/bin
DATADIR ?= $(PREFIX)/share
DESTDIR ?=
CC ?= cc
CFLAGS ?= -O2
LDFLAGS ?=
OBJCOPY ?= objcopy
PROVED ?=
UNPROVED ?=
# The program has the only copy of the version's number.
numbered = crates/program_arguments/src/job.rt
VERSION := $(shell sed -n 's/^const VERSION: &str = "\(.*\)";/\1/p' $(numbered))
numbers := $(subst ., ,$(VERSION))
MAJOR := $(word 1,$(numbers))

# The archive of the exports; beside it lie the toolchain's memory functions, and how it was made, in one word.
exports = crates/waywire_c/out/libwaywire_c.a
memory = crates/waywire_c/out/liblibc_c.a
how = $(firstword $(shell head -n 1 crates/waywire_c/out/libwaywire_c.sums 2>/dev/null))
# Empty, or what is said after the version of a library that is not proved.
unproved = $(if $(filter unproved,$(how)), (not proved))
# Where packages put a proved archive.
proved_places = $(PROVED) out/proved $(DATADIR)/waywire/proved /usr/share/waywire/proved
crates := $(shell python3 -m scripts.crates below waywire_c)
sources := $(wildcard $(crates:%=crates/%/src/*.rt))
archive = out/c/libwaywire.a
# Versions of one major number are compatible; below 1, those of one minor number.
abi = $(if $(filter 0,$(MAJOR)),0.$(word 2,$(numbers)),$(MAJOR))
soname = libwaywire.so.$(abi)
shared = out/c/libwaywire.so.$(VERSION)
program ?= crates/waywire/out/waywire
inspect = out/c/waywire-inspect
replay = out/c/waywire-replay
wayland = out/c/wayland/client/libwayland-client.so.0 out/c/wayland/server/libwayland-server.so.0
run = out/c/waywire-run
headers = include/waywire.h include/waywire-core.h include/waywire-socket.h include/waywire-version.h
package = waywire-$(VERSION)$(if $(unproved),-unproved)-x86_64-linux
# Files for build tools name the other folders relative to their own, so that an installed tree can be moved.
from = $(shell realpath -ms --relative-to=$(1)/ $(2)/)
fill = sed 's|@UP@|$(call from,$(1),$(PREFIX))|; s|@LIBDIR@|$(call from,$(PREFIX),$(LIBDIR))|; \
	s|@INCLUDEDIR@|$(call from,$(PREFIX),$(INCLUDEDIR))|; s|@VERSION@|$(VERSION)|; \
	s|@SONAME@|$(soname)|; s|@ABI@|$(abi)|; s|@PROVED@|$(if $(unproved),no,yes)|; \
	s|@HOW@|$(if $(unproved),not )proved|'

# `waywire-run` finds the folders of its libraries and the inspector from its own folder:
# $(call run_with,LIBRARIES,INSPECTOR,FILE).
run_with = sed 's|^libraries=.*|libraries=$(1)|; s|^inspector=.*|inspector=$(2)|; \
	s|^version=.*|version=$(VERSION)|' c/libwayland/waywire-run > $(3) && chmod 755 $(3)

# The typed calls for the core, which a tool makes from the core's XML. Those for Rust are part of its package.
typed_c = include/waywire-core.h
typed_rust = rust/waywire/src/wayland.rs rust/waywire/src/data_device.rs
# The archive in the package for Rust, which links it if no variable names another.
archive_rust = rust/waywire-sys/lib/libwaywire.a
# Those for the examples in Rust, as far as the files of the protocols are installed.
example_modules = rust/waywire/examples/protocols/.made
typed_from = protocols/core/core.xml protocols/core/core.tables tools/stubs-from-xml $(addprefix tools/waywire/, \
	__init__.py files.py protocol.py rust_stubs.py stubs_from_xml.py table_text.py valid_tables.py)

all: $(archive) $(shared) $(inspect) $(replay) $(wayland) $(run) $(typed_rust) $(example_modules) $(archive_rust)

# What UNPROVED=1 allows: a library that is not proved, and packages with what was not proved from nothing.
ifeq ($(UNPROVED),)
packed := $(filter dist deb,$(MAKECMDGOALS))
ifneq ($(filter install dist deb,$(MAKECMDGOALS)),)
ifneq ($(unproved),)
$(error the library is not proved: `make` proves it, and `make $(MAKECMDGOALS) UNPROVED=1` takes it as it is)
endif
endif
again := $(if $(unproved),again)
ifneq ($(packed),)
again += $(shell python3 -m scripts.proved_archive ready || echo again)
endif
endif

$(exports): $(sources) $(again)
	@python3 -m scripts.proved_archive take $(proved_places) || \
		python3 -m scripts.$(if $(UNPROVED),unproved_archive,toolchain build waywire_c $(if $(packed),whole))

include/waywire-version.h: $(numbered) Makefile
	@printf '%s\n' '/* Made by make. */' '#define WAYWIRE_VERSION "$(VERSION)"' \
		'#define WAYWIRE_VERSION_MAJOR $(MAJOR)' \
		'#define WAYWIRE_VERSION_MINOR $(word 2,$(numbers))' \
		'#define WAYWIRE_VERSION_PATCH $(word 3,$(numbers))' > $@

$(typed_c): $(typed_from)
	tools/stubs-from-xml --prefix waywire_ $< > $@

rust/waywire/src/wayland.rs: $(typed_from)
	tools/stubs-from-xml --rust --comment 'Typed calls for the core protocol, wayland.xml without data transfer.' \
		$< > $@

rust/waywire/src/data_device.rs: protocols/core/data-device.xml $(typed_from)
	tools/stubs-from-xml --rust --comment 'Typed calls for data transfer (clipboards, drag and drop), the rest of wayland.xml.' \
		$< > $@

$(example_modules): scripts/example_modules.py scripts/protocol_files.py $(typed_from)
	python3 -m scripts.example_modules
	@touch $@

# The calls on top of the exports.
calls = $(patsubst c/lib/%.c,out/c/lib/%.o,$(wildcard c/lib/*.c))

out/c/lib/version.o: c/lib/version.c include/waywire.h include/waywire-version.h $(exports)
	@mkdir -p out/c/lib
	$(CC) $(CFLAGS) -std=c99 -Wall -Wextra -Wpedantic -fPIC -Iinclude -DHOW='"$(unproved)"' -c $< -o $@

out/c/lib/%.o: c/lib/%.c $(wildcard c/lib/*.h) include/waywire.h include/waywire-version.h
	@mkdir -p out/c/lib
	$(CC) $(CFLAGS) -std=c99 -Wall -Wextra -Wpedantic -fPIC -Iinclude -c $< -o $@

# One object of the calls, the exports and the memory, in which only the calls are global.
out/c/waywire.o: $(exports) $(calls)
	$(LD) -r --whole-archive $(exports) --no-whole-archive $(calls) $(memory) \
		-o out/c/whole.o
	nm -g --defined-only $(calls) | sed -n 's/.* T \(waywire_\)/\1/p' > out/c/calls.txt
	$(OBJCOPY) --keep-global-symbols=out/c/calls.txt out/c/whole.o $@
	@rm -f out/c/whole.o

# The sockets use only the calls of waywire.h. They are a separate object, so they are not linked into a program that
# uses the archive with a transport of its own.
sockets = $(patsubst c/socket/%.c,out/c/socket/%.o,$(wildcard c/socket/*.c))

out/c/socket/%.o: c/socket/%.c c/socket/socket.h include/waywire-socket.h include/waywire-core.h include/waywire.h \
		include/waywire-version.h
	@mkdir -p out/c/socket
	$(CC) $(CFLAGS) -std=c99 -Wall -Wextra -Wpedantic -fPIC -Iinclude -c $< -o $@

out/c/waywire-socket.o: $(sockets)
	$(LD) -r $(sockets) -o out/c/whole-socket.o
	nm -g --defined-only $(sockets) | sed -n 's/.* T \(waywire_\)/\1/p' > out/c/socket-calls.txt
	$(OBJCOPY) --keep-global-symbols=out/c/socket-calls.txt out/c/whole-socket.o $@
	@rm -f out/c/whole-socket.o

objects = out/c/waywire.o out/c/waywire-socket.o

$(archive): $(objects)
	@rm -f $@
	$(AR) rcsD $@ $(objects)

$(archive_rust): $(archive)
	@mkdir -p $(@D)
	@cp $< $@

$(shared): $(objects)
	$(CC) -shared -Wl,-soname,$(soname) -Wl,-z,defs -Wl,--build-id=sha1 $(LDFLAGS) $(objects) -o $@
	@ln -sf $(notdir $@) out/c/$(soname)
	@ln -sf $(soname) out/c/libwaywire.so

# The tool finds its files when it runs (c/inspect/folders.c), so `make install` only copies it.
$(inspect): c/inspect/*.c c/inspect/*.h $(archive)
	$(CC) $(CFLAGS) -std=c99 -Wall -Wextra -Wpedantic -Iinclude c/inspect/*.c $(LDFLAGS) $(archive) -o $@

# The files of c/inspect read recordings, tables and names for both tools.
$(replay): c/replay/*.c c/replay/*.h c/inspect/*.c c/inspect/*.h $(archive)
	$(CC) $(CFLAGS) -std=c99 -Wall -Wextra -Wpedantic -Iinclude -Ic/inspect c/replay/*.c \
		$(filter-out c/inspect/main.c,$(wildcard c/inspect/*.c)) $(LDFLAGS) $(archive) -o $@

# The libwayland-client and the libwayland-server. Each has a folder of its own, so that only programs that are told to
# use it find it. It contains the archive, and exports only the symbols of libwayland.
wayland_common = $(patsubst c/libwayland/%.c,out/c/wayland/%.o,$(wildcard c/libwayland/common/*.c)) \
	out/c/wayland/interfaces.o
wayland_client = $(patsubst c/libwayland/%.c,out/c/wayland/%.o,$(wildcard c/libwayland/client/*.c))
wayland_server = $(patsubst c/libwayland/%.c,out/c/wayland/%.o,$(wildcard c/libwayland/server/*.c))
wayland_flags = -std=c99 -Wall -Wextra -Wpedantic -fPIC -fvisibility=hidden -pthread -Iinclude -Ic/libwayland/common

out/c/wayland/%.o: c/libwayland/%.c $(wildcard c/libwayland/*/*.h) include/waywire-socket.h include/waywire.h \
		include/waywire-version.h
	@mkdir -p $(@D)
	$(CC) $(CFLAGS) $(wayland_flags) -c $< -o $@

out/c/wayland/interfaces.c: protocols/core/core.xml protocols/core/data-device.xml scripts/interfaces_from_xml.py \
		tools/waywire/protocol.py
	@mkdir -p out/c/wayland
	python3 -m scripts.interfaces_from_xml protocols/core/core.xml protocols/core/data-device.xml > $@

out/c/wayland/interfaces.o: out/c/wayland/interfaces.c c/libwayland/common/wayland-abi.h
	$(CC) $(CFLAGS) $(wayland_flags) -c $< -o $@

# Some programs, such as alacritty, load a library by its name without a number.
out/c/wayland/client/libwayland-client.so.0: $(wayland_client)
out/c/wayland/server/libwayland-server.so.0: $(wayland_server)
$(wayland): $(wayland_common) $(archive)
	$(CC) -shared -pthread -Wl,-soname,$(notdir $@) -Wl,-z,defs -Wl,--build-id=sha1 \
		-Wl,--exclude-libs,ALL $(LDFLAGS) $(filter %.o,$^) $(archive) -o $@
	@ln -sf $(notdir $@) $(@:.0=)

$(run): c/libwayland/waywire-run Makefile $(numbered)
	@mkdir -p out/c
	$(call run_with,wayland,waywire-inspect,$@)

# The files of the packages for Rust, which are built with an installed library, and of the examples.
rust = Cargo.toml $(shell cd rust && find waywire*/Cargo.toml waywire*/README.md waywire*/build.rs waywire*/src \
	waywire/examples -type f -not -name .made)
pages = c/inspect/waywire-inspect.1 c/replay/waywire-replay.1 c/libwayland/waywire-run.1 tools/waywire-picture.1

install: all
	install -d $(DESTDIR)$(INCLUDEDIR) $(DESTDIR)$(LIBDIR)/pkgconfig $(DESTDIR)$(LIBDIR)/cmake/waywire \
		$(DESTDIR)$(BINDIR) $(DESTDIR)$(DATADIR)/waywire/protocols/core $(DESTDIR)$(DATADIR)/waywire/tools \
		$(DESTDIR)$(DATADIR)/doc/waywire $(DESTDIR)$(DATADIR)/man/man1
	install -m 644 $(headers) $(DESTDIR)$(INCLUDEDIR)
	install -m 644 $(archive) $(DESTDIR)$(LIBDIR)
	install -m 755 $(shared) $(DESTDIR)$(LIBDIR)
	for side in client server; do \
		install -D -m 755 out/c/wayland/$$side/libwayland-$$side.so.0 \
			$(DESTDIR)$(LIBDIR)/waywire/wayland/$$side/libwayland-$$side.so.0 && \
		ln -sf libwayland-$$side.so.0 \
			$(DESTDIR)$(LIBDIR)/waywire/wayland/$$side/libwayland-$$side.so || exit; \
	done
	$(call run_with,$(call from,$(BINDIR),$(LIBDIR)/waywire/wayland),waywire-inspect,$(DESTDIR)$(BINDIR)/waywire-run)
	for page in $(pages); do \
		sed 's|@VERSION@|$(VERSION)|' $$page.in > $(DESTDIR)$(DATADIR)/man/man1/$${page##*/} || exit; \
	done
	ln -sf $(notdir $(shared)) $(DESTDIR)$(LIBDIR)/$(soname)
	ln -sf $(soname) $(DESTDIR)$(LIBDIR)/libwaywire.so
	$(call fill,$(LIBDIR)/pkgconfig) c/lib/waywire.pc.in > $(DESTDIR)$(LIBDIR)/pkgconfig/waywire.pc
	for file in waywire-config.cmake waywire-config-version.cmake; do \
		$(call fill,$(LIBDIR)/cmake/waywire) c/lib/$$file.in > $(DESTDIR)$(LIBDIR)/cmake/waywire/$$file || exit; \
	done
	chmod 644 $(DESTDIR)$(LIBDIR)/pkgconfig/waywire.pc $(DESTDIR)$(LIBDIR)/cmake/waywire/*.cmake
	install -m 644 protocols/*.tables protocols/*.names $(DESTDIR)$(DATADIR)/waywire/protocols
	install -m 644 protocols/core/* $(DESTDIR)$(DATADIR)/waywire/protocols/core
	install -m 644 LICENSE docs/inspect.schema.json $(DESTDIR)$(DATADIR)/doc/waywire
	install -d $(DESTDIR)$(DATADIR)/doc/waywire/examples
	install -m 644 examples/c/* examples/*.rec $(DESTDIR)$(DATADIR)/doc/waywire/examples
	for file in $(rust); do \
		install -D -m 644 rust/$$file $(DESTDIR)$(DATADIR)/waywire/rust/$$file || exit; \
	done
	python3 -m scripts.installed_pages $(DATADIR)/doc/waywire $(INCLUDEDIR) $(DATADIR)/waywire '$(DESTDIR)'
	chmod 644 $(DESTDIR)$(DATADIR)/doc/waywire/*.md
	install -d $(DESTDIR)$(DATADIR)/waywire/tools/waywire $(DESTDIR)$(DATADIR)/waywire/tools/picture
	install -m 644 tools/waywire/*.py $(DESTDIR)$(DATADIR)/waywire/tools/waywire
	install -m 644 tools/picture/* $(DESTDIR)$(DATADIR)/waywire/tools/picture
	for tool in tables-from-xml stubs-from-xml; do \
		install -m 755 tools/$$tool $(DESTDIR)$(DATADIR)/waywire/tools && \
		ln -sf $(call from,$(BINDIR),$(DATADIR)/waywire/tools)/$$tool $(DESTDIR)$(BINDIR)/waywire-$$tool && \
		sed 's|@VERSION@|$(VERSION)|' tools/$$tool.1.in > $(DESTDIR)$(DATADIR)/man/man1/waywire-$$tool.1 || exit; \
	done
	chmod 644 $(DESTDIR)$(DATADIR)/man/man1/waywire-*.1
	install -m 755 $(inspect) $(replay) $(DESTDIR)$(BINDIR)
	install -m 755 tools/waywire-picture tools/recordings-from-debug $(DESTDIR)$(DATADIR)/waywire/tools
	ln -sf $(call from,$(BINDIR),$(DATADIR)/waywire/tools)/waywire-picture $(DESTDIR)$(BINDIR)
	if python3 -m scripts.proved_archive ready; then \
		python3 -m scripts.proved_archive pack $(DESTDIR)$(DATADIR)/waywire/proved; \
	else \
		rm -rf $(DESTDIR)$(DATADIR)/waywire/proved; \
	fi
	if [ -x $(program) ]; then \
		install -m 755 $(program) $(DESTDIR)$(BINDIR)/waywire && \
		python3 -m scripts.man_page $(program) > $(DESTDIR)$(DATADIR)/man/man1/waywire.1 && \
		chmod 644 $(DESTDIR)$(DATADIR)/man/man1/waywire.1; \
	else \
		echo "make: the program waywire is not installed: ./waywire --build proves and builds it" >&2; \
	fi

# Two packages of one commit have the same bytes.
dist: all
	@[ -x $(program) ] || { echo "make dist: the program is not built (./waywire --build)" >&2; exit 1; }
	rm -rf out/dist
	$(MAKE) -s install DESTDIR=$(CURDIR)/out/dist/$(package) PREFIX= LIBDIR=/lib INCLUDEDIR=/include \
		BINDIR=/bin DATADIR=/share program=$(program)
	cd out/dist && find . -type d -exec chmod 755 {} + && tar --sort=name --mtime=@0 --owner=0 --group=0 \
		--numeric-owner -cf $(package).tar $(package) && gzip -9n $(package).tar && mv -f $(package).tar.gz ..
	rm -rf out/dist
	@echo out/$(package).tar.gz

# An unsigned package: scripts/deb-package says what is in it.
deb: all
	scripts/deb-package $(VERSION) $(abi) $(program)

check: all
	./test c --short

clean:
	rm -rf out/c out/dist out/deb out/*.tar.gz out/*.deb include/waywire-version.h $(typed_c) $(typed_rust) \
		rust/waywire/examples/protocols rust/waywire-sys/lib

.PHONY: all again install dist deb check clean
.DELETE_ON_ERROR:
