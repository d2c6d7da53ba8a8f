# The take editor's engine.
#   make          proves the crates and builds the C library, build/libzikorewi.a, and the editor, build/takecut
#   make run      proves the crates, then shows on one screen what takes are for
#   make cases    the paper's table of cases, as the second implementation computes it
#   make test     the gate; its last line is 'N passed, 0 failed'
#   make bench    times the calls against the second implementation; writes docs/BENCHMARK.md
#   make install  header, library, pkg-config file, programs and manual pages below PREFIX
CARGO = cargo --offline
PREFIX ?= /usr/local
VERSION = 0.1
BUILD = build
SOURCES = $(shell find crates crates.txt -type f -not -path '*/out/*')
ARCHIVE = crates/zikorewi/out/libzikorewi.a
CUTTER = crates/cutter/out/cutter

CFLAGS ?= -O2
CSTRICT = -std=c11 -Wall -Wextra -Werror
SHARED = $(addprefix host/, files.c keys.c memory.c picture.c pieces.c roll.c session.c)
EDITOR = $(addprefix host/, takecut.c options.c words.c progress.c takes.c commands.c recordings.c edits.c show.c messages.c midifile.c)

.PHONY: all library archive cutter programs run cases pictures test prove bench install install-files clean

all: library
	@$(MAKE) --no-print-directory programs

library: prove
	@$(MAKE) --no-print-directory archive

# The archive is proved and built again only where a crate has changed since.
$(ARCHIVE): $(SOURCES)
	cd crates/zikorewi && rt lib

archive: $(ARCHIVE)
	@mkdir -p $(BUILD)
	cp $(ARCHIVE) $(BUILD)/libzikorewi.a

# The same for the program; it is run on no input, since that is how rt builds it.
$(CUTTER): $(SOURCES)
	cd crates/cutter && rt run </dev/null

cutter: $(CUTTER)

# The editor and the demonstration, linked with that library.
programs: archive
	$(CC) $(CSTRICT) $(CFLAGS) $(LDFLAGS) -Iinclude $(EDITOR) $(SHARED) $(BUILD)/libzikorewi.a -o $(BUILD)/takecut
	$(CC) $(CSTRICT) $(CFLAGS) $(LDFLAGS) -Iinclude host/demo.c $(SHARED) $(BUILD)/libzikorewi.a -o $(BUILD)/takecut-demo

run: all
	@echo
	@$(BUILD)/takecut-demo

# The demonstration's pictures, which the README shows.
pictures: all
	@mkdir -p docs/pictures
	$(BUILD)/takecut-demo --pictures docs/pictures

cases: prove
	@$(CARGO) run --quiet --release --manifest-path reference/Cargo.toml --bin cases

prove:
	rt all check

test:
	@bash tests/gate.sh

bench: library
	$(CARGO) run --quiet --profile fast --manifest-path compare/Cargo.toml --bin bench docs

install: all cutter
	@$(MAKE) --no-print-directory install-files

# Copies what is built: also for packages, with DESTDIR.
install-files:
	install -d $(DESTDIR)$(PREFIX)/include $(DESTDIR)$(PREFIX)/lib/pkgconfig $(DESTDIR)$(PREFIX)/bin
	install -d $(DESTDIR)$(PREFIX)/share/man/man1 $(DESTDIR)$(PREFIX)/share/man/man3
	install -m 644 include/zikorewi.h $(DESTDIR)$(PREFIX)/include/
	install -m 644 $(BUILD)/libzikorewi.a $(DESTDIR)$(PREFIX)/lib/
	install -m 755 $(BUILD)/takecut $(CUTTER) $(DESTDIR)$(PREFIX)/bin/
	install -m 644 man/takecut.1 man/cutter.1 $(DESTDIR)$(PREFIX)/share/man/man1/
	install -m 644 man/zikorewi.3 $(DESTDIR)$(PREFIX)/share/man/man3/
	printf 'prefix=%s\nincludedir=$${prefix}/include\nlibdir=$${prefix}/lib\n\nName: zikorewi\nDescription: cuts and joins takes of MIDI notes on beat lines\nVersion: %s\nCflags: -I$${includedir}\nLibs: -L$${libdir} -lzikorewi\n' \
		'$(PREFIX)' '$(VERSION)' > $(DESTDIR)$(PREFIX)/lib/pkgconfig/zikorewi.pc

clean:
	rm -rf build crates/*/out reference/target compare/target
