# Builds, tests, installs and removes Wichteab.
#
#   make             proves every crate, and builds the library, the programs and the tool
#   make test        runs the gate, .ci/run
#   make install     copies header, library, pkg-config file, programs and man pages to their places below PREFIX
#   make uninstall   removes them again
#
# `make install` copies what was built, and builds only what is missing; after a change run `make` first. A folder named
# DESTDIR is put before every place, for those who make packages.

PREFIX ?= /usr/local
BINDIR = $(PREFIX)/bin
LIBDIR = $(PREFIX)/lib
INCLUDEDIR = $(PREFIX)/include
MANDIR = $(PREFIX)/share/man
DESTDIR ?=

RT = rt
CARGO = cargo
INSTALL = install

# What is installed, and where it was built.
CARGO_TARGET_DIR ?= tests/target
ARCHIVE = target/staticlib/libcontroller.a
PROGRAMS = target/bin
TOOL = $(CARGO_TARGET_DIR)/release/wichteab
NAMES = order plan timetable season
VERSION = $(shell sed -n 's/^.define WICHTEAB_VERSION "\(.*\)"$$/\1/p' include/wichteab.h)

build = RT="$(RT)" tools/build
build_tool = $(CARGO) build --release --locked --offline --manifest-path tests/Cargo.toml --package wichteab

.PHONY: all test install uninstall

all:
	$(build)
	$(build_tool)

test:
	.ci/run

# Without prerequisites: what is there is not built again.
$(PROGRAMS)/%_main:
	$(build)

$(ARCHIVE):
	$(build)

$(TOOL): | $(ARCHIVE)
	$(build_tool)

install: $(ARCHIVE) $(NAMES:%=$(PROGRAMS)/%_main) $(TOOL)
	$(INSTALL) -d "$(DESTDIR)$(BINDIR)" "$(DESTDIR)$(LIBDIR)/pkgconfig" "$(DESTDIR)$(INCLUDEDIR)"
	$(INSTALL) -d "$(DESTDIR)$(MANDIR)/man1" "$(DESTDIR)$(MANDIR)/man3"
	$(INSTALL) -m 644 include/wichteab.h "$(DESTDIR)$(INCLUDEDIR)/wichteab.h"
	$(INSTALL) -m 644 $(ARCHIVE) "$(DESTDIR)$(LIBDIR)/libwichteab.a"
	sed -e 's|@PREFIX@|$(PREFIX)|' -e 's|@LIBDIR@|$(LIBDIR)|' -e 's|@INCLUDEDIR@|$(INCLUDEDIR)|' \
	    -e 's|@VERSION@|$(VERSION)|' share/wichteab.pc.in >"$(DESTDIR)$(LIBDIR)/pkgconfig/wichteab.pc"
	chmod 644 "$(DESTDIR)$(LIBDIR)/pkgconfig/wichteab.pc"
	$(INSTALL) -m 755 $(TOOL) "$(DESTDIR)$(BINDIR)/wichteab"
	for name in $(NAMES); do \
	    $(INSTALL) -m 755 "$(PROGRAMS)/$${name}_main" "$(DESTDIR)$(BINDIR)/wichteab-$$name" || exit 1; \
	done
	$(INSTALL) -m 644 share/man/man1/wichteab.1 "$(DESTDIR)$(MANDIR)/man1/wichteab.1"
	$(INSTALL) -m 644 share/man/man3/wichteab.3 "$(DESTDIR)$(MANDIR)/man3/wichteab.3"

uninstall:
	rm -f "$(DESTDIR)$(INCLUDEDIR)/wichteab.h" "$(DESTDIR)$(LIBDIR)/libwichteab.a"
	rm -f "$(DESTDIR)$(LIBDIR)/pkgconfig/wichteab.pc" "$(DESTDIR)$(BINDIR)/wichteab"
	for name in $(NAMES); do rm -f "$(DESTDIR)$(BINDIR)/wichteab-$$name"; done
	rm -f "$(DESTDIR)$(MANDIR)/man1/wichteab.1" "$(DESTDIR)$(MANDIR)/man3/wichteab.3"
