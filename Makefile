# The library for C and the programs, with their header, manual pages and completion:
#   make                  proves and builds them, by rt and cargo
#   make install          installs them below PREFIX, which is /usr/local where it is not given
#   make uninstall        removes them again
# DESTDIR, as packagers use it, is put before every path that is installed to.

PREFIX ?= /usr/local
bindir ?= $(PREFIX)/bin
includedir ?= $(PREFIX)/include
libdir ?= $(PREFIX)/lib
datadir ?= $(PREFIX)/share
pkgconfigdir ?= $(libdir)/pkgconfig
man1dir ?= $(datadir)/man/man1
completionsdir ?= $(datadir)/bash-completion/completions

ifeq ($(filter /%,$(PREFIX)),)
$(error PREFIX is $(PREFIX): name a path that starts with /)
endif

CARGO_TARGET_DIR ?= target/cargo
export CARGO_TARGET_DIR

library := target/staticlib/libstewpigeon.a
program := target/bin/transcript
rust_names := capture-to-journal stewpigeon-inspect stewpigeon-transcript
rust_programs := $(rust_names:%=$(CARGO_TARGET_DIR)/release/%)
pages := $(wildcard man/*.1)
# Completion is looked for by a command's name.
completed := $(rust_names) stewpigeon-archive

# With the folders, which are newer where a file is gone.
proved_sources := crates.txt $(shell find $(wildcard crates/*/src crates/*/specs crates/*/proofs))
rust_sources := Cargo.toml Cargo.lock $(shell find rust)

installed := \
    $(bindir)/transcript $(bindir)/stewpigeon-archive $(rust_names:%=$(bindir)/%) \
    $(includedir)/stewpigeon.h $(libdir)/libstewpigeon.a $(pkgconfigdir)/stewpigeon.pc \
    $(pages:man/%=$(man1dir)/%) $(completed:%=$(completionsdir)/%)

.PHONY: all install uninstall

all: $(library) $(program) $(rust_programs)

$(library): $(proved_sources)
	tools/install
	tools/build library

# After the library: both prove the crates below them.
$(program): $(proved_sources) | $(library)
	tools/build program

$(rust_programs) &: $(rust_sources) $(library)
	cargo build --offline --release --quiet -p capture -p inspect -p transcript-tool
	touch $(rust_programs)

install: all
	install -d $(sort $(dir $(installed:%=$(DESTDIR)%)))
	install -m 755 $(program) $(rust_programs) $(DESTDIR)$(bindir)
	install -m 755 tools/archive $(DESTDIR)$(bindir)/stewpigeon-archive
	install -m 644 include/stewpigeon.h $(DESTDIR)$(includedir)
	install -m 644 $(library) $(DESTDIR)$(libdir)
	sed 's|@prefix@|$(PREFIX)|; s|@includedir@|$(includedir)|; s|@libdir@|$(libdir)|; s|@version@|'$$(tools/version)'|' \
	    stewpigeon.pc.in > $(DESTDIR)$(pkgconfigdir)/stewpigeon.pc
	chmod 644 $(DESTDIR)$(pkgconfigdir)/stewpigeon.pc
	install -m 644 $(pages) $(DESTDIR)$(man1dir)
	for name in $(completed); do \
	    install -m 644 completions/stewpigeon.bash $(DESTDIR)$(completionsdir)/$$name || exit 1; \
	done

uninstall:
	rm -f $(installed:%=$(DESTDIR)%)
