# Builds, checks and installs the kernel for a program in C to link: `cc $(pkg-config --cflags gmap) .. $(pkg-config --libs gmap)`.
#   make            the archive, from proved crates: what is not proved yet is proved first, which takes about five minutes
#   make check      the tests (tests/run)
#   make install    the archive, the header, the pkg-config file and the catalogue, below PREFIX (/usr/local); DESTDIR is put before it
# ARCHIVE=FILE takes that archive in place of building one.

PREFIX = /usr/local
DESTDIR =
LIBDIR = $(PREFIX)/lib
INCLUDEDIR = $(PREFIX)/include
SCHEMEDIR = $(PREFIX)/share/gmap/schemes
INSTALL = install

BUILT = target/make
ARCHIVE = $(BUILT)/libkernel.a
SOURCES = $(wildcard crates/*/src/*.rt crates/*/src/*/*.rt)
SCHEMES = $(wildcard schemes/*.scheme)
STORED = $(patsubst schemes/%.scheme,$(BUILT)/schemes/%.bytes,$(SCHEMES))
VERSION = $(shell awk '$$2 == "GMAP_VERSION" { print int($$3 / 100) "." $$3 % 100 }' include/gmap.h)

.PHONY: all check install clean
.DELETE_ON_ERROR:

all: $(ARCHIVE) $(STORED)

$(BUILT)/libkernel.a: $(SOURCES) tools/archive
	mkdir -p $(BUILT)
	cd crates/exports && rt check
	tools/archive $@

$(BUILT)/schemes/%.bytes: schemes/%.scheme
	mkdir -p $(BUILT)/schemes
	tools/scheme assemble $< -o $@

check:
	tests/run

install: all
	test -n "$(VERSION)"
	$(INSTALL) -d "$(DESTDIR)$(LIBDIR)/pkgconfig" "$(DESTDIR)$(INCLUDEDIR)" "$(DESTDIR)$(SCHEMEDIR)/maps"
	$(INSTALL) -m 644 "$(ARCHIVE)" "$(DESTDIR)$(LIBDIR)/libgmap.a"
	$(INSTALL) -m 644 include/gmap.h "$(DESTDIR)$(INCLUDEDIR)/gmap.h"
	$(INSTALL) -m 644 $(SCHEMES) $(STORED) schemes/README.md "$(DESTDIR)$(SCHEMEDIR)"
	$(INSTALL) -m 644 schemes/maps/*.map "$(DESTDIR)$(SCHEMEDIR)/maps"
	printf '%s\n' 'prefix=$(PREFIX)' 'libdir=$(LIBDIR)' 'includedir=$(INCLUDEDIR)' 'schemes=$(SCHEMEDIR)' '' 'Name: gmap' \
	    'Description: the proved map kernel' 'Version: $(VERSION)' 'Cflags: -I$${includedir}' 'Libs: -L$${libdir} -lgmap' \
	    >"$(DESTDIR)$(LIBDIR)/pkgconfig/gmap.pc"

clean:
	rm -rf $(BUILT)
