# Hempmallet for a C programmer. Calls rt, the C compiler and the usual tools, and nothing else.
#
#     make              permitconv, the archive and the host to start from
#     make check        the gate: everything proved, then all tests
#     make install      program, header, archive, pkg-config file and manual page below $(DESTDIR)$(PREFIX)
#     make uninstall    takes these away again
#     make clean        takes away all that was made here

# permitconv --version and docs/permitconv.1 say it too; tests/run_make.py holds the three together.
VERSION = 0.17.0

PREFIX = /usr/local
DESTDIR =
BINDIR = $(PREFIX)/bin
INCLUDEDIR = $(PREFIX)/include
LIBDIR = $(PREFIX)/lib
MANDIR = $(PREFIX)/share/man

CFLAGS = -O2 -Wall -Wextra
INSTALL = install

program = crates/permitconv/out/permitconv
archive = crates/hempmallet/out/libhempmallet.a
host = target/host
sources := crates.txt $(shell find crates -mindepth 2 -path 'crates/*/out' -prune -o -print)

.PHONY: all check install uninstall clean
.NOTPARALLEL: # rt proves crates side by side itself
.DELETE_ON_ERROR:

all: $(program) $(archive) $(host)

# `rt run` proves the program and every crate below it, links it and runs it. It leaves a program as it is that did not change.
$(program): $(sources)
	cd crates/permitconv && rt run -- --version
	touch $@

# `rt lib` proves the same way before it writes the archive.
$(archive): $(sources)
	cd crates/hempmallet && rt lib
	touch $@

$(host): host/host.c include/hempmallet.h $(archive)
	mkdir -p target
	$(CC) -std=c99 $(CPPFLAGS) $(CFLAGS) -Iinclude host/host.c $(archive) $(LDFLAGS) -o $@

check:
	bash .ci/run

install: $(program) $(archive)
	$(INSTALL) -d '$(DESTDIR)$(BINDIR)' '$(DESTDIR)$(INCLUDEDIR)' '$(DESTDIR)$(LIBDIR)/pkgconfig' '$(DESTDIR)$(MANDIR)/man1'
	$(INSTALL) -m 755 $(program) '$(DESTDIR)$(BINDIR)/permitconv'
	$(INSTALL) -m 644 include/hempmallet.h '$(DESTDIR)$(INCLUDEDIR)/hempmallet.h'
	$(INSTALL) -m 644 $(archive) '$(DESTDIR)$(LIBDIR)/libhempmallet.a'
	$(INSTALL) -m 644 docs/permitconv.1 '$(DESTDIR)$(MANDIR)/man1/permitconv.1'
	sed -e 's|@PREFIX@|$(PREFIX)|' -e 's|@INCLUDEDIR@|$(INCLUDEDIR)|' -e 's|@LIBDIR@|$(LIBDIR)|' -e 's|@VERSION@|$(VERSION)|' \
		host/hempmallet.pc.in >'$(DESTDIR)$(LIBDIR)/pkgconfig/hempmallet.pc'
	chmod 644 '$(DESTDIR)$(LIBDIR)/pkgconfig/hempmallet.pc'

uninstall:
	rm -f '$(DESTDIR)$(BINDIR)/permitconv' '$(DESTDIR)$(INCLUDEDIR)/hempmallet.h' '$(DESTDIR)$(LIBDIR)/libhempmallet.a'
	rm -f '$(DESTDIR)$(LIBDIR)/pkgconfig/hempmallet.pc' '$(DESTDIR)$(MANDIR)/man1/permitconv.1'

clean:
	rm -rf target crates/*/out tests/__pycache__
