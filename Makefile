# Builds the archive and the console, and installs them with the header, a pkg-config file and the manual pages.
#   make                                       proves and builds both (needs the Rattle kit, rt)
#   make install [PREFIX=..] [DESTDIR=..]      copies what was built; install-library and install-console are its two halves
#   make uninstall [PREFIX=..] [DESTDIR=..]    removes those files, and no folder
# Archive and console are for x86-64 Linux, wherever they are built.
PREFIX = /usr/local
DESTDIR =
bindir = $(PREFIX)/bin
includedir = $(PREFIX)/include
libdir = $(PREFIX)/lib
mandir = $(PREFIX)/share/man
INSTALL = install

version := $(shell sed -n 's/^.define MANDROZSI_VERSION "\(.*\)"/\1/p' bindings/c/mandrozsi.h)
archive = target/staticlib/libexports.a
console = crates/console/out/console

header_to = $(DESTDIR)$(includedir)/mandrozsi.h
archive_to = $(DESTDIR)$(libdir)/libmandrozsi.a
package_to = $(DESTDIR)$(libdir)/pkgconfig/mandrozsi.pc
calls_to = $(DESTDIR)$(mandir)/man3/mandrozsi.3
console_to = $(DESTDIR)$(bindir)/mandrozsi
session_to = $(DESTDIR)$(mandir)/man1/mandrozsi.1
library_files = $(header_to) $(archive_to) $(package_to) $(calls_to)
console_files = $(console_to) $(session_to)

# $(call built,FILE,COMMAND) ends make with a sentence where FILE is not there.
built = @test -f $(1) || { echo "make: there is no $(1): '$(2)' makes it" >&2; exit 1; }

all:
	.ci/archive
	cd crates/console && rt run </dev/null

install: install-library install-console

install-library:
	$(call built,$(archive),.ci/archive)
	$(INSTALL) -d $(dir $(library_files))
	$(INSTALL) -m 644 bindings/c/mandrozsi.h $(header_to)
	$(INSTALL) -m 644 $(archive) $(archive_to)
	sed 's|@PREFIX@|$(PREFIX)|; s|@INCLUDEDIR@|$(includedir)|; s|@LIBDIR@|$(libdir)|; s|@VERSION@|$(version)|' bindings/c/mandrozsi.pc.in >$(package_to)
	chmod 644 $(package_to)
	$(INSTALL) -m 644 docs/man/mandrozsi.3 $(calls_to)

install-console:
	$(call built,$(console),cd crates/console && rt run </dev/null)
	$(INSTALL) -d $(dir $(console_files))
	$(INSTALL) -m 755 $(console) $(console_to)
	$(INSTALL) -m 644 docs/man/mandrozsi.1 $(session_to)

uninstall:
	rm -f $(library_files) $(console_files)

.PHONY: all install install-library install-console uninstall
