# Builds and installs the live unit, the master by hand, their libraries and their documents.
#
#   make                              proves and builds; as any user, the first time in minutes
#   make install PREFIX=/usr/local    installs what was built; DESTDIR as usual
#   make uninstall PREFIX=/usr/local
#
# Packages that the gate needs are another thing: checks/install.

PREFIX = /usr/local
DESTDIR =
MADE = target/packaging
LIBRARIES = $(or $(BOARD_LIB),target/staticlib)
INSTALL = install

VERSION = $(shell tools/version)

to = $(DESTDIR)$(PREFIX)
programs = unit2179 poll2179
libraries = osturdam osturdam_poll
files = $(programs:%=$(to)/bin/%) $(libraries:%=$(to)/lib/lib%.a) $(libraries:%=$(to)/include/%.h) $(libraries:%=$(to)/lib/pkgconfig/%.pc) \
	$(to)/lib/cmake/osturdam/osturdam-config.cmake $(to)/lib/cmake/osturdam/osturdam-config-version.cmake \
	$(programs:%=$(to)/share/man/man1/%.1) $(libraries:%=$(to)/share/man/man3/%.3) $(to)/lib/systemd/system/unit2179@.service \
	$(to)/share/doc/osturdam/unit2179.conf

.PHONY: all install uninstall

all:
	tools/cc86
	tools/board >/dev/null
	tools/board --library poll >/dev/null
	host/unit2179/build >/dev/null
	host/poll2179/build >/dev/null
	mkdir -p $(MADE)
	for program in $(programs); do \
		tools/$$program --help >$(MADE)/$$program.help && tools/manpage $$program <$(MADE)/$$program.help >$(MADE)/$$program.1 || exit 1; \
	done
	for library in $(libraries); do tools/manpage $$library <include/$$library.h >$(MADE)/$$library.3 || exit 1; done

# as root too: what was built as any user is only copied
install:
	@test -e $(MADE)/osturdam_poll.3 || { echo 'nothing is built yet: make, as any user, then make install' >&2; exit 1; }
	$(INSTALL) -d $(sort $(dir $(files)))
	for program in $(programs); do $(INSTALL) -m 755 target/$$program/$$program $(to)/bin/$$program || exit 1; done
	$(INSTALL) -m 644 $(LIBRARIES)/libboard.a $(to)/lib/libosturdam.a
	$(INSTALL) -m 644 $(firstword $(wildcard $(LIBRARIES)/libpoll.a) target/staticlib/libpoll.a) $(to)/lib/libosturdam_poll.a
	$(INSTALL) -m 644 $(libraries:%=include/%.h) $(to)/include
	$(INSTALL) -m 644 $(programs:%=$(MADE)/%.1) $(to)/share/man/man1
	$(INSTALL) -m 644 $(libraries:%=$(MADE)/%.3) $(to)/share/man/man3
	$(INSTALL) -m 644 samples/unit2179.conf $(to)/share/doc/osturdam/unit2179.conf
	$(INSTALL) -m 644 packaging/osturdam-config.cmake $(to)/lib/cmake/osturdam/osturdam-config.cmake
	sed 's|@VERSION@|$(VERSION)|' packaging/osturdam-config-version.cmake >$(to)/lib/cmake/osturdam/osturdam-config-version.cmake
	for library in $(libraries); do \
		sed 's|@PREFIX@|$(PREFIX)|; s|@VERSION@|$(VERSION)|' packaging/$$library.pc.in >$(to)/lib/pkgconfig/$$library.pc || exit 1; \
	done
	sed 's|@PREFIX@|$(PREFIX)|' packaging/unit2179@.service.in >$(to)/lib/systemd/system/unit2179@.service
	chmod 644 $(to)/lib/cmake/osturdam/osturdam-config-version.cmake $(libraries:%=$(to)/lib/pkgconfig/%.pc) $(to)/lib/systemd/system/unit2179@.service
	@test $$(uname -m) = x86_64 || echo "programs and libraries are for x86-64; this machine is $$(uname -m)"

uninstall:
	rm -f $(files)
