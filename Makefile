# Builds and installs the library desk and the program ways. rt proves each crate before it is built; what it has proved before, it does not
# prove again.
PREFIX ?= /usr/local
bindir ?= $(PREFIX)/bin
includedir ?= $(PREFIX)/include
libdir ?= $(PREFIX)/lib
pkgconfigdir ?= $(libdir)/pkgconfig
mandir ?= $(PREFIX)/share/man
INSTALL ?= install
CFLAGS ?= -O2

VERSION := $(shell sed -n 's/^.define DESK_VERSION "\(.*\)"$$/\1/p' include/desk.h)
LISTING_ROOM := $(shell sed -n 's/^.define DESK_LISTING_ROOM //p' include/desk.h)
LIBRARY := target/staticlib/libdesk.a
PROGRAM := target/bin/ways
EXAMPLES := $(patsubst examples/c/%.c,target/examples/%,$(wildcard examples/c/*.c))
SOURCES := crates.txt $(shell find crates -name out -prune -o '(' -name '*.rt' -o -name '*.antt' ')' -print)

INSTALLED = $(libdir)/libdesk.a $(includedir)/desk.h $(pkgconfigdir)/desk.pc $(bindir)/ways $(mandir)/man1/ways.1 $(mandir)/man3/desk.3
FILL = sed -e 's|@VERSION@|$(VERSION)|' -e 's|@LISTING_ROOM@|$(LISTING_ROOM)|' -e 's|@PREFIX@|$(PREFIX)|' -e 's|@includedir@|$(includedir)|' -e 's|@libdir@|$(libdir)|'

.PHONY: all install uninstall examples test

all: $(LIBRARY) $(PROGRAM)

# Two runs of rt never overlap: the program waits for the library. rt runs a program where it builds it, here on the empty book.
$(LIBRARY): $(SOURCES)
	@mkdir -p $(@D)
	cd crates/desk_c && rt lib
	cp crates/desk_c/out/libdesk_c.a $@

$(PROGRAM): $(SOURCES) | $(LIBRARY)
	@mkdir -p $(@D)
	cd crates/ways && rt run </dev/null >/dev/null
	cp crates/ways/out/ways $@

examples: $(EXAMPLES)

target/examples/%: examples/c/%.c include/desk.h $(LIBRARY)
	@mkdir -p $(@D)
	$(CC) -std=c11 -Iinclude $(CPPFLAGS) $(CFLAGS) $(LDFLAGS) -o $@ $< $(LIBRARY) $(LDLIBS)

install: all
	$(INSTALL) -d $(addprefix $(DESTDIR),$(sort $(dir $(INSTALLED))))
	$(INSTALL) -m 644 $(LIBRARY) $(DESTDIR)$(libdir)/libdesk.a
	$(INSTALL) -m 644 include/desk.h $(DESTDIR)$(includedir)/desk.h
	$(INSTALL) -m 755 $(PROGRAM) $(DESTDIR)$(bindir)/ways
	$(FILL) packaging/desk.pc.in | $(INSTALL) -m 644 /dev/stdin $(DESTDIR)$(pkgconfigdir)/desk.pc
	$(FILL) packaging/ways.1.in | $(INSTALL) -m 644 /dev/stdin $(DESTDIR)$(mandir)/man1/ways.1
	$(FILL) packaging/desk.3.in | $(INSTALL) -m 644 /dev/stdin $(DESTDIR)$(mandir)/man3/desk.3

uninstall:
	rm -f $(addprefix $(DESTDIR),$(INSTALLED))

test:
	./test
