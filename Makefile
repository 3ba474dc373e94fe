# The C library: make, make check, make install PREFIX=/usr/local DESTDIR=.
# rt proves and compiles it; here its archive gets the names and places of a system library.

PREFIX = /usr/local
LIBDIR = $(PREFIX)/lib
INCLUDEDIR = $(PREFIX)/include

version_part = $(shell sed -n 's/^\#define KUTIMUQ_VERSION_$(1) //p' include/kutimuq.h)
# While the major number is 0, a new minor number may change an interface.
SOVERSION := $(call version_part,MAJOR).$(call version_part,MINOR)
VERSION := $(SOVERSION).$(call version_part,PATCH)

ARCHIVE = crates/capi/out/libcapi.a
OUT = target/lib
SHARED = libkutimuq.so.$(VERSION)
SONAME = libkutimuq.so.$(SOVERSION)

all: $(OUT)/libkutimuq.a $(OUT)/$(SHARED)

# Folders count as sources too: a file that was removed changes its folder.
$(ARCHIVE): crates.txt $(shell find crates/*/src crates/*/specs crates/*/proofs)
	cd crates/capi && rt lib
	touch $@

$(OUT)/libkutimuq.a: $(ARCHIVE)
	mkdir -p $(OUT)
	cp $< $@

$(OUT)/$(SHARED): $(ARCHIVE) include/kutimuq.h Makefile
	mkdir -p $(OUT)
	$(CC) -shared -Wl,-soname,$(SONAME) -o $@ -Wl,--whole-archive $< -Wl,--no-whole-archive
	ln -sf $(SHARED) $(OUT)/$(SONAME)
	ln -sf $(SONAME) $(OUT)/libkutimuq.so

install: all
	mkdir -p $(DESTDIR)$(LIBDIR)/pkgconfig $(DESTDIR)$(INCLUDEDIR)
	install -m 644 include/kutimuq.h $(DESTDIR)$(INCLUDEDIR)
	install -m 644 $(OUT)/libkutimuq.a $(DESTDIR)$(LIBDIR)
	install -m 755 $(OUT)/$(SHARED) $(DESTDIR)$(LIBDIR)
	ln -sf $(SHARED) $(DESTDIR)$(LIBDIR)/$(SONAME)
	ln -sf $(SONAME) $(DESTDIR)$(LIBDIR)/libkutimuq.so
	sed -e 's|@PREFIX@|$(PREFIX)|' -e 's|@LIBDIR@|$(LIBDIR)|' -e 's|@INCLUDEDIR@|$(INCLUDEDIR)|' \
	    -e 's|@VERSION@|$(VERSION)|' kutimuq.pc.in > $(DESTDIR)$(LIBDIR)/pkgconfig/kutimuq.pc

uninstall:
	rm -f $(DESTDIR)$(INCLUDEDIR)/kutimuq.h $(DESTDIR)$(LIBDIR)/pkgconfig/kutimuq.pc
	cd $(DESTDIR)$(LIBDIR) && rm -f libkutimuq.a libkutimuq.so $(SONAME) $(SHARED)

check:
	tests/run

.PHONY: all install uninstall check
