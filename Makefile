# Builds the library for C and the program line_up, and installs them.
#
#   make                                       target/lib/libcelestial_time.a, libcelestial_time.so, files for pkg-config and CMake; target/programs/line_up and
#                                              target/man, its page and the library's
#   make install [PREFIX=/usr/local] [DESTDIR=]    these and the headers; with DESTDIR into a folder that is packed and unpacked at /
#   make uninstall [PREFIX=..] [DESTDIR=..]    takes them away again, and nothing else
#   make check                                 the tests that need no new proof, over the archive that is there
#   make dist                                  target/dist/celestial_time-VERSION-x86_64-linux.tar.gz, all of it, the programs in Rattle and the Python package, for a
#                                              machine without rt
#   make clean                                 what make built; the archive of `tools/staticlib capi` stays
#
# The archive is that of `tools/staticlib capi`, which proves what is not proved yet, under its own name. The shared library holds the same object; it exports the
# calls of the header and no other name. Do not link with -ffast-math or -Ofast: the header says why.
include include/celestial_time.mk

PREFIX ?= /usr/local
BINDIR ?= $(PREFIX)/bin
LIBDIR ?= $(PREFIX)/lib
INCLUDEDIR ?= $(PREFIX)/include
MANDIR ?= $(PREFIX)/share/man
CFLAGS ?= -O2 -Wall -Wextra -std=c99 -pedantic
INSTALL ?= install

VERSION := $(shell sed -n 's/^.define CT_VERSION "\(.*\)"/\1/p' include/celestial_time.h)
MAJOR := $(firstword $(subst ., ,$(VERSION)))
OUT := target/lib
ARCHIVE := $(OUT)/libcelestial_time.a
SHARED := libcelestial_time.so.$(VERSION)
SONAME := libcelestial_time.so.$(MAJOR)
PROGRAM := target/programs/line_up
PAGES := target/man/line_up.1 target/man/celestial_time.3
# Programs in Rattle, which make dist packs beside line_up.
LISTINGS := utc_listing reason_listing utc_reading
# Files for pkg-config and CMake, from those of the same name and .in; the second find the headers from where they lie themselves.
FOUND_BY := celestial_time.pc celestial_time-config.cmake celestial_time-config-version.cmake
CMAKEDIR = $(LIBDIR)/cmake/celestial_time
INCLUDE_FROM_CMAKE = $(shell realpath -m -s --relative-to='$(CMAKEDIR)' '$(INCLUDEDIR)')
FILL = sed -e 's|@PREFIX@|$(PREFIX)|' -e 's|@LIBDIR@|$(LIBDIR)|' -e 's|@INCLUDEDIR@|$(INCLUDEDIR)|' -e 's|@VERSION@|$(VERSION)|' -e 's|@MAJOR@|$(MAJOR)|' \
  -e 's|@INCLUDE_FROM_CMAKE@|$(INCLUDE_FROM_CMAKE)|'

all: $(ARCHIVE) $(OUT)/libcelestial_time.so $(addprefix $(OUT)/,$(FOUND_BY)) $(PROGRAM) $(PAGES)

$(ARCHIVE): $(CT_LIBS)
	@mkdir -p $(@D)
	cp $(CT_LIBS) $@

# -z text: a relocation in the code, which an object that is not position independent would need, is an error.
$(OUT)/$(SHARED): $(ARCHIVE) include/celestial_time.h
	echo '{ global: ct_*; local: *; };' > $(OUT)/exports
	$(CC) $(LDFLAGS) -shared -o $@ -Wl,-soname,$(SONAME) -Wl,--version-script=$(OUT)/exports -Wl,-z,defs,-z,text,-z,relro,-z,now -Wl,--whole-archive $(ARCHIVE) \
	  -Wl,--no-whole-archive

# Second names of the file, and no links, of which `rt ci` wants none below the top.
$(OUT)/libcelestial_time.so: $(OUT)/$(SHARED)
	ln -f $< $(OUT)/$(SONAME)
	ln -f $< $@

# Written again each time, since PREFIX may be another.
$(addprefix $(OUT)/,$(FOUND_BY)): $(OUT)/%: include/%.in FORCE
	@mkdir -p $(@D)
	$(FILL) $< > $@

$(PROGRAM): programs/line_up.c include/celestial_time.h $(ARCHIVE)
	@mkdir -p $(@D)
	$(CC) $(CFLAGS) $(CPPFLAGS) $(CT_CFLAGS) $(LDFLAGS) -o $@ programs/line_up.c $(ARCHIVE) -lm

target/man/line_up.1: programs/line_up.c tools/man include/celestial_time.h
	@mkdir -p $(@D)
	tools/man $< 1 $(VERSION) > $@

target/man/celestial_time.3: include/celestial_time.h tools/man
	@mkdir -p $(@D)
	tools/man $< 3 $(VERSION) > $@

target/bin/%: crates/%/src/main.rt
	tools/program $*

$(LISTINGS:%=target/man/%.1): target/man/%.1: crates/%/src/main.rt tools/man include/celestial_time.h
	@mkdir -p $(@D)
	tools/man $< 1 $(VERSION) > $@

install: all
	$(INSTALL) -d '$(DESTDIR)$(BINDIR)' '$(DESTDIR)$(LIBDIR)/pkgconfig' '$(DESTDIR)$(CMAKEDIR)' '$(DESTDIR)$(INCLUDEDIR)' \
	  '$(DESTDIR)$(MANDIR)/man1' '$(DESTDIR)$(MANDIR)/man3'
	$(INSTALL) -m 644 include/celestial_time.h include/celestial_time_structs.h '$(DESTDIR)$(INCLUDEDIR)'
	$(INSTALL) -m 644 $(ARCHIVE) '$(DESTDIR)$(LIBDIR)/libcelestial_time.a'
	$(INSTALL) -m 755 $(OUT)/$(SHARED) '$(DESTDIR)$(LIBDIR)/$(SHARED)'
	ln -sf $(SHARED) '$(DESTDIR)$(LIBDIR)/$(SONAME)'
	ln -sf $(SONAME) '$(DESTDIR)$(LIBDIR)/libcelestial_time.so'
	$(INSTALL) -m 644 $(OUT)/celestial_time.pc '$(DESTDIR)$(LIBDIR)/pkgconfig/celestial_time.pc'
	$(INSTALL) -m 644 $(OUT)/celestial_time-config.cmake $(OUT)/celestial_time-config-version.cmake '$(DESTDIR)$(CMAKEDIR)'
	$(INSTALL) -m 755 $(PROGRAM) '$(DESTDIR)$(BINDIR)/line_up'
	$(INSTALL) -m 644 target/man/line_up.1 '$(DESTDIR)$(MANDIR)/man1/line_up.1'
	$(INSTALL) -m 644 target/man/celestial_time.3 '$(DESTDIR)$(MANDIR)/man3/celestial_time.3'

uninstall:
	rm -f '$(DESTDIR)$(INCLUDEDIR)/celestial_time.h' '$(DESTDIR)$(INCLUDEDIR)/celestial_time_structs.h'
	rm -f '$(DESTDIR)$(LIBDIR)/libcelestial_time.a' '$(DESTDIR)$(LIBDIR)/$(SHARED)' '$(DESTDIR)$(LIBDIR)/$(SONAME)' '$(DESTDIR)$(LIBDIR)/libcelestial_time.so'
	rm -f '$(DESTDIR)$(LIBDIR)/pkgconfig/celestial_time.pc' '$(DESTDIR)$(BINDIR)/line_up'
	rm -f '$(DESTDIR)$(MANDIR)/man1/line_up.1' '$(DESTDIR)$(MANDIR)/man3/celestial_time.3'
	rm -rf '$(DESTDIR)$(CMAKEDIR)'

check:
	tests/check

dist: all $(LISTINGS:%=target/bin/%) $(LISTINGS:%=target/man/%.1)
	tools/dist $(VERSION) $(LISTINGS)

clean:
	rm -rf $(OUT) target/programs target/man target/dist

FORCE:
.DELETE_ON_ERROR:
.PHONY: all install uninstall check dist clean FORCE
