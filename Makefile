# The Cut Recorder for C and C++: libcut.a, libcut.so, the headers, a pkg-config file, and what a maker reads.
#
#     make                            builds into target/lib
#     make install PREFIX=/usr        builds and installs; DESTDIR=/some/folder stands before every path, for whoever makes packages
#     make uninstall PREFIX=/usr      removes what that installed
#
# `rt lib` proves what it writes and all that this rests on, so the first time takes minutes.
PREFIX ?= /usr/local
LIBDIR ?= $(PREFIX)/lib
INCLUDEDIR ?= $(PREFIX)/include
PKGCONFIGDIR ?= $(LIBDIR)/pkgconfig
DOCDIR ?= $(PREFIX)/share/doc/cut
INSTALL ?= install
RT ?= rt
CFLAGS ?= -O2

out := target/lib
headers := $(wildcard c/cut/*.h)
calls := $(patsubst c/calls/%.c,$(out)/calls_%.o,$(wildcard c/calls/*.c))
papers := docs/changes/versions.md docs/INTEGRATION.md docs/OPENING.md docs/PROGRAMS.md docs/RULES.md c/example.c c/desk.c c/fitter.c
sources := crates.txt $(shell find crates -path '*/out' -prune -o '(' -name '*.rt' -o -name '*.antt' ')' -print)
version := $(shell sed -n 's/^.define CUT_VERSION "\(.*\)"/\1/p' c/cut/refusal.h)
soname := libcut.so.$(firstword $(subst ., ,$(version)))
shared := libcut.so.$(version)

.PHONY: all install uninstall clean FORCE
.DELETE_ON_ERROR:

all: $(out)/libcut.a $(out)/$(shared) $(out)/libcut.so $(out)/cut.pc

# The proved code. Both archives hold one object, whose only global names are calls of the headers. They are made one after the other, since each
# proves what it rests on.
$(out)/proved.a: $(sources)
	cd crates/zone_exports && $(RT) lib --cpu x86-64
	cd crates/site_exports && $(RT) lib --cpu x86-64
	rm -rf $(out)/parts && mkdir -p $(out)/parts
	cd $(out)/parts && $(AR) x ../../../crates/zone_exports/out/libzone_exports.a && $(AR) x ../../../crates/site_exports/out/libsite_exports.a
	rm -f $@ && $(AR) rcsD $@ $(out)/parts/*.o && rm -r $(out)/parts

# The calls that are inline in a program in C, for other languages. Each file is an object of its own, so that a linker takes the zone part without
# the site engine.
$(out)/calls_%.o: c/calls/%.c $(headers)
	@mkdir -p $(out)
	$(CC) -Ic $(CPPFLAGS) $(CFLAGS) -std=c11 -ffreestanding -fPIC -c $< -o $@

$(out)/libcut.a: $(out)/proved.a $(calls)
	cp $(out)/proved.a $@ && $(AR) rsD $@ $(calls)

# It has nothing to start or to end, so the compiler's start files are left out; every name is bound when it is loaded, and where it calls itself,
# to itself.
$(out)/$(shared): $(out)/libcut.a c/cut.map
	$(CC) $(LDFLAGS) -shared -nostartfiles -Wl,-soname,$(soname) -Wl,--version-script=c/cut.map -Wl,-z,defs,-z,relro,-z,now \
	    -Wl,-Bsymbolic -Wl,--whole-archive $(out)/libcut.a -Wl,--no-whole-archive -o $@

$(out)/libcut.so: $(out)/$(shared)
	ln -sf $(shared) $(out)/$(soname)
	ln -sf $(soname) $@

# It names the folders of this call of make; it is written only where that changes it, so that root need not own it after an install.
$(out)/cut.pc: FORCE
	@mkdir -p $(out)
	@sed -e 's|@PREFIX@|$(PREFIX)|' -e 's|@LIBDIR@|$(patsubst $(PREFIX)/%,$${prefix}/%,$(LIBDIR))|' -e 's|@VERSION@|$(version)|' \
	    -e 's|@INCLUDEDIR@|$(patsubst $(PREFIX)/%,$${prefix}/%,$(INCLUDEDIR))|' c/cut.pc.in >$@.new
	@if cmp -s $@.new $@; then rm $@.new; else mv $@.new $@; fi

install: all
	$(INSTALL) -d '$(DESTDIR)$(LIBDIR)' '$(DESTDIR)$(INCLUDEDIR)/cut' '$(DESTDIR)$(PKGCONFIGDIR)' '$(DESTDIR)$(DOCDIR)'
	$(INSTALL) -m 644 $(out)/libcut.a '$(DESTDIR)$(LIBDIR)'
	$(INSTALL) -m 755 $(out)/$(shared) '$(DESTDIR)$(LIBDIR)'
	ln -sf $(shared) '$(DESTDIR)$(LIBDIR)/$(soname)'
	ln -sf $(soname) '$(DESTDIR)$(LIBDIR)/libcut.so'
	$(INSTALL) -m 644 $(headers) '$(DESTDIR)$(INCLUDEDIR)/cut'
	$(INSTALL) -m 644 $(out)/cut.pc '$(DESTDIR)$(PKGCONFIGDIR)'
	$(INSTALL) -m 644 $(papers) '$(DESTDIR)$(DOCDIR)'

uninstall:
	for f in libcut.a libcut.so $(soname) $(shared); do rm -f '$(DESTDIR)$(LIBDIR)'/$$f; done
	for f in $(notdir $(headers)); do rm -f '$(DESTDIR)$(INCLUDEDIR)/cut'/$$f; done
	for f in $(notdir $(papers)); do rm -f '$(DESTDIR)$(DOCDIR)'/$$f; done
	rm -f '$(DESTDIR)$(PKGCONFIGDIR)/cut.pc'
	rmdir '$(DESTDIR)$(INCLUDEDIR)/cut' '$(DESTDIR)$(DOCDIR)' 2>/dev/null || true

clean:
	rm -rf $(out)
