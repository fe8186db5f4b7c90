# make            the libraries and the program, proved and built, in target/
# make texts      the listing program and the sheet program, proved and built, in target/bin
# make install    puts them to PREFIX, under DESTDIR if that is given
# make uninstall  takes them away again
# make check      all tests (tests/all)
#
# Needed: Rattle's rt, cargo, cc.

VERSION := $(shell cat VERSION)
MAJOR := $(firstword $(subst ., ,$(VERSION)))

PREFIX ?= /usr/local
prefix := $(abspath $(PREFIX))
bindir ?= $(prefix)/bin
libdir ?= $(prefix)/lib
includedir ?= $(prefix)/include
mandir ?= $(prefix)/share/man

INSTALL ?= install

archive := target/lib/libpudeyan.a
shared := target/lib/libpudeyan.so.$(VERSION)
program := target/bin/pudeyan
texts := target/bin/list target/bin/sheet

# All that rt reads, and nothing of what it leaves in out/.
proved := crates.txt $(shell find crates -mindepth 2 -name out -prune -o -print)
packages := $(shell find rust)

.PHONY: all texts check install uninstall

all: $(archive) $(shared) $(program)

texts: $(texts)

# Proves whatever has changed, then the C interface.
crates/exports/out/libexports.a: $(proved)
	cd crates/exports && rt lib
	touch $@

$(archive): crates/exports/out/libexports.a
	mkdir -p $(@D)
	cp $< $@

# rt run proves and builds a program, and runs it once: on no input.
crates/list/out/list crates/sheet/out/sheet: $(proved)
	cd crates/$(@F) && rt run </dev/null >/dev/null
	touch $@

target/bin/list: crates/list/out/list
target/bin/sheet: crates/sheet/out/sheet
$(texts):
	mkdir -p $(@D)
	cp $< $@

# The archive's code is position independent: no relocation of text is left.
$(shared): $(archive) VERSION
	$(CC) -shared $(LDFLAGS) -Wl,-soname,libpudeyan.so.$(MAJOR) -Wl,-z,defs,-z,text,-z,relro,-z,now \
	    -Wl,--whole-archive $< -Wl,--no-whole-archive -o $@
	ln -sf $(@F) target/lib/libpudeyan.so.$(MAJOR)
	ln -sf libpudeyan.so.$(MAJOR) target/lib/libpudeyan.so

$(program): $(archive) $(packages)
	cd rust && PUDEYAN_LIBRARY=$(CURDIR)/$(archive) cargo build --release --offline --locked \
	    --target-dir ../target/cargo -p pudeyan-program
	mkdir -p $(@D)
	cp target/cargo/release/pudeyan $@
	touch $@

check:
	tests/all

# Builds nothing, so that it may run as another user.
install:
	@for made in $(archive) $(shared) $(program); do \
	    test -f $$made || { echo "$$made is missing: run make first" >&2; exit 1; }; done
	$(INSTALL) -d $(DESTDIR)$(bindir) $(DESTDIR)$(libdir)/pkgconfig $(DESTDIR)$(includedir) $(DESTDIR)$(mandir)/man1
	$(INSTALL) -m 755 $(program) $(DESTDIR)$(bindir)/pudeyan
	$(INSTALL) -m 644 include/pudeyan.h $(DESTDIR)$(includedir)/pudeyan.h
	$(INSTALL) -m 644 $(archive) $(DESTDIR)$(libdir)/libpudeyan.a
	$(INSTALL) -m 755 $(shared) $(DESTDIR)$(libdir)/$(notdir $(shared))
	ln -sf $(notdir $(shared)) $(DESTDIR)$(libdir)/libpudeyan.so.$(MAJOR)
	ln -sf libpudeyan.so.$(MAJOR) $(DESTDIR)$(libdir)/libpudeyan.so
	sed -e 's|@prefix@|$(prefix)|' -e 's|@libdir@|$(libdir)|' -e 's|@includedir@|$(includedir)|' \
	    -e 's|@VERSION@|$(VERSION)|' pudeyan.pc.in >$(DESTDIR)$(libdir)/pkgconfig/pudeyan.pc
	sed -e 's|@VERSION@|$(VERSION)|' man/pudeyan.1 >$(DESTDIR)$(mandir)/man1/pudeyan.1
	chmod 644 $(DESTDIR)$(libdir)/pkgconfig/pudeyan.pc $(DESTDIR)$(mandir)/man1/pudeyan.1

uninstall:
	rm -f $(DESTDIR)$(bindir)/pudeyan $(DESTDIR)$(includedir)/pudeyan.h $(DESTDIR)$(mandir)/man1/pudeyan.1
	rm -f $(DESTDIR)$(libdir)/pkgconfig/pudeyan.pc $(DESTDIR)$(libdir)/libpudeyan.a
	rm -f $(DESTDIR)$(libdir)/libpudeyan.so $(DESTDIR)$(libdir)/libpudeyan.so.$(MAJOR) $(DESTDIR)$(libdir)/$(notdir $(shared))
