# SPDX-License-Identifier: Apache-2.0
# make             the library, proved and compiled, and the program mel
# make lib         the library alone: target/lib/libmooringelm.a and target/lib/libmooringelm.so
# make install     header, libraries, pkg-config file, program, manual page and completion below PREFIX
# make uninstall   takes them away again
# make test        everything that is proved and tested, as the gate does it
#
# It needs rt (the Rattle toolchain) and cc; mel needs cargo.
PREFIX ?= /usr/local
BINDIR ?= $(PREFIX)/bin
INCLUDEDIR ?= $(PREFIX)/include
LIBDIR ?= $(PREFIX)/lib
MANDIR ?= $(PREFIX)/share/man
COMPLETIONDIR ?= $(PREFIX)/share/bash-completion/completions
DESTDIR ?=
INSTALL ?= install

VERSION := $(shell sed -n 's/^.define MEL_VERSION "\(.*\)"/\1/p' include/mooringelm.h)
SONAME := libmooringelm.so.$(basename $(VERSION))
PROVED := crates.txt $(shell find crates -name out -prune -o '(' -name '*.rt' -o -name '*.antt' ')' -print)
RUST := $(shell find mel -name '*.rs' -o -name Cargo.toml) include/mooringelm.h

.PHONY: all lib install install-lib uninstall test clean
all: lib target/bin/mel
lib: target/lib/libmooringelm.a target/lib/libmooringelm.so

# rt all check proves crates that do not depend on each other side by side; rt lib alone would prove one by one.
target/lib/libmooringelm.a: $(PROVED)
	rt all check
	cd crates/cbf_capi && rt lib
	mkdir -p target/lib
	cp crates/cbf_capi/out/libcbf_capi.a $@

# The shared library exports the header's functions and nothing else.
target/lib/mooringelm.map: include/mooringelm.h
	mkdir -p target/lib
	{ echo '{ global:'; sed -n 's/^mel_[a-z_]* \(mel_[a-z_]*\)(.*/    \1;/p' $<; echo '  local: *; };'; } > $@

target/lib/$(SONAME): target/lib/libmooringelm.a target/lib/mooringelm.map
	cc -shared -o $@ -Wl,-soname,$(SONAME) -Wl,--version-script=target/lib/mooringelm.map -Wl,-z,defs,-z,noexecstack,-z,text \
	    -Wl,--whole-archive target/lib/libmooringelm.a -Wl,--no-whole-archive

target/lib/libmooringelm.so: target/lib/$(SONAME)
	ln -sf $(SONAME) $@

target/bin/mel: target/lib/libmooringelm.a $(RUST)
	CARGO_TARGET_DIR=$(CURDIR)/target/mel cargo build --release --offline --manifest-path mel/Cargo.toml
	mkdir -p target/bin
	cp target/mel/release/mel $@

target/lib/mooringelm.pc: mooringelm.pc.in include/mooringelm.h
	mkdir -p target/lib
	sed -e 's|@PREFIX@|$(PREFIX)|' -e 's|@INCLUDEDIR@|$(INCLUDEDIR)|' -e 's|@LIBDIR@|$(LIBDIR)|' -e 's|@VERSION@|$(VERSION)|' $< > $@

install-lib: lib
	$(INSTALL) -d '$(DESTDIR)$(INCLUDEDIR)' '$(DESTDIR)$(LIBDIR)/pkgconfig'
	$(INSTALL) -m 644 include/mooringelm.h '$(DESTDIR)$(INCLUDEDIR)/mooringelm.h'
	$(INSTALL) -m 644 target/lib/libmooringelm.a '$(DESTDIR)$(LIBDIR)/libmooringelm.a'
	$(INSTALL) -m 755 target/lib/$(SONAME) '$(DESTDIR)$(LIBDIR)/$(SONAME)'
	ln -sf $(SONAME) '$(DESTDIR)$(LIBDIR)/libmooringelm.so'
	rm -f target/lib/mooringelm.pc
	$(MAKE) --no-print-directory target/lib/mooringelm.pc
	$(INSTALL) -m 644 target/lib/mooringelm.pc '$(DESTDIR)$(LIBDIR)/pkgconfig/mooringelm.pc'

install: install-lib target/bin/mel
	$(INSTALL) -d '$(DESTDIR)$(BINDIR)' '$(DESTDIR)$(MANDIR)/man1' '$(DESTDIR)$(COMPLETIONDIR)'
	$(INSTALL) -m 755 target/bin/mel '$(DESTDIR)$(BINDIR)/mel'
	$(INSTALL) -m 644 mel/mel.1 '$(DESTDIR)$(MANDIR)/man1/mel.1'
	$(INSTALL) -m 644 mel/completion.bash '$(DESTDIR)$(COMPLETIONDIR)/mel'

uninstall:
	rm -f '$(DESTDIR)$(INCLUDEDIR)/mooringelm.h' '$(DESTDIR)$(LIBDIR)/libmooringelm.a' '$(DESTDIR)$(LIBDIR)/$(SONAME)' \
	    '$(DESTDIR)$(LIBDIR)/libmooringelm.so' '$(DESTDIR)$(LIBDIR)/pkgconfig/mooringelm.pc' '$(DESTDIR)$(BINDIR)/mel' \
	    '$(DESTDIR)$(MANDIR)/man1/mel.1' '$(DESTDIR)$(COMPLETIONDIR)/mel'

test:
	bash .ci/run

clean:
	rm -rf target crates/*/out
