# Proves, builds and installs the command and the C library. Both are x86-64 code, whatever the machine. The build needs the Rattle kit.
#
#   make                       proves and builds what is older than its sources
#   make install PREFIX=..     installs the command, its man page, the C library, its header and its pkg-config file; DESTDIR stands before every place
#   make uninstall PREFIX=..   removes them
#   make check                 the gate

# The version is 0. and the last change request that landed (docs/landings); with it the day of the man page. Both are stated here alone.
VERSION = 0.7
DATE = 2026-11-17

PREFIX ?= /usr/local
# A relative PREFIX is counted from here, for the pkg-config file needs the whole path.
ifneq ($(filter-out /%,$(firstword $(PREFIX))),)
override PREFIX := $(CURDIR)/$(PREFIX)
endif
bindir = $(PREFIX)/bin
libdir = $(PREFIX)/lib
includedir = $(PREFIX)/include
mandir = $(PREFIX)/share/man
pkgconfigdir = $(libdir)/pkgconfig
# The command's own folder; bindir has a link into it.
commanddir = $(libdir)/palikudyom

# What is proved is as old as the command takes it to be: front/program.py.
SOURCES := crates.txt $(shell find crates -name out -prune -o -type f -print)
FRONT := $(shell find front -name '*.py')
BUILT = target/bin/palikudyom target/staticlib/libhost.a target/palikudyom.1

define PC
# The library is x86-64 code, whatever machine it is installed on.
prefix=$(PREFIX)
libdir=$(subst $(PREFIX)/,$${prefix}/,$(libdir))
includedir=$(subst $(PREFIX)/,$${prefix}/,$(includedir))

Name: palikudyom
Description: Does a group of tasks meet its deadlines on a table of time windows? A static library for x86-64
Version: $(VERSION)
Cflags: -I"$${includedir}"
Libs: -L"$${libdir}" -lpalikudyom
endef
export PC

.PHONY: all install uninstall check
.DELETE_ON_ERROR:
.NOTPARALLEL: # the kit proves in parallel itself, and one run at a time in a crate

all: $(BUILT)

target/bin/palikudyom: $(SOURCES)
	tools/build program

target/staticlib/libhost.a: $(SOURCES)
	tools/build library

# The folders are newer where a word was taken away.
target/palikudyom.1: Makefile tools/man-page plans/w6.txt plans/lines $(FRONT) $(sort $(dir $(FRONT)))
	mkdir -p target
	tools/man-page $(VERSION) $(DATE) > $@

# A word of an older version must not stay: the command's folder is made anew.
install: all
	rm -rf "$(DESTDIR)$(commanddir)"
	for file in palikudyom tools/loader tools/toolchain; do install -D -m 755 $$file "$(DESTDIR)$(commanddir)/$$file" || exit; done
	for file in $(FRONT); do install -D -m 644 $$file "$(DESTDIR)$(commanddir)/$$file" || exit; done
	install -m 755 target/bin/palikudyom "$(DESTDIR)$(commanddir)/program"
	install -d "$(DESTDIR)$(bindir)"
	ln -s -r -f "$(DESTDIR)$(commanddir)/palikudyom" "$(DESTDIR)$(bindir)/palikudyom"
	install -D -m 644 target/palikudyom.1 "$(DESTDIR)$(mandir)/man1/palikudyom.1"
	install -D -m 644 target/staticlib/libhost.a "$(DESTDIR)$(libdir)/libpalikudyom.a"
	install -D -m 644 crates/host/palikudyom.h "$(DESTDIR)$(includedir)/palikudyom.h"
	printf '%s\n' "$$PC" | install -D -m 644 /dev/stdin "$(DESTDIR)$(pkgconfigdir)/palikudyom.pc"
	@[ "$$(uname -m)" = x86_64 ] || echo "This processor is not x86-64, and the command and the C library are for x86-64 alone."

uninstall:
	rm -rf "$(DESTDIR)$(commanddir)"
	rm -f "$(DESTDIR)$(bindir)/palikudyom" "$(DESTDIR)$(mandir)/man1/palikudyom.1" "$(DESTDIR)$(libdir)/libpalikudyom.a"
	rm -f "$(DESTDIR)$(includedir)/palikudyom.h" "$(DESTDIR)$(pkgconfigdir)/palikudyom.pc"

check:
	.ci/run
