# The shared library, the installation, and the examples. The static library comes from `tools/staticlib`, over what
# `rt ci` has proved.
#
#     make library                       target/libwisavulome.so.1, which tools/wisavulome finds
#     make install PREFIX=/usr/local     libraries, header, pkg-config file, Rust declarations, Python module, command
#     make uninstall PREFIX=/usr/local
#     make check-install                 installs into a folder of its own, builds and runs the examples from there
#     make check-command                 all tests of the command, and of its formats as far as their programs are installed

PREFIX ?= /usr/local
DESTDIR ?=
PYTHON ?= python3
CC ?= gcc
ARCHIVE ?= target/staticlib/libcapi.a

VERSION := $(shell sed -n 's/^VERSION = "\(.*\)"/\1/p' python/wisavulome/__init__.py)
SONAME := libwisavulome.so.1
SHARED := target/$(SONAME)
PYTHON_VERSION := $(shell $(PYTHON) -c 'import sys; print("python%d.%d" % sys.version_info[:2])')
PYTHON_FOLDER ?= $(PREFIX)/lib/$(PYTHON_VERSION)/site-packages
TO = $(DESTDIR)$(PREFIX)
TO_PYTHON = $(DESTDIR)$(PYTHON_FOLDER)/wisavulome

.PHONY: library install uninstall check-install check-command

library: $(SHARED)

$(ARCHIVE):
	@echo "$@ is missing: run 'tools/staticlib' first" >&2; exit 1

$(SHARED): $(ARCHIVE)
	$(CC) -shared -Wl,-soname,$(SONAME) -Wl,--whole-archive $(ARCHIVE) -Wl,--no-whole-archive -o $@

install: $(SHARED)
	install -d "$(TO)/lib/pkgconfig" "$(TO)/include" "$(TO)/bin" "$(TO)/share/wisavulome/examples" "$(TO_PYTHON)"
	install -m 644 $(ARCHIVE) "$(TO)/lib/libwisavulome.a"
	install -m 755 $(SHARED) "$(TO)/lib/libwisavulome.so.$(VERSION)"
	ln -sf libwisavulome.so.$(VERSION) "$(TO)/lib/$(SONAME)"
	ln -sf $(SONAME) "$(TO)/lib/libwisavulome.so"
	install -m 644 crates/capi/wisavulome.h "$(TO)/include/wisavulome.h"
	sed -n '/---- declarations begin/,/---- declarations end/p' crates/capi/wisavulome.h >"$(TO)/include/wisavulome.cdef"
	sed -e 's|@PREFIX@|$(PREFIX)|' -e 's|@VERSION@|$(VERSION)|' tools/wisavulome.pc.in >"$(TO)/lib/pkgconfig/wisavulome.pc"
	install -m 644 crates/capi/wisavulome.rs "$(TO)/share/wisavulome/wisavulome.rs"
	install -m 644 examples/worked.c examples/worked.rs examples/worked.py "$(TO)/share/wisavulome/examples"
	install -m 644 python/wisavulome/*.py "$(TO_PYTHON)"
	install -m 755 tools/wisavulome "$(TO)/bin/wisavulome"

uninstall:
	rm -f "$(TO)/lib/libwisavulome.a" "$(TO)/lib/libwisavulome.so" "$(TO)/lib/$(SONAME)"
	rm -f "$(TO)/lib/libwisavulome.so.$(VERSION)" "$(TO)/lib/pkgconfig/wisavulome.pc"
	rm -f "$(TO)/include/wisavulome.h" "$(TO)/include/wisavulome.cdef" "$(TO)/bin/wisavulome"
	rm -rf "$(TO)/share/wisavulome" "$(TO_PYTHON)"

check-install: $(SHARED)
	$(PYTHON) -B -m unittest discover -s tools/tests_install -p 'test_*.py'

check-command: $(SHARED)
	WISAVULOME_LEVELS=all $(PYTHON) -B -m unittest discover -s tools/tests_library -p 'test_*.py'
	tools/check-formats --installed
