# The library for routers, its installation, the programs and the tests. `make` alone says what there is.
#
#   make library                        target/lib: libekhurtza.a, libekhurtza.so
#   make install PREFIX=/opt/ekhurtza   (DESTDIR= for packagers)
#
# Needs rt (the Rattle kit) to prove and compile, a C compiler to make the shared library. Nothing here is proved; tests/install tries it.

PREFIX ?= /usr/local
DESTDIR ?=
CC ?= cc
INSTALL ?= install

# the header has the version, once
VERSION := $(shell sed -n 's/^.define EKHURTZA_VERSION "\(.*\)"$$/\1/p' include/ekhurtza.h)
MAJOR := $(firstword $(subst ., ,$(VERSION)))

# all that decides what is proved and compiled
SOURCES := crates.txt $(shell find crates -type f \( -path '*/src/*' -o -path '*/specs/*' -o -path '*/proofs/*' \))

ROUTER := target/staticlib/librouter.a
ARCHIVE := target/lib/libekhurtza.a
SHARED := target/lib/libekhurtza.so.$(VERSION)

# where things go; uninstall takes away exactly these files
ROOT := $(DESTDIR)$(PREFIX)
LIB := $(ROOT)/lib
INSTALLED := lib/libekhurtza.a lib/libekhurtza.so.$(VERSION) lib/libekhurtza.so.$(MAJOR) lib/libekhurtza.so \
    include/ekhurtza.h lib/pkgconfig/ekhurtza.pc lib/cmake/ekhurtza/ekhurtzaConfig.cmake lib/cmake/ekhurtza/ekhurtzaConfigVersion.cmake

.PHONY: help library programs test install uninstall
.DELETE_ON_ERROR:

help:
	@echo 'make library                    prove and build target/lib/libekhurtza.a and libekhurtza.so (the first time tens of minutes)'
	@echo 'make install PREFIX=DIR         library, header, pkg-config and CMake files into DIR (now $(PREFIX)); DESTDIR is honoured'
	@echo 'make uninstall PREFIX=DIR       take away what install put there'
	@echo 'make programs                   prove and build target/bin/gateday and target/bin/readlisting'
	@echo 'make test                       all tests, from nothing (.ci/run)'

library: $(ARCHIVE) $(SHARED)

# scripts/build has rt prove what changed, and puts the archive there anew, so that make sees it as new.
$(ROUTER): $(SOURCES)
	scripts/build library

$(ARCHIVE): $(ROUTER)
	mkdir -p target/lib
	cp $< $@

# The archive's code can be loaded anywhere (-z text: the linker refuses where it could not).
$(SHARED): $(ARCHIVE) packaging/exports.map
	$(CC) -shared -Wl,-soname,libekhurtza.so.$(MAJOR) -Wl,-z,text -Wl,-z,noexecstack -Wl,--version-script=packaging/exports.map \
	    -Wl,--whole-archive $(ARCHIVE) -Wl,--no-whole-archive -o $@
	ln -sf $(notdir $@) target/lib/libekhurtza.so.$(MAJOR)
	ln -sf $(notdir $@) target/lib/libekhurtza.so

programs:
	scripts/build gateday readlisting

test:
	.ci/run

# a file of packaging/ with the version filled in: $(call fill,NAME,FOLDER)
fill = sed -e 's/@VERSION@/$(VERSION)/g' -e 's/@MAJOR@/$(MAJOR)/g' packaging/$(1).in > '$(2)/$(1)' && chmod 644 '$(2)/$(1)'

install: library
	$(INSTALL) -d '$(LIB)/pkgconfig' '$(LIB)/cmake/ekhurtza' '$(ROOT)/include'
	$(INSTALL) -m 644 $(ARCHIVE) '$(LIB)'
	$(INSTALL) -m 755 $(SHARED) '$(LIB)'
	ln -sf libekhurtza.so.$(VERSION) '$(LIB)/libekhurtza.so.$(MAJOR)'
	ln -sf libekhurtza.so.$(VERSION) '$(LIB)/libekhurtza.so'
	$(INSTALL) -m 644 include/ekhurtza.h '$(ROOT)/include'
	$(call fill,ekhurtza.pc,$(LIB)/pkgconfig)
	$(call fill,ekhurtzaConfig.cmake,$(LIB)/cmake/ekhurtza)
	$(call fill,ekhurtzaConfigVersion.cmake,$(LIB)/cmake/ekhurtza)

uninstall:
	rm -f $(foreach file,$(INSTALLED),'$(ROOT)/$(file)')
	if [ -d '$(LIB)/cmake/ekhurtza' ]; then rmdir '$(LIB)/cmake/ekhurtza'; fi
