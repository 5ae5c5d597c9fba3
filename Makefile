# The library for C programmers, with GNU make:
#
#   make             proves and builds the archive, target/staticlib/libcapi.a; from nothing it takes minutes
#   make install     copies it: PREFIX/lib/libbanquet.a, PREFIX/include/banquet.h, PREFIX/lib/pkgconfig/banquet.pc
#   make uninstall   removes these three
#   make shared      links the archive as target/shared/libbanquet.so, for Python's ctypes and the like
#   make check       tries header, archive and examples: tests/interface
#   make help        prints this
#
# PREFIX is /usr/local, LIBDIR PREFIX/lib and INCLUDEDIR PREFIX/include; all that is installed goes below DESTDIR, which is empty. To change
# one: make install PREFIX=/opt/banquet. If BANQUET_LIB names a folder that has libcapi.a, this archive is taken as it is and nothing
# is proved. So root needs no rt: make && sudo make install BANQUET_LIB=target/staticlib

PREFIX = /usr/local
LIBDIR = $(PREFIX)/lib
INCLUDEDIR = $(PREFIX)/include
DESTDIR =
CC = gcc

# Proves and builds the archive, or leaves it where its sources are those that it was built of.
build = bash -c 'root="$$PWD" self=make && source scripts/build.sh && build capi target/staticlib/libcapi.a'
archive = "$${BANQUET_LIB:-target/staticlib}/libcapi.a"
installed = "$$DESTDIR$$LIBDIR/libbanquet.a" "$$DESTDIR$$INCLUDEDIR/banquet.h" "$$DESTDIR$$LIBDIR/pkgconfig/banquet.pc"
version := $(shell sed -n '/^version = "/ { s///; s/"$$//p; q; }' rust/banquet/Cargo.toml)
ifeq ($(version),)
$(error there is no version in rust/banquet/Cargo.toml)
endif
soname = libbanquet.so.$(firstword $(subst ., ,$(version)))

# Recipes read these from the environment: so a space in them does no harm.
export PREFIX LIBDIR INCLUDEDIR DESTDIR

.PHONY: library install uninstall shared check help paths

library:
	@if [ -z "$$BANQUET_LIB" ]; then $(build); \
	elif [ ! -f $(archive) ]; then echo "make: there is no $$BANQUET_LIB/libcapi.a, which BANQUET_LIB names" >&2; exit 1; fi

# banquet.pc names them, for use in any folder.
paths:
	@for path in "$$PREFIX" "$$LIBDIR" "$$INCLUDEDIR"; do \
		case $$path in /*) ;; *) echo "make: PREFIX, LIBDIR and INCLUDEDIR begin with /, and '$$path' does not" >&2; exit 1 ;; esac; \
	done

install: paths library
	@umask 022 && mkdir -p "$$DESTDIR$$LIBDIR/pkgconfig" "$$DESTDIR$$INCLUDEDIR"
	@install -m 644 $(archive) "$$DESTDIR$$LIBDIR/libbanquet.a"
	@install -m 644 include/banquet.h "$$DESTDIR$$INCLUDEDIR/banquet.h"
	@printf '%s\n' "prefix=$$PREFIX" "libdir=$$LIBDIR" "includedir=$$INCLUDEDIR" '' \
		'Name: banquet' 'Description: Banquet, a post-quantum signature over AES-128 and SHAKE128, proved' 'Version: $(version)' \
		'Libs: -L"$${libdir}" -lbanquet' 'Cflags: -I"$${includedir}"' > "$$DESTDIR$$LIBDIR/pkgconfig/banquet.pc"
	@chmod 644 "$$DESTDIR$$LIBDIR/pkgconfig/banquet.pc"
	@printf 'installed %s\n' $(installed)

uninstall:
	@rm -f $(installed)
	@printf 'removed %s\n' $(installed)

# Nothing is left undefined, and code is not rewritten when it is loaded.
shared: library
	@mkdir -p target/shared
	@$(CC) -shared -Wl,-soname,$(soname) -Wl,-z,defs -Wl,-z,text -Wl,--whole-archive $(archive) -Wl,--no-whole-archive \
		-o target/shared/libbanquet.so
	@ln -sf libbanquet.so target/shared/$(soname)
	@echo built target/shared/libbanquet.so

check:
	tests/interface

help:
	@sed -n '/^#/!q; s/^# \{0,1\}//p' Makefile
