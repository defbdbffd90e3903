# make: the library, the shared library and the command line program, below target/.
# make install PREFIX=/usr/local LIBDIR=/usr/local/lib: puts them there, with the header and a pkg-config file. DESTDIR=.. goes before both.
# make uninstall, with the same: removes them. make clean: removes target/ and each crate's out/, and with them what is proved here.
PREFIX = /usr/local
LIBDIR = $(PREFIX)/lib
DESTDIR =

# In the environment, so that folders may have any name; from this file's folder, wherever make runs.
export PREFIX LIBDIR DESTDIR
export MAKEFILE := $(MAKEFILE_LIST)
here = "$$(dirname "$${MAKEFILE\# }")"

all:
	$(here)/scripts/install

install:
	$(here)/scripts/install "$$PREFIX" "$$LIBDIR" "$$DESTDIR"

uninstall:
	$(here)/scripts/install --remove "$$PREFIX" "$$LIBDIR" "$$DESTDIR"

clean:
	rm -rf $(here)/target $(here)/crates/*/out

test:
	$(here)/test

.PHONY: all install uninstall clean test
