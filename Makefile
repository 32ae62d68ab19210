# The engine as a library for programs in C.
#
#   make                               proves the engine and builds build/libcodhungu.a
#   make check-c                       compiles and runs the cases in tests/c
#   make check-cxx                     compiles the header as C++ and makes one call
#   make example                       compiles and runs examples/c/roll.c
#   make install PREFIX= DESTDIR=      lib/, include/, lib/pkgconfig/ under DESTDIR PREFIX
#   make uninstall PREFIX= DESTDIR=
#   make clean
#
# LIB=FILE takes a library that is built already, in place of crates/unit_c/out/libunit_c.a.
# OBJCOPY= names another objcopy; it has to know --set-section-alignment, as GNU's does since 2.33.
.POSIX:

VERSION = 0.1.0
PREFIX = /usr/local
DESTDIR =
LIB = crates/unit_c/out/libunit_c.a
CC = cc
CXX = c++
OBJCOPY = objcopy
CFLAGS = -O2
CXXFLAGS = -O2

STRICT = -Wall -Wextra -Werror -pedantic
SOURCES != find crates crates.txt -name out -prune -o -type f -print

all: build/libcodhungu.a build/codhungu.pc

crates/unit_c/out/libunit_c.a: $(SOURCES)
	cd crates/unit_c && rt lib
	touch $@

# The same code, each function at the start of a cache line: where the compiler puts it moves a loop's time by up to 7 %.
# Put in place whenever it is another library, however old that is.
build/libcodhungu.a: $(LIB) always
	@mkdir -p build
	$(OBJCOPY) --set-section-alignment '.text.*=64' $(LIB) build/aligned.a
	cmp -s build/aligned.a $@ || cp build/aligned.a $@
	@rm build/aligned.a

build/codhungu.pc: codhungu.pc.in always
	@mkdir -p build
	sed -e 's|@PREFIX@|$(PREFIX)|' -e 's|@VERSION@|$(VERSION)|' codhungu.pc.in >$@

build/cases: tests/c/cases.c include/codhungu.h build/libcodhungu.a
	$(CC) -std=c99 $(STRICT) $(CFLAGS) -Iinclude -o $@ tests/c/cases.c build/libcodhungu.a

build/plusplus: tests/c/plusplus.cpp include/codhungu.h build/libcodhungu.a
	$(CXX) -std=c++11 $(STRICT) $(CXXFLAGS) -Iinclude -o $@ tests/c/plusplus.cpp build/libcodhungu.a

build/roll: examples/c/roll.c include/codhungu.h build/libcodhungu.a
	$(CC) -std=c99 $(STRICT) $(CFLAGS) -Iinclude -o $@ examples/c/roll.c build/libcodhungu.a

check-c: build/cases
	build/cases

check-cxx: build/plusplus
	build/plusplus

example: build/roll
	build/roll

install: all
	mkdir -p '$(DESTDIR)$(PREFIX)/lib/pkgconfig' '$(DESTDIR)$(PREFIX)/include'
	cp build/libcodhungu.a '$(DESTDIR)$(PREFIX)/lib/libcodhungu.a'
	cp include/codhungu.h '$(DESTDIR)$(PREFIX)/include/codhungu.h'
	cp build/codhungu.pc '$(DESTDIR)$(PREFIX)/lib/pkgconfig/codhungu.pc'
	cd '$(DESTDIR)$(PREFIX)' && chmod 644 lib/libcodhungu.a include/codhungu.h lib/pkgconfig/codhungu.pc

uninstall:
	rm -f '$(DESTDIR)$(PREFIX)/lib/libcodhungu.a' '$(DESTDIR)$(PREFIX)/include/codhungu.h' \
	    '$(DESTDIR)$(PREFIX)/lib/pkgconfig/codhungu.pc'

clean:
	rm -rf build

always:

.PHONY: all check-c check-cxx example install uninstall clean always
