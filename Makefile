# make              builds the program unproved, in a minute or more (./ttm does it too, where it is needed)
# make prove        proves and builds it, in an hour or more; from then on ./ttm runs the proved one
# make test         runs all tests and examples, unproved
# make install      installs the program (the proved one where it is up to date), the viewers, the man page, bash's completion and vim's files,
#                   and the C library where it was built, to PREFIX (DESTDIR goes before it)
# make clean        removes the unproved program and the C library's archive
#
# make libpearoar_mm.a    builds the allocators as a C library, unproved, in a minute or more (docs/C_LIBRARY.md)
# make prove-c            proves it, with all crates below it, and builds it
# make install-c          installs the C library alone: the archive, its headers and a file for pkg-config

PREFIX ?= /usr/local
DESTDIR ?=

.PHONY: all prove test install clean prove-c install-c

all:
	./ttm --program

prove:
	./ttm --build

test:
	./ttm test

install:
	tools/build/install.sh "$(DESTDIR)$(PREFIX)"
	[ ! -e libpearoar_mm.a ] || tools/build/install_c_library.sh "$(PREFIX)" "$(DESTDIR)"

C_CRATES = ttm_base place_list step_count bit_set sparse_table hole_tree range_manager block_tree buddy_manager manager_walk mm_c
C_SOURCES = $(wildcard $(C_CRATES:%=crates/%/src/*.rt))

libpearoar_mm.a: $(C_SOURCES)
	tools/build/build_c_library.sh $@

prove-c:
	tools/build/build_c_library.sh --proved libpearoar_mm.a

install-c: libpearoar_mm.a
	tools/build/install_c_library.sh "$(PREFIX)" "$(DESTDIR)"

clean:
	rm -rf crates/ttm/out/unproved libpearoar_mm.a
