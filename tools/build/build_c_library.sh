#!/usr/bin/env bash
# Builds the C library of crates/mm_c as one archive, with what it needs of the kit inside: a program links it and its own C library alone, and
# sees no global name but pearoar_*.
#
# Without --proved the crate isn't proved, which takes a minute or two of processor time (tools/build/c_library/unproved_object.py): to try it, to
# measure it, and where the gate has proved these sources. With --proved it and all crates below it are proved, over what earlier checks left
# in out/: from nothing it takes an hour or more.
#
# usage: tools/build/build_c_library.sh [--proved] [ARCHIVE.a]      libpearoar_mm.a at the top of the repository where no other is named
set -eu
top=$(cd "$(dirname "$0")/../.." && pwd)
kit=$(dirname "$(rt doc)")
is_proved=no
if [ "${1-}" = --proved ]; then
  is_proved=yes
  shift
fi
archive=$(realpath -m "${1:-$top/libpearoar_mm.a}")
work=$(mktemp -d)
trap 'rm -rf "$work"' EXIT

if [ $is_proved = yes ]; then
  "$top/tools/build/c_library/prove.sh" >&2
  (cd "$work" && ar x "$top/crates/mm_c/out/libmm_c.a")
else
  "$top/tools/build/c_library/unproved_object.py" "$work/mm_c.o"
fi

# (the kit's calls of malloc come in where they are wanted, and stay the caller's C library's)
ld -r -o "$work/all.o.made" "$work"/*.o "$kit/c/liblibc_c.a"
objcopy --wildcard --keep-global-symbol='pearoar_*' "$work/all.o.made" "$work/pearoar_mm.o"
rm -f "$archive"
ar rcsD "$archive" "$work/pearoar_mm.o"
