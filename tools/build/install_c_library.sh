#!/usr/bin/env bash
# Installs the C library: the archive, its headers, and a file for pkg-config.
#
# usage: tools/build/install_c_library.sh [--archive FILE.a] PREFIX [DESTDIR]      libpearoar_mm.a at the top of the repository where no other is named
set -eu
top=$(cd "$(dirname "$0")/../.." && pwd)
archive=$top/libpearoar_mm.a
if [ "${1-}" = --archive ]; then
  archive=$2
  shift 2
fi
prefix=${1:?usage: tools/build/install_c_library.sh [--archive FILE.a] PREFIX [DESTDIR]}
to=${2-}$prefix
version=$(sed -n 's/^#define PEAROAR_MM_VERSION \([0-9]*\)\([0-9][0-9]\)\([0-9][0-9]\)$/\1 \2 \3/p' "$top/crates/mm_c/include/pearoar_mm.h" |
  { read -r first second third && echo "$first.$((10#$second)).$((10#$third))"; })
install -d "$to/lib/pkgconfig" "$to/include"
install -m 644 "$archive" "$to/lib/libpearoar_mm.a"
install -m 644 "$top"/crates/mm_c/include/*.h "$to/include"
sed "s|@PREFIX@|$prefix|; s|@VERSION@|$version|" "$top/tools/build/c_library/pearoar_mm.pc.in" >"$to/lib/pkgconfig/pearoar_mm.pc"
