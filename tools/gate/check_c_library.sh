#!/usr/bin/env bash
# Builds the C library (tools/build/build_c_library.sh), installs it into a temporary folder, and there builds and runs what a user would: the example
# of crates/mm_c by pkg-config alone, as C99 and as C++17 without a warning, with and without the test of handles, whose output is compared
# with the .stdout beside it. Then it runs the cases of the kernel's own tests (tools/gate/kernel_cases.py), and makes N random calls on each manager
# beside a model (crates/mm_c/tests/random_calls.c), and where there is valgrind a tenth of them under it, for leaks. Where no C compiler
# ($CC, or else cc) builds a program, it says so in one line and succeeds.
#
# The library is proved first (--proved of tools/build/build_c_library.sh), unless --unproved says that it isn't.
#
# usage: tools/gate/check_c_library.sh [--unproved] [--random N]     300,000 without --random
set -u
top=$(cd "$(dirname "$0")/../.." && pwd)
crate=$top/crates/mm_c
calls=300000
proof=--proved
while [ $# -gt 0 ]; do
  case $1 in
    --unproved) proof= ;;
    --random)
      calls=${2:?usage: tools/gate/check_c_library.sh [--unproved] [--random N]}
      shift
      ;;
    *)
      echo "usage: tools/gate/check_c_library.sh [--unproved] [--random N]" >&2
      exit 2
      ;;
  esac
  shift
done
cc=${CC:-cc}
room=$(mktemp -d)
trap 'rm -rf "$room"' EXIT

fail() {
  echo "c library: $1"
  exit 1
}

printf '#include <stdio.h>\nint main(void) { return puts("") < 0; }\n' >"$room/any.c"
if ! "$cc" "$room/any.c" -o "$room/any" 2>/dev/null; then
  echo "c library: left out, since there is no C compiler $cc that builds a program"
  exit 0
fi

if ! "$top/tools/build/build_c_library.sh" $proof "$room/libpearoar_mm.a" >"$room/build.log" 2>&1; then
  sed 's/^/c library: /' "$room/build.log" | tail -20
  fail "not built"
fi
nm -g --defined-only "$room/libpearoar_mm.a" | awk '$2 ~ /[A-Z]/ && $3 !~ /^pearoar_/ { print $3; found = 1 } END { exit found }' ||
  fail "these names are global, and aren't its own"
"$top/tools/build/install_c_library.sh" --archive "$room/libpearoar_mm.a" /opt/pearoar "$room/installed" || fail "not installed"

# What a program needs to know of the library: by pkg-config where it is there.
flags=(-I"$room/installed/opt/pearoar/include" -L"$room/installed/opt/pearoar/lib" -lpearoar_mm)
if command -v pkg-config >/dev/null; then
  read -ra flags <<<"$(PKG_CONFIG_SYSROOT_DIR=$room/installed PKG_CONFIG_PATH=$room/installed/opt/pearoar/lib/pkgconfig pkg-config --cflags --libs pearoar_mm)"
fi

# build FILE PROGRAM COMPILER WORD ..: without a warning
build() {
  local file=$1 program=$2
  "${@:3}" -O2 -g -pedantic -Wall -Wextra -Werror "$file" "${flags[@]}" -o "$program" 2>"$room/cc.log" && return
  sed 's/^/c library: /' "$room/cc.log"
  fail "$(basename "$file") wasn't built by ${*:3}"
}

mkdir "$room/clean"
cp "$crate/examples/both_managers.c" "$room/clean/x.c"
cd "$room/clean" || exit 1
for check in "" -DPEAROAR_CHECK_HANDLES; do
  build x.c x "$cc" -std=c99 $check
  ./x >stdout && diff "$crate/examples/both_managers.stdout" stdout || fail "the example doesn't print what it should"
done
if command -v "${CXX:-c++}" >/dev/null; then
  printf '#include <pearoar_mm.h>\nint main() { return pearoar_mm_version() != PEAROAR_MM_VERSION; }\n' >x.cc
  for check in "" -DPEAROAR_CHECK_HANDLES; do
    build x.cc y "${CXX:-c++}" -std=c++17 $check
    ./y || fail "the library's version isn't the header's"
  done
fi
printf '%s\n' '#include <pearoar_mm.h>' 'int main(void) { struct pearoar_ranges r = PEAROAR_CLOSED; struct pearoar_span s; pearoar_ranges_create(&r, 8);' \
  'return pearoar_ranges_insert(&r, &(struct pearoar_range_request){ .pages = 2, .last = 8 }, &s) != PEAROAR_DONE || s.end != 2; }' >literal.c
build literal.c literal "$cc" -std=c99 -DPEAROAR_CHECK_HANDLES
./literal || fail "a request that stands in a call isn't met"
printf '#include <pearoar_mm.h>\nint main(void) { struct pearoar_ranges r = PEAROAR_CLOSED; return pearoar_ranges_remove(&r, 0) != PEAROAR_DONE; }\n' >closed.c
build closed.c closed "$cc" -std=c99 -DPEAROAR_CHECK_HANDLES
if { (ulimit -c 0 && ./closed) 2>said; } 2>/dev/null || ! grep -q "pearoar_ranges_remove: the handle is closed" said; then
  fail "a closed handle isn't seen"
fi
echo "c library: installed, and the example prints what it should"

"$top/tools/gate/kernel_cases.py" "$room/libpearoar_mm.a" || exit 1
build "$crate/tests/random_calls.c" random_calls "$cc" -std=c11
./random_calls "$calls" || exit 1
if command -v valgrind >/dev/null; then
  valgrind -q --leak-check=full --error-exitcode=9 ./random_calls "$((calls / 10))" || exit 1
  echo "c library: no leak"
fi
