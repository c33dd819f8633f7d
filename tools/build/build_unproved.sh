#!/usr/bin/env bash
# Builds a program, ttm where no other is named, without proving it, and optimized as a proved one is. The kit's `rt try` makes the program's
# LLVM module, and of it a slow program that checks itself and isn't kept; the module is kept as soon as it is there, and compiled again. The
# program has the checks of a run that isn't proved (of an index, of a sum, of each bool of a slice that is passed), by which a tight loop takes
# up to three times as long as the proved program's. With --no-checks a check that fails does nothing, so clang leaves the checks out, as a
# proof does: to measure, and for nothing else. It takes a minute of processor time or more. A build that fails or is interrupted leaves nothing.
#
# usage: tools/build/build_unproved.sh [--crate NAME] [--no-checks] FILE [FLAG ..]     writes FILE and FILE.bc; a FLAG goes to clang, as
#                                                                                `-mllvm -inline-threshold=-10000` where a profile is to
#                                                                                show each function
set -eu
top=$(cd "$(dirname "$0")/../.." && pwd)
kit=$(dirname "$(rt doc)")
crate=ttm
if [ "$1" = --crate ]; then
  crate=$2
  shift 2
fi
checks=yes
if [ "$1" = --no-checks ]; then
  checks=no
  shift
fi
file=$(realpath -m "$1")
shift
work=$(mktemp -d)
try=

# (rt ends what it has started, and removes its own folder)
clean() {
  if [ -n "$try" ]; then
    kill "$try" || true
    wait "$try" || true
  fi 2>/dev/null
  rm -rf "$work"
}
trap clean EXIT

# Prints the program's module, where it is whole: a small one is the kit's own, and where there is an object, the compiler has begun.
whole_module() {
  local found
  find "$work" -name module.bc -size +500k 2>/dev/null | while IFS= read -r found; do
    ! compgen -G "${found%/*}/module*.o*" >/dev/null || echo "$found"
  done
}

(cd "$top/crates/$crate" && TMPDIR="$work" exec rt try -- --version) </dev/null >"$work/log" 2>&1 &
try=$!
module=
while [ -z "$module" ]; do
  module=$(whole_module)
  kill -0 "$try" 2>/dev/null || { cat "$work/log" >&2; exit 1; }
  sleep 0.2
done
cp "$module" "$work/$crate.bc"
kill "$try"
wait "$try" || true
try=

# What `rt run` gives the compiler and the linker.
flags=(--target=x86_64-unknown-linux-gnu --sysroot="$kit/toolchain" -march=x86-64 -O3 -fPIE -ffunction-sections -fdata-sections)
for flag in -no-trap-after-noreturn -trap-unreachable -no-x86-call-frame-opt -disable-machine-licm -disable-postra-machine-licm \
  -sink-common-insts=false; do
  flags+=(-mllvm "$flag")
done
given=$work/$crate.bc
if [ $checks = no ]; then
  "$kit/toolchain/bin/clang" --target=x86_64-unknown-linux-gnu -S -emit-llvm -O0 -Xclang -disable-llvm-passes -x ir "$given" -o "$work/all.ll"
  given=$work/$crate.ll
  grep -v 'call void @llvm.trap()' "$work/all.ll" >"$given"
fi
"$kit/toolchain/bin/clang" "${flags[@]}" "$@" -c -x ir "$given" -o "$work/$crate.o"
"$kit/bin/rattle-link" --target x86_64-unknown-linux-gnu --toolchain "$kit/toolchain" -o "$work/$crate" "$work/$crate.o" \
  "$kit/c/libos_c.a" "$kit/c/liblibc_c.a"
mv "$work/$crate.bc" "$file.bc"
mv "$work/$crate" "$file"
