#!/usr/bin/env bash
# Proves crates/mm_c and builds its static library, out/libmm_c.a. Over libraries that checks of one's own left in out/, `rt lib` takes what
# they kept. Over those that `rt ci` left in a clean clone, of which `rt lib` would prove each again, the kit's compiler is called itself, and
# proves mm_c alone.
set -eu
top=$(cd "$(dirname "$0")/../../.." && pwd)
crate=$top/crates/mm_c
kit=$(dirname "$(rt doc)")

# The libraries below mm_c, as crates.txt lists them; their folders stand beside its own.
below() {
  sed -n 's/^mm_c staticlib: //p' "$top/crates.txt"
}

# `rt ci` alone made what stands in out/ of each library below.
left_by_gate() {
  for name in $(below); do
    [ -d "$top/crates/$name/out/rlib/$name.rlib" ] && [ ! -e "$top/crates/$name/out/rlib/stamp" ] || return 1
  done
}

cd "$crate"
if ! left_by_gate; then
  exec rt lib
fi
mkdir -p out
words=(--crate-name mm_c src/lib.rt --crate-type staticlib --extern "std=$kit/rlibs/std.rlib" -L "dependency=$kit/rlibs")
for name in $(below); do
  words+=(--extern "$name=$top/crates/$name/out/rlib/$name.rlib")
done
for folder in "$top"/crates/*/out/rlib; do
  words+=(-L "dependency=$folder")
done
words+=(--antt-project "$kit/rattle/logic/antt-project.json" --logic-built "$kit/logic_built" --links mm_c= --jobs 2)
exec "$kit/bin/rattle" build "${words[@]}" --toolchain "$kit/toolchain" --backend llvm -o out/libmm_c.a
