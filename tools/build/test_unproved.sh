#!/usr/bin/env bash
# Runs all tests and examples, and proves nothing: the tests of each crate that has some, by the kit's `rt try`; each program that has stored
# output, built unproved, on its stored input; the examples; and the viewers' own tests. Says which passed, and of those that failed the end of what
# they print. The exit status is 1 if one failed. It takes some minutes.
#
# usage: tools/build/test_unproved.sh [NAME ..]     crates, `examples` and `viewers`; all of them where none is named
set -um # (each test is a group of processes of its own, so that it can be ended)
top=$(cd "$(dirname "$0")/../.." && pwd)
logs=$(mktemp -d)

clean() {
  trap '' INT TERM
  for job in $(jobs -p); do
    kill -INT -- "-$job"
  done 2>/dev/null
  wait
  rm -rf "$logs"
}
trap clean EXIT

# The crates that have tests, and the programs with stored output.
crates() {
  (cd "$top/crates" && { grep -lr --include='*.rt' '^ *#\[test\]' */src; ls -d */stdout; } | sed 's:/.*::' | sort -u)
}

# Runs one of the tests, and says how it ended.
try() {
  local name=$1 begun=$SECONDS
  if run "$name" >"$logs/$name" 2>&1 </dev/null; then
    : >"$logs/$name.passed"
    echo "test: $name passed, $((SECONDS - begun)) s"
  else
    echo "test: $name FAILED, $((SECONDS - begun)) s"$'\n'"$(grep -v ' ok$' "$logs/$name" | tail -n 20 | sed 's/^/  | /')"
  fi
}

run() {
  case $1 in
    examples) "$top/tools/gate/check_examples.sh" ;;
    viewers) "$top/tools/view/check.sh" ;;
    *) try_crate "$1" ;;
  esac
}

try_crate() {
  if [ -f "$top/crates/$1/src/main.rt" ]; then
    try_program "$1"
  else
    cd "$top/crates/$1" && rt try --test --seconds 600
  fi
}

# Runs a program on what is stored for it, and compares.
try_program() {
  local crate=$top/crates/$1 program=$logs/$1.built input=/dev/null words=()
  if [ "$1" = ttm ]; then
    program=$("$top/ttm" --program) || return 1
  else
    "$top/tools/build/build_unproved.sh" --crate "$1" "$program" || return 1
  fi
  [ -f "$crate/stdin" ] && input=$crate/stdin
  [ -f "$crate/args" ] && mapfile -t words <"$crate/args"
  "$program" "${words[@]}" <"$input" >"$logs/$1.out" && cmp "$logs/$1.out" "$crate/stdout"
}

if ! command -v rt >/dev/null; then
  echo "test: the command rt of the Rattle kit isn't on the PATH" >&2
  exit 1
fi
names=("$@")
[ $# -gt 0 ] || mapfile -t names < <(crates; echo examples; echo viewers)
most=$(nproc)
for name in "${names[@]}"; do
  while [ "$(jobs -pr | wc -l)" -ge "$most" ]; do
    wait -n
  done
  try "$name" &
done
wait
failed=()
for name in "${names[@]}"; do
  [ -e "$logs/$name.passed" ] || failed+=("$name")
done
echo "test: ${#names[@]} tried, ${#failed[@]} failed${failed[*]:+: ${failed[*]}}"
[ "${#failed[@]}" -eq 0 ]
