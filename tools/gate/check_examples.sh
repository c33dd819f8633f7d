#!/usr/bin/env bash
# Runs each NAME.ttm of examples/ and its folders by ./ttm, with the program as it is built, proved or not (an unproved one is built where there
# is none), and compares its output with the NAME.report beside it, which `check` has to find right; and one of them by other words. An example
# without a report, or a report without an example, fails too, and so does the script in README.md, if it isn't the example that it is named for.
# Each fault is a line that names the example; the exit status is 1 if there is one. It takes some seconds.
#
# usage: tools/gate/check_examples.sh [FOLDER]     FOLDER in place of examples/
set -u
shopt -s nullglob
top=$(cd "$(dirname "$0")/../.." && pwd)
. "$top/tools/launcher/input.sh"
examples=$(cd "${1:-$top/examples}" && pwd) || exit 1
room=$(mktemp -d)
trap 'rm -rf "$room"' EXIT
program=$("$top/ttm" --program 2>"$room/said") || { cat "$room/said"; exit 1; }
faults=0
count=0

fault() {
  echo "examples: $1"
  faults=1
}

# answers NAME STATUS FILE WORD ..: whether ./ttm ends with this status by these words, and writes what FILE has
answers() {
  local name=$1 wanted=$2 file=$3 status
  shift 3
  "$top/ttm" "$@" >"$room/out" 2>"$room/said" </dev/null
  status=$?
  count=$((count + 1))
  [ "$status" -eq "$wanted" ] || fault "$name: status $status, not $wanted: $(tail -n 1 "$room/said")"
  cmp "$file" "$room/out" >"$room/differs" 2>&1 || fault "$name: other output: $(cat "$room/differs")"
}

for report in "$examples"/*.report "$examples"/*/*.report; do
  [ -f "${report%.report}.ttm" ] || fault "$(basename "$report"): no script of that name"
done
echo valid >"$room/valid"
for script in "$examples"/*.ttm "$examples"/*/*.ttm; do
  name=$(basename "$script" .ttm)
  report=${script%.ttm}.report
  if [ ! -f "$report" ]; then
    fault "$name.ttm: no report of that name"
    continue
  fi
  answers "$name" 0 "$report" sim "$script"
  answers "$name, checked" 0 "$room/valid" check "$script" "$report"
  without_comments <"$script" | cmp -s - <(python3 "$top/tools/view" plain "$script") || fault "$name: other comments for ./ttm than for the viewers"
done

# A script of one thread and no job has one interleaving, so `run` writes what `sim` does.
one=$top/examples/read_crosses_a_page
answers "run" 0 "$one.report" run "$one.ttm"
printf 'rejected: entry 0, rule 1\n' >"$room/none"
answers "a check of no report" 8 "$room/none" check "$one.ttm"
"$program" --version >"$room/version"
answers "the version" 0 "$room/version" --version
echo usage >"$room/usage"
answers "no such word" 2 "$room/usage" Sim

# The script in README.md runs as it is copied.
awk '/^```/ { if (++fences == 2) exit; next } fences == 1' "$top/README.md" >"$room/readme.ttm"
answers "README.md's script" 0 "$top/examples/one_page_eviction.report" sim "$room/readme.ttm"

if [ "$faults" -eq 0 ]; then
  echo "examples: each of $count runs writes what it should"
else
  echo "examples: not all runs write what they should"
fi
exit "$faults"
