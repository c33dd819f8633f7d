#!/usr/bin/env bash
# What the program does at its edges: by words, by real files and pipes, and where memory or threads are short. No contract speaks of
# these, and no test of a crate can make them. It proves nothing. Each fault is a line; the exit status is 1 if there is one.
#
# usage: tools/compare/check_program.sh [PROGRAM]     PROGRAM in place of the one that ./ttm runs, which is built unproved where there is none
set -u
top=$(cd "$(dirname "$0")/../.." && pwd)
work=$(mktemp -d)
trap 'rm -rf "$work"' EXIT
program=$(realpath "${1:-$("$top/ttm" --program)}") || exit 1
one="$work/one"  # one thread and no job: one interleaving
whole="$top/examples/read_crosses_a_page.report"
many="$work/many"
python3 "$top/tools/view" plain "$top/examples/read_crosses_a_page.ttm" >"$one" || exit 1
python3 "$top/tools/view" plain "$top/examples/younger_backs_off.ttm" >"$many" || exit 1
faults=0
count=0

fault() {
  echo "program: $1"
  faults=1
}

# ends NAME STATUS TEXT FOUND: the program's status, and what it wrote, and nothing on standard error
ends() {
  count=$((count + 1))
  [ "$4" = "$2" ] || fault "$1: status $4, not $2"
  [ "$3" = - ] || printf "$3" | cmp -s - "$work/out" || fault "$1: other output"
  [ ! -s "$work/err" ] || fault "$1: writes to standard error"
}

# answers STATUS TEXT WORD..: by words, with a script on standard input
answers() {
  local status=$1 text=$2
  shift 2
  timeout 60 "$program" "$@" <"$one" >"$work/out" 2>"$work/err"
  ends "words $*" "$status" "$text" $?
}

report=$(sed 's/$/\\n/' "$whole" | tr -d '\n')
answers 0 "$report" sim
answers 0 "$report" run
answers 0 'ttm 0.1.0\n' --version
answers 0 - --help
answers 0 'gen 3\nthreads 3\ncommands 648\nresults 648\nmismatches 0\n' gen 3
answers 7 - sim --turns 2
answers 8 'rejected: entry 0, rule 1\n' check
for words in "" Sim "sim --turns" "sim --turns 012" "run 1" gen "gen 03" "check 1" "--help sim"; do
  answers 2 'usage\n' $words
done
answers 2 'usage\n' sim --turns $'\xff'
answers 2 'usage\n' $'s\xc3im'

# Standard input: closed, no file, in pieces, and nothing at all.
timeout 60 "$program" sim <&- >"$work/out" 2>"$work/err"
ends "closed input" 4 'read fault\n' $?
timeout 60 "$program" run <"$work" >"$work/out" 2>"$work/err"
ends "a folder as input" 4 'read fault\n' $?
for word in sim run; do
  while IFS= read -r line; do echo "$line"; sleep 0.01; done <"$one" | timeout 60 "$program" $word >"$work/out" 2>"$work/err"
  ends "$word in pieces" 0 "$report" $?
  timeout 60 "$program" $word </dev/null >"$work/out" 2>"$work/err"
  ends "$word of nothing" 3 'bad script: line 1, rule 3\n' $?
done

# Verdicts, on a report and on inputs of the most bytes that are looked at and of one more.
cat "$one" "$whole" | timeout 60 "$program" check >"$work/out" 2>"$work/err"
ends "check of a report" 0 'valid\n' $?
{ cat "$one" "$whole"; head -c 68157440 /dev/zero; } | head -c 68157440 | timeout 60 "$program" check >"$work/out" 2>"$work/err"
ends "check of the most bytes" 8 'rejected: entry 11, rule 6\n' $?
{ cat "$one" "$whole"; head -c 68157440 /dev/zero; } | head -c 68157441 | timeout 60 "$program" check >"$work/out" 2>"$work/err"
ends "check of a byte more" 8 'rejected: entry 0, rule 1\n' $?

# Standard output that can't be written: a full disk, none, and a pipe that nobody reads.
: >"$work/out"
for words in --help --version sim run check "gen 1" "sim --turns 2" Sim; do
  timeout 60 "$program" $words <"$one" >/dev/full 2>"$work/err"
  ends "$words, full disk" 5 '' $?
  timeout 60 "$program" $words <"$one" >&- 2>"$work/err"
  ends "$words, no output" 5 '' $?
  { sleep 0.1; timeout 60 "$program" $words <"$one" 2>"$work/err"; echo $? >"$work/status"; } | true
  ends "$words, pipe that nobody reads" 5 '' "$(cat "$work/status")"
done

# Memory for all, for some or for none of it: the whole report, or 6 and a front of it. (127: not enough to load the program.)
for word in sim run; do
  for kib in $(seq 2300 20 4500) $(seq 5000 1000 40000); do
    (ulimit -v "$kib" && exec timeout 20 "$program" $word) <"$one" >"$work/out" 2>"$work/err"
    status=$?
    [ $status -eq 127 ] && continue
    case $status in
      0) ends "$word in $kib KiB" 0 "$report" 0 ;;
      *) ends "$word in $kib KiB" 6 - $status
         cmp -s -n "$(stat -c %s "$work/out")" "$work/out" "$whole" || fault "$word in $kib KiB: no front of the report" ;;
    esac
  done
done

# Threads that can't be started, and many runs of the same: each comes to its end.
as=()
[ "$(id -u)" -eq 0 ] && as=(setpriv --reuid=65534 --regid=65534 --clear-groups)
chmod 755 "$work"
for most in 1 2 3 1000; do
  for _turn in $(seq 100); do
    "${as[@]}" timeout 20 prlimit --nproc=$most "$program" run <"$many" >"$work/out" 2>"$work/err"
    ends "at most $most threads" 0 - $?
    [ "$(tail -n 1 "$work/out")" = end ] || fault "at most $most threads: no whole report"
  done
done

[ "$faults" -eq 0 ] && echo "program: each of $count runs ends as it should"
exit "$faults"
