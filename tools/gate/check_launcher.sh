#!/usr/bin/env bash
# Checks ./ttm on a copy of it, with a small program in place of the real one, a kit and viewers that only pretend (tools/launcher/tests/pretend.sh),
# and no other command on the PATH than it needs: statuses and output, what is built and when, what is read, and that nothing is left half.
# Each fault is a line; the exit status is 1 if there is one. It takes a minute.
#
# usage: tools/gate/check_launcher.sh
# Runs itself again with the signals that a case sends, since a shell starts what runs in its background without them.
[ -n "${signals_as_usual-}" ] || signals_as_usual=1 exec env --default-signal=INT,QUIT "$0" "$@"
set -um
top=$(cd "$(dirname "$0")/../.." && pwd)
room=$(mktemp -d)
trap 'rm -rf "$room"' EXIT
. "$top/tools/launcher/tests/pretend.sh"
. "$top/tools/launcher/tests/cases.sh"
pretend_repository
ln -s copy/ttm "$room/ttm"
mkdir "$room/tmp"
export TMPDIR="$room/tmp" XDG_CACHE_HOME="$room/cache"
whole=$room/bin:$room/tools
faults=0
count=0

fault() {
  echo "launcher: $1"
  faults=1
}

# expect WHAT STATUS OUTPUT LINES WORD ..: the status, the standard output and the lines of standard error of this run of ./ttm, with `input` as
# its standard input
input=/dev/null
expect() {
  local what=$1 wanted="status $2 output '$3' lines $4" given told
  shift 4
  given=$(PATH=$whole "$room/ttm" "$@" 2>"$room/said" <"$input")
  told="status $? output '$given' lines $(wc -l <"$room/said")"
  count=$((count + 1))
  [ "$told" = "$wanted" ] || fault "$what: $told, and not $wanted"
}

# says WHAT TEXT: a text that standard error of the last run has
says() {
  grep -qF -- "$2" "$room/said" || fault "$1: standard error doesn't say '$2'"
}

# Whether nothing is left of what the launcher made for a while.
leaves_nothing() {
  [ -z "$(ls "$room/tmp")" ] || fault "$1: files are left in the folder for temporary files: $(ls "$room/tmp")"
  [ -z "$(find "$room/copy/crates/ttm/out/unproved" -name 'new*' 2>/dev/null)" ] || fault "$1: a part of a build is left"
}

# tries WHAT N: how many builds of an unproved program were begun since the last time
tries() {
  local found
  found=$(cat "$room/tries" 2>/dev/null | wc -l)
  rm -f "$room/tries"
  [ "$found" -eq "$2" ] || fault "$1: $found builds were begun, and not $2"
}

for case in words first_build fresh_or_not changed_sources failed_builds proved_builds two_at_once edited_meanwhile interrupted inputs comments explanations \
  viewers no_python read_only installed; do
  "check_$case"
  leaves_nothing "$case"
done
[ -e "$room/crates" ] && fault "files were made beside the link"
[ "$faults" -eq 0 ] && echo "launcher: each of $count runs answers as it should, by a program that is made from the sources as they are"
exit "$faults"
