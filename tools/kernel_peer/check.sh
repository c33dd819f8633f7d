#!/bin/sh
# Checks that the program and the kernel's TTM agree: builds the peer, runs the tests of the tools, the smallest script of each rule, these
# once more under AddressSanitizer, and some random scripts of each family. It takes KERNEL_DIR (README.md), and TTM_PROGRAM or the launcher
# at the top; it is no part of the gate. Faults are lines; the exit status is 1 if there is one. It takes some minutes.
#
# usage: tools/kernel_peer/check.sh [PERCENT]     of the scripts of each family that figures.py takes (5)
set -u
if [ -z "${KERNEL_DIR:-}" ]; then
  echo "kernel_peer: no kernel's source is given (KERNEL_DIR), so nothing was compared"
  exit 0
fi
here=$(cd "$(dirname "$0")" && pwd)
room=$(mktemp -d)
trap 'rm -rf "$room"' EXIT
faults=0
fault() {
  sed "s/^/kernel_peer: /" "$room/said"
  faults=1
}

for test in "$here"/test_*.py; do
  python3 "$test" >"$room/said" 2>&1 || fault
done
export KERNEL_PEER_OUT="$room/sanitized" ASAN_OPTIONS=detect_leaks=0
python3 "$here/build.py" --sanitize >"$room/said" 2>&1 || { fault; exit 1; }
python3 "$here/cases.py" check >"$room/said" 2>&1 || fault
export KERNEL_PEER_OUT="$room/plain"
python3 "$here/build.py" >"$room/said" 2>&1 || { fault; exit 1; }
python3 "$here/cases.py" check >"$room/said" 2>&1 || fault
python3 "$here/figures.py" run "$room/figures" --share "${1:-5}" >"$room/said" 2>&1 || fault
if [ "$faults" -eq 0 ]; then
  sed -n '/^| sum /p' "$room/said"
  echo "kernel_peer: each difference on these scripts is one of the rules that README.md names"
fi
exit "$faults"
