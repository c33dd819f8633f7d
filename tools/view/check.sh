#!/usr/bin/env bash
# Runs the tests of the viewers, in half a minute of processor time. TTM_PROGRAM names the built program; else ./ttm is asked for one, which it builds where
# there is none. Without a program the tests that need one are skipped, and a line says so.
#
# usage: tools/view/check.sh [TEST ..]      TEST as `python3 -m unittest` takes it, such as view.tests.test_explain
set -u
top=$(cd "$(dirname "$0")/../.." && pwd)
export TTM_PROGRAM=${TTM_PROGRAM-$("$top/ttm" --program)}
if [ ! -x "$TTM_PROGRAM" ]; then
  echo "view: there is no built program, so the tests that need one are skipped"
  TTM_PROGRAM=
fi
cd "$top/tools" || exit 1
if [ $# -eq 0 ]; then
  set -- discover -q -s view/tests -t .
fi
python3 -m unittest "$@"
