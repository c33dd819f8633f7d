# A copy of the launcher with a small repository around it, a kit that only pretends, and a viewer that only says what it is asked. Sourced by
# tools/gate/check_launcher.sh, which sets `top` and `room`.
#
# The program that the kit makes writes what made it, its words and its input, and ends with the status that a line `status N` of the input names; a
# line `wait` has it write its number of a process to $room/waits, and wait.
# What the kit makes of the sources is as $room/how says: whole, held (whole, once there is a file $room/go), cut (a part of a program, and a
# fault), or none.

pretend_repository() {
  mkdir -p "$room/copy/tools/view" "$room/copy/tools/build" "$room/copy/editors" "$room/bin" "$room/kit/bin" "$room/kit/toolchain/bin" "$room/tools"
  cp "$top/ttm" "$top/Makefile" "$top/ttm.1" "$top/CHANGELOG.md" "$top/README.md" "$room/copy/"
  cp -r "$top/tools/launcher" "$room/copy/tools/"
  cp "$top/tools/build/build_unproved.sh" "$top/tools/build/build_progress.py" "$top/tools/build/install.sh" "$room/copy/tools/build/"
  cp -r "$top/editors/ttm.bash" "$top/editors/vim" "$room/copy/editors/"
  cp -r "$top/examples" "$top/docs" "$room/copy/"
  printf 'base:\nbeside:\nttm: base\n' >"$room/copy/crates.txt"
  for name in base beside ttm; do
    mkdir -p "$room/copy/crates/$name/src"
    echo "fn main() {}" >"$room/copy/crates/$name/src/main.rt"
  done
  echo whole >"$room/how"
  pretend_tools
  pretend_program
  pretend_rt
  pretend_compilers
  pretend_viewers
}

# The folder of all commands that the launcher needs, but rt; and a sha256sum that counts its calls.
pretend_tools() {
  for name in bash sh env awk basename cat chmod cmp cp dirname find flock grep head install kill ln make mkdir mktemp mv readlink realpath rm sed \
    seq setsid sleep sort tail touch tr wc xargs; do
    ! command -v "$name" >/dev/null || ln -s "$(command -v "$name")" "$room/tools/$name"
  done
  printf '#!/bin/sh\necho . >>"%s/sums"\nexec %s "$@"\n' "$room" "$(command -v sha256sum)" >"$room/tools/sha256sum"
  printf '#!/bin/sh\nexec %s "$@"\n' "$(python3 -c 'import sys; print(sys.executable)')" >"$room/bin/python3"
  chmod +x "$room/tools/sha256sum" "$room/bin/python3"
}

pretend_program() {
  cat >"$room/kit/program" <<'PROGRAM'
#!/bin/sh
echo "MADE: $*"
case $1 in gen | --help) exit 0 ;; esac
input=$(cat)
[ -z "$input" ] || echo "$input"
[ "$input" != wait ] || { echo $$ >"ROOM/waits" && exec sleep 60; }
exit "$(echo "$input" | awk '/^status / { status = $2 } END { print status + 0 }')"
PROGRAM
  sed -i "s:ROOM:$room:" "$room/kit/program"
}

pretend_rt() {
  cat >"$room/bin/rt" <<'RT'
#!/usr/bin/env bash
room=$(cd "$(dirname "$0")/.." && pwd)
how=$(cat "$room/how")
case "$1" in
  doc) echo "$room/kit/page" ;;
  run)
    [ "$*" = "run -- --help" ] || exit 9
    echo "proving"
    case $how in
      whole) sed s/MADE/proved/ "$room/kit/program" >out/ttm && chmod +x out/ttm ;;
      cut) printf '#!/bin/sh\necho half\n' >out/ttm; chmod +x out/ttm; echo "error: cut off"; exit 137 ;;
      *) echo "error: a proof is missing"; exit 1 ;;
    esac
    ;;
  try)
    echo . >>"$room/tries"
    [ "$how" = none ] && { echo "error: no such name"; exit 2; }
    until [ "$how" != held ] || [ -e "$room/go" ]; do sleep 0.05; done
    mkdir "$TMPDIR/rt-try"
    head -c 600000 /dev/zero >"$TMPDIR/rt-try/module.bc"
    : >"$TMPDIR/rt-try/module.1.o"
    exec sleep 60
    ;;
esac
RT
  chmod +x "$room/bin/rt"
}

pretend_compilers() {
  cat >"$room/kit/toolchain/bin/clang" <<'CLANG'
#!/usr/bin/env bash
room=$(cd "$(dirname "$0")/../../.." && pwd)
[ "$(cat "$room/how")" = cut ] && { echo "error: cut off"; exit 1; }
while [ "$1" != -o ]; do shift; done
: >"$2"
CLANG
  cat >"$room/kit/bin/rattle-link" <<'LINK'
#!/usr/bin/env bash
room=$(cd "$(dirname "$0")/../.." && pwd)
while [ "$1" != -o ]; do shift; done
sed s/MADE/unproved/ "$room/kit/program" >"$2" && chmod +x "$2"
LINK
  chmod +x "$room/kit/toolchain/bin/clang" "$room/kit/bin/rattle-link"
}

pretend_viewers() {
  cat >"$room/copy/tools/view/__main__.py" <<'VIEW'
import os, sys
word, *words = sys.argv[1:]
if word == "diagnose":
    script, answer = open(words[2]).read().split("\n"), open(words[3]).read().split("\n")
    print("diagnose", *words[:2], os.environ["TTM_NAME"] + ":", script[0], "/", answer[0])
else:
    print("view", word, *words, "program" if os.path.isfile(os.environ.get("TTM_PROGRAM", "")) else "none")
    sys.exit(len(words))
VIEW
}
