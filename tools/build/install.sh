#!/usr/bin/env bash
# Installs the program, as ./ttm runs it, and what is beside it: bin/ttm is a link to the launcher in lib/pearoar, which finds the program, the
# viewers and the table of words beside itself.
#
# usage: tools/build/install.sh PLACE      a folder such as /usr/local
set -eu
top=$(cd "$(dirname "$0")/../.." && pwd)
place=${1:?usage: tools/build/install.sh PLACE}
lib=$place/lib/pearoar
program=$("$top/ttm" --program)

# copy MODE FOLDER FILE ..
copy() {
  install -d "$2"
  install -m "$1" -t "$2" "${@:3}"
}

# copy_tree FROM TO: all files but tests and what Python keeps for itself
copy_tree() {
  local file
  (cd "$1" && find . -name tests -prune -o -name __pycache__ -prune -o -type f -print) | while IFS= read -r file; do
    install -D -m 644 "$1/$file" "$2/$file"
  done
}

rm -rf "$lib/program" "$lib/tools"
copy 755 "$lib/program" "$program"
[ "$program" = "$top/crates/ttm/out/ttm" ] || : >"$lib/program/unproved"
copy 755 "$lib" "$top/ttm"
copy_tree "$top/tools/launcher" "$lib/tools/launcher"
copy_tree "$top/tools/view" "$lib/tools/view"
install -d "$place/bin"
ln -sfn ../lib/pearoar/ttm "$place/bin/ttm"

copy 644 "$place/share/man/man1" "$top/ttm.1"
install -D -m 644 "$top/editors/ttm.bash" "$place/share/bash-completion/completions/ttm"
copy_tree "$top/editors/vim" "$place/share/vim/vimfiles"
copy 644 "$place/share/doc/pearoar" "$top/README.md" "$top/CHANGELOG.md"
copy 644 "$place/share/doc/pearoar/docs" "$top"/docs/*.md
copy 644 "$place/share/doc/pearoar/docs/pictures" "$top"/docs/pictures/*
copy_tree "$top/examples" "$place/share/doc/pearoar/examples"
