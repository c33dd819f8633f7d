# What the proved program reads, how it is run, and what explains an answer that tells of a fault. Sourced by ./ttm.

most_bytes=134217728 # of standard input, twice of what the program looks at

# A folder of the launcher's own, which is gone when it ends.
make_room() {
  [ -n "$room" ] || room=$(mktemp -d) || exit 1
}

# Whether standard input is a file that can be opened again and read from its start.
is_file_at_start() {
  local key place
  [ -f "/proc/$$/fd/0" ] && read -r -u 3 key place 3<"/proc/$$/fdinfo/0" && [ "$key $place" = "pos: 0" ] && : <"/proc/$$/fd/0"
} 2>/dev/null

# Sets `given` to a file that has what the program is to read, as it was given, and `name` to what to call it. Sets it to nothing where
# standard input is none that could be read, which the program tells itself.
find_input() {
  name=${files[0]-standard input}
  if [ "${#files[@]}" -eq 1 ] && [ -f "$name" ]; then
    given=$name
  elif [ "${#files[@]}" -gt 0 ]; then
    make_room
    given=$room/given
    cat -- "${files[@]}" >"$given" || exit 1
  elif [ ! -e "/proc/$$/fd/0" ] || [ -d "/proc/$$/fd/0" ]; then
    given=
  elif is_file_at_start; then
    given=/proc/$$/fd/0
  else
    make_room
    given=$room/given
    head -c "$most_bytes" >"$given" || exit 1
  fi
}

has_viewers() {
  [ -e "$top/tools/view" ] && command -v python3 >/dev/null
}

# Copies a script without its comments, as the viewers' `plain` does (tools/gate/check_examples.sh compares the two): lines that begin with # go, and
# what stands at a line's end from a blank and # on.
without_comments() {
  LC_ALL=C sed '/^ *#/d; s/ \{1,\}#.*//'
}

# Sets `plain` to a file that has the input without comments.
find_plain() {
  plain=$given
  if LC_ALL=C grep -qF '#' <"$given"; then
    make_room
    plain=$room/plain
    without_comments <"$given" >"$plain" || exit 1
  fi
}

# Runs the program, with `words` on `plain`, in a process of its own, so that the launcher is there for what comes after.
run_program() {
  (trap - INT && exec "$program" "${words[@]}") <"$plain" &
  child=$!
  wait "$child"
  status=$?
  child=
}

# Tells on standard error what a bad script or a report that isn't right has wrong. The program tells its verdict a second time, for the
# viewer, since the first time it went to standard output.
explain() {
  make_room
  "$program" "${words[@]}" <"$plain" >"$room/answer"
  TTM_PROGRAM=$program TTM_NAME=$name TTM_REPORT=${files[1]-} python3 "$top/tools/view" diagnose "${words[0]}" "$status" "$given" "$room/answer" >&2
}

# Answers the words of the proved program.
answer_program() {
  split_words "$@"
  find_program
  [ "${words[0]}" = gen ] && exec "$program" "${words[@]}"
  find_input
  [ -n "$given" ] || exec "$program" "${words[@]}"
  find_plain
  run_program
  case $status in
    3 | 8) has_viewers && explain ;;
  esac
  exit "$status"
}
