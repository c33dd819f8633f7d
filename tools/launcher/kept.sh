# Which built program is run: whether it was made from the sources as they are, and how it is made. Sourced by ./ttm.
#
# Beside a program stand NAME.made, the sum of the sources that it was made from and its own, and NAME.seen, a listing of the sources and the
# program (names, sizes, times) as they were when these sums were last found right. While the listing is the same, nothing is summed again.

proved=$top/crates/ttm/out/ttm

# The crates that the program stands on, and itself.
crates_below() {
  awk -F: '
    /^[a-z]/ { split($1, head, " "); deps[head[1]] = $2 }
    END {
      todo[last = 1] = "ttm"
      for (i = 1; i <= last; i++) {
        if (todo[i] in seen || !(todo[i] in deps)) continue
        seen[todo[i]]
        print todo[i]
        count = split(deps[todo[i]], dep, " ")
        for (j = 1; j <= count; j++) todo[++last] = dep[j]
      }
    }' "$top/crates.txt"
}

# Prints what is found of each source, in the form of `find`: sources PREDICATE ..
sources() {
  local names
  mapfile -t names < <(crates_below)
  (cd "$top/crates" && find "${names[@]}" -name out -prune -o -type f \( -name '*.rt' -o -name '*.antt' \) "$@" 2>/dev/null)
}

# The listing of the sources and of the program $1.
listing() {
  sources -printf '%p %i %s %T@ %C@\n'
  find "$1" "$1.made" -printf '%i %s %T@ %C@\n' 2>/dev/null
}

sum_of_sources() {
  local names
  names=$(crates_below | LC_ALL=C sort)
  (sources -print0 | LC_ALL=C sort -z | (cd "$top/crates" && xargs -0 sha256sum) | cat - <(echo "$names") | sha256sum)
}

# The sums that belong to the program $1 made from sources of the sum $2.
sums_of() {
  echo "$2 $(sha256sum <"$1")"
}

# Whether the program $1 is what was made from the sources as they are.
is_fresh() {
  local seen
  [ -x "$1" ] && [ -f "$1.made" ] || return 1
  listing "$1" | cmp -s - "$1.seen" && return
  seen=$(listing "$1" | sha256sum)
  [ "$(cat "$1.made")" = "$(sums_of "$1" "$(sum_of_sources)")" ] || return 1
  remember "$1" "$seen"
}

# Keeps the listing of the program $1, if it is still that of the sum $2. A file that was changed in the last two seconds could be changed again
# with the same time, so nothing is kept then.
remember() {
  half=$1.seen.$$
  { listing "$1" >"$half"; } 2>/dev/null || return 0
  if [ "$(sha256sum <"$half")" = "$2" ] && [ -z "$(sources -newerct '2 seconds ago' -print -quit)" ]; then
    mv -f "$half" "$1.seen"
  else
    rm -f "$half"
  fi
  half=
}

# Sets `unproved` to an unproved program that is up to date, and makes it where there is none: beside the proved one, or where nothing can be
# written there, in the user's cache.
find_unproved() {
  local cache=${XDG_CACHE_HOME:-${HOME:-/nonexistent}/.cache} name
  unproved=$top/crates/ttm/out/unproved/ttm
  is_fresh "$unproved" && return
  if ! { mkdir -p "${unproved%/*}" && [ -w "${unproved%/*}" ]; } 2>/dev/null; then
    name=$(sha256sum <<<"$top")
    unproved=$cache/pearoar/${name:0:16}/ttm
    is_fresh "$unproved" && return
    stop_without_kit
    mkdir -p "${unproved%/*}" || exit 1
  fi
  make_unproved
}

# Sets `program` to a program that is up to date, and `is_proved`; makes an unproved one where there is none.
find_program() {
  is_proved=yes
  if [ -x "$top/program/ttm" ]; then
    program=$top/program/ttm
    [ -e "$top/program/unproved" ] && is_proved=no
  elif is_fresh "$proved"; then
    program=$proved
  else
    is_proved=no
    find_unproved
    program=$unproved
  fi
  if [ "$is_proved" = no ]; then
    echo "ttm: this program is unproved; ./ttm --build in the repository proves and builds it, for good" >&2
  fi
}

stop_without_kit() {
  if ! command -v rt >/dev/null; then
    echo "ttm: the command rt of the Rattle kit isn't on the PATH" >&2
    exit 1
  fi
}

# Waits until no other launcher builds in the folder $1.
lock() {
  exec 9>"$1/lock"
  if ! flock -n 9; then
    echo "ttm: another ./ttm is building, so this one waits" >&2
    flock 9 &
    child=$!
    wait "$child"
    child=
  fi
}

unlock() {
  exec 9>&-
}

# Runs a build, without the lock and in a group of processes of its own, which `clean` ends. Its status is the build's.
run_build() {
  (trap - INT && exec setsid "$@") 9>&- </dev/null &
  child=$!
  is_group=yes
}

end_build() {
  local status
  wait "$child"
  status=$?
  child=
  is_group=no
  return "$status"
}

# Ends the launcher after a build that failed: says why, from the log $1.
stop_unbuilt() {
  tail -n 15 "$1" >&2
  echo "ttm: the program wasn't built; the whole log is $1" >&2
  exit 1
}

# Marks the program $1 as made from sources of the sum $2, which they were as its build began, and ends the launcher if they aren't any more.
mark() {
  half=$1.made.new
  sums_of "$1" "$2" >"$half" && mv -f "$half" "$1.made"
  half=
  if ! is_fresh "$1"; then
    echo "ttm: sources changed while the program was built; build it again" >&2
    exit 1
  fi
}

# Makes the unproved program at `unproved`, unless another launcher has made it meanwhile.
make_unproved() {
  local folder=${unproved%/*} sum
  stop_without_kit
  lock "$folder"
  if ! is_fresh "$unproved"; then
    rm -rf "$folder"/new.*
    scrap=$folder/new.$$
    mkdir "$scrap"
    sum=$(sum_of_sources)
    build_unproved "$scrap" "$folder/build.log"
    rm -f "$unproved.made" "$unproved.seen"
    mv -f "$scrap/ttm" "$unproved" && mark "$unproved" "$sum"
    rm -rf "$scrap"
  fi
  unlock
}

# Builds into the folder $1 with the log $2, and says how long that takes.
build_unproved() {
  local begun=$SECONDS
  echo "ttm: building the unproved program, once; it takes a minute or more" >&2
  run_build "$top/tools/build/build_unproved.sh" "$1/ttm" >"$2" 2>&1
  while kill -0 "$child" 2>/dev/null; do
    sleep 0.2
    tell_time $((SECONDS - begun))
  done
  [ -t 2 ] && printf '\r\e[K' >&2
  end_build || stop_unbuilt "$2"
  echo "ttm: built in $((SECONDS - begun)) s" >&2
}

# Tells that a build has taken $1 seconds: on a terminal in one line, else every half minute.
told=0
tell_time() {
  [ "$1" -gt "$told" ] || return
  if [ -t 2 ]; then
    told=$1
    printf '\rttm: building for %d s' "$1" >&2
  elif [ "$1" -ge $((told + 30)) ]; then
    told=$1
    echo "ttm: building for $1 s" >&2
  fi
}

# Proves and builds the program.
make_proved() {
  local folder=${proved%/*} sum
  stop_without_kit
  mkdir -p "$folder" || exit 1
  lock "$folder"
  if ! is_fresh "$proved"; then
    rm -f "$proved.made" "$proved.seen"
    sum=$(sum_of_sources)
    run_build "$top/tools/build/build_progress.py" ttm "$folder/build.log"
    end_build || stop_unbuilt "$folder/build.log"
    mark "$proved" "$sum"
  fi
  unlock
  echo "ttm: the program is proved and built" >&2
}
