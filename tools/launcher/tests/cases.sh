# What tools/gate/check_launcher.sh tries, which sources this file.

# Words that are answered without a program and without rt.
check_words() {
  local whole=$room/tools
  expect "help without rt" 0 "$(cat "$room/help" 2>/dev/null || PATH=$whole "$room/ttm" --help)" 0 --help
  expect "the version without rt" 0 "ttm 0.1.0" 0 --version
  for words in Sim "" "sim x y" "sim --turns" "sim --turns 012" "sim --turns x" gen "gen 03" "run a b" "check a b c" "--help sim" "sim --fast" "plain x"; do
    expect "the words '$words'" 2 usage 1 $words
  done
  expect "a file that isn't there" 1 "" 1 sim nothing.ttm
  expect "a folder as a file" 1 "" 1 sim "$room"
  expect "a program without rt" 1 "" 1 sim
  says "a program without rt" "rt of the Rattle kit isn't on the PATH"
  tries "words" 0
}

check_first_build() {
  expect "the first run" 0 "unproved: sim" 3 sim
  says "the first run" "unproved; ./ttm --build"
  tries "the first run" 1
  sleep 2.1 # since files that were changed just now are looked at again
  expect "the second run" 0 "unproved: run" 1 run
  rm -f "$room/sums"
  expect "the third run" 0 "unproved: gen 7" 1 gen 7
  [ ! -e "$room/sums" ] || fault "the third run: sums were taken, though nothing has changed"
  local whole=$room/tools
  expect "a built program without rt" 0 "unproved: sim" 1 sim
  expect "where the program is" 0 "$room/copy/crates/ttm/out/unproved/ttm" 1 --program
  tries "later runs" 0
}

check_fresh_or_not() {
  touch -d '1 hour ago' "$room/copy/crates/base/src/main.rt"
  rm -f "$room/sums"
  expect "a file was touched" 0 "unproved: sim" 1 sim
  [ -e "$room/sums" ] || fault "a file was touched: no sums were taken"
  echo "fn main() { beside(); }" >"$room/copy/crates/beside/src/main.rt"
  expect "a source beside the program has changed" 0 "unproved: sim" 1 sim
  tries "nothing has changed" 0
  echo 'echo more' >>"$room/copy/crates/ttm/out/unproved/ttm"
  expect "a program that isn't what was built" 0 "unproved: sim" 3 sim
  tries "a program that isn't what was built" 1
  rm "$room/copy/crates/ttm/out/unproved/ttm"
  expect "no program" 0 "unproved: sim" 3 sim
  tries "no program" 1
}

# Each change of the sources begins a build, also within one tick of the clock and with the time of the file kept.
check_changed_sources() {
  local source=$room/copy/crates/base/src/main.rt
  echo "fn main() { a(); }" >"$source"
  expect "a source was edited" 0 "unproved: sim" 3 sim
  sed -i 's/a()/b()/' "$source"
  expect "a source was edited at once again" 0 "unproved: sim" 3 sim
  sleep 2.1
  expect "nothing was edited" 0 "unproved: sim" 1 sim
  touch -r "$source" "$room/time"
  sed -i 's/b()/c()/' "$source"
  touch -r "$room/time" "$source"
  expect "a source was edited and its time kept" 0 "unproved: sim" 3 sim
  echo "fn more() {}" >"$room/copy/crates/base/src/more.rt"
  expect "a source was added" 0 "unproved: sim" 3 sim
  rm "$room/copy/crates/base/src/more.rt"
  expect "a source was removed" 0 "unproved: sim" 3 sim
  sed -i 's/^ttm: base$/ttm: base beside/' "$room/copy/crates.txt"
  expect "the program stands on another crate" 0 "unproved: sim" 3 sim
  tries "changed sources" 6
}

check_failed_builds() {
  echo "fn main() { d(); }" >"$room/copy/crates/base/src/main.rt"
  echo none >"$room/how"
  expect "a build that fails" 1 "" 3 sim
  says "a build that fails" "error: no such name"
  says "a build that fails" "crates/ttm/out/unproved/build.log"
  echo cut >"$room/how"
  expect "a build that is cut off" 1 "" 3 sim
  says "a build that is cut off" "error: cut off"
  leaves_nothing "a build that is cut off"
  echo whole >"$room/how"
  expect "a build after one that failed" 0 "unproved: sim" 3 sim
  tries "failed builds" 3
}

check_proved_builds() {
  expect "a proved build" 0 "" 2 --build
  expect "a proved run" 0 "proved: sim" 0 sim
  expect "nothing is left to prove" 0 "" 1 --build
  echo "fn main() { e(); }" >"$room/copy/crates/base/src/main.rt"
  expect "a proved program that is too old" 0 "unproved: sim" 3 sim
  for how in none cut; do
    echo "$how" >"$room/how"
    expect "a proof that fails ($how)" 1 "" 4 --build
    expect "after a proof that failed ($how)" 0 "unproved: sim" 1 sim
  done
  echo whole >"$room/how"
  expect "a proof after one that failed" 0 "" 2 --build
  echo 'echo more' >>"$room/copy/crates/ttm/out/ttm"
  expect "a proved program that isn't what was built" 0 "unproved: sim" 1 sim
  rm "$room/copy/crates/ttm/out/ttm"
  tries "proofs" 1
}

# once FILE TEXT COMMAND ..: does this as soon as a file has a text
once() {
  local file=$1 text=$2
  shift 2
  for _moment in $(seq 600); do
    grep -qF -- "$text" "$file" 2>/dev/null && break
    sleep 0.05
  done
  "$@"
}

# The second waits, and takes what the first one has built.
check_two_at_once() {
  local first
  echo held >"$room/how"
  rm -f "$room/said" "$room/go"
  echo "fn main() { f(); }" >"$room/copy/crates/base/src/main.rt"
  PATH=$whole "$room/ttm" sim >"$room/first" 2>&1 </dev/null &
  first=$!
  once "$room/said" "this one waits" touch "$room/go" &
  once "$room/tries" . expect "the second of two" 0 "unproved: sim" 2 sim
  says "the second of two" "this one waits"
  wait "$first" || fault "the first of two: status $?"
  grep -q "unproved: sim" "$room/first" || fault "the first of two doesn't run"
  tries "two at once" 1
}

edit_and_go() {
  echo "fn main() { f2(); }" >"$room/copy/crates/base/src/main.rt"
  touch "$room/go"
}

check_edited_meanwhile() {
  rm -f "$room/go"
  echo "fn main() { f1(); }" >"$room/copy/crates/base/src/main.rt"
  once "$room/tries" . edit_and_go &
  expect "a source was edited while the program was built" 1 "" 3 sim
  says "a source was edited while the program was built" "sources changed"
  expect "a build after that" 0 "unproved: sim" 3 sim
  tries "edited meanwhile" 2
}

# interrupt SIGNAL STATUS FILE WORD ..: the status of a run whose group of processes gets a signal, once there is this file
interrupt() {
  local signal=$1 wanted=$2 file=$3 status
  shift 3
  rm -f "$room/waits" "$room/tries"
  PATH=$whole "$room/ttm" "$@" >"$room/first" 2>&1 &
  for _moment in $(seq 300); do
    [ -e "$file" ] && break
    sleep 0.1
  done
  [ -e "$file" ] || fault "$signal: no file ${file##*/}"
  kill "-$signal" -- "-$!"
  { wait "$!"; } 2>/dev/null
  status=$?
  [ "$status" -eq "$wanted" ] || fault "$signal after ${file##*/}: status $status, and not $wanted"
  [ ! -e "$room/waits" ] || ! kill -0 "$(cat "$room/waits")" 2>/dev/null || fault "$signal: the program goes on"
  leaves_nothing "$signal after ${file##*/}"
}

# While a program is built, while one runs, and while its input is awaited.
check_interrupted() {
  rm -f "$room/go"
  echo "fn main() { g(); }" >"$room/copy/crates/base/src/main.rt"
  interrupt INT 130 "$room/tries" sim </dev/null
  interrupt TERM 143 "$room/tries" sim </dev/null
  echo whole >"$room/how"
  rm -f "$room/tries"
  expect "a build after one that was interrupted" 0 "unproved: sim" 3 sim
  tries "a build after one that was interrupted" 1
  echo wait >"$room/text"
  interrupt INT 130 "$room/waits" sim "$room/text" </dev/null
  interrupt TERM 143 "$room/waits" sim < <(cat "$room/text")
  mkfifo "$room/pipe"
  sleep 10 >"$room/pipe" &
  local writer=$!
  interrupt INT 130 "$room/how" sim <"$room/pipe"
  { kill "$writer" && wait "$writer"; } 2>/dev/null
  rm "$room/pipe"
}

check_inputs() {
  local text=$'one\ntwo\nstatus 7' input=$room/text
  echo "$text" >"$room/text"
  expect "a file on standard input" 7 "unproved: sim"$'\n'"$text" 1 sim
  expect "a file that is named" 7 "unproved: sim --turns 3"$'\n'"$text" 1 sim --turns 3 "$room/text"
  echo last >"$room/other"
  expect "a script and its report" 7 "unproved: check"$'\n'"$text"$'\n'last 1 check "$room/text" "$room/other"
  [ "$(PATH=$whole "$room/ttm" run < <(cat "$room/text") 2>/dev/null)" = "unproved: run"$'\n'"$text" ] || fault "a pipe on standard input"
  [ "$({ read -r _; PATH=$whole "$room/ttm" run 2>/dev/null; } <"$room/text")" = $'unproved: run\ntwo\nstatus 7' ] || fault "the rest of a file"
  [ "$(PATH=$whole "$room/ttm" run 2>/dev/null <&-)" = "unproved: run" ] || fault "no standard input"
  input=$room
  expect "a folder on standard input" 0 "unproved: sim" 2 sim
}

check_comments() {
  local input=$room/text
  printf '# one\ntwo # three # four\n  # five\nsix#seven  \neight   #' >"$room/text"
  expect "comments on standard input" 0 $'unproved: sim\ntwo\nsix#seven  \neight' 1 sim
  expect "comments in a file" 0 $'unproved: run\ntwo\nsix#seven  \neight' 1 run "$room/text"
}

check_explanations() {
  local input=$room/text
  printf '# one\nstatus 3\n' >"$room/text"
  expect "a bad script" 3 $'unproved: sim\nstatus 3' 2 sim
  says "a bad script" "diagnose sim 3 standard input: # one / unproved: sim"
  expect "a bad script in a file" 3 $'unproved: run\nstatus 3' 2 run "$room/text"
  says "a bad script in a file" "diagnose run 3 $room/text: # one / unproved: run"
  printf 'status 8\n' >"$room/text"
  [ "$(PATH=$whole "$room/ttm" check < <(cat "$room/text") 2>"$room/said")" = $'unproved: check\nstatus 8' ] || fault "a report that isn't right"
  says "a report that isn't right" "diagnose check 8 standard input: status 8 / unproved: check"
}

check_viewers() {
  expect "a viewer that needs no program" 2 "view stats json x none" 0 stats json x
  expect "a viewer that runs the program" 1 "view outcomes 5 program" 1 outcomes 5
}

check_no_python() {
  local whole=$room/tools input=$room/text
  printf '# one\nstatus 3\n' >"$room/text"
  expect "comments without python3" 3 $'unproved: sim\nstatus 3' 1 sim
  expect "a viewer without python3" 1 "" 1 picture
}

# Where nothing can be written beside the sources, the program is kept in the user's cache.
check_read_only() {
  mv "$room/copy/crates/ttm/out" "$room/out"
  echo "no folder" >"$room/copy/crates/ttm/out"
  expect "the first run of sources that are only read" 0 "unproved: sim" 3 sim
  expect "the second run of sources that are only read" 0 "unproved: sim" 1 sim
  [ "$(find "$room/cache/pearoar" -name ttm | wc -l)" -eq 1 ] || fault "the cache doesn't have the program"
  rm "$room/copy/crates/ttm/out"
  mv "$room/out" "$room/copy/crates/ttm/out"
  tries "sources that are only read" 1
}

check_installed() {
  local place=$room/place/usr/local install=(make -s -C "$room/copy" install "DESTDIR=$room/place")
  command -v make >/dev/null || install=("$room/copy/tools/build/install.sh" "$place")
  PATH=$whole "${install[@]}" >"$room/said" 2>&1 </dev/null || fault "make install: $(cat "$room/said")"
  for file in share/man/man1/ttm.1 share/bash-completion/completions/ttm share/vim/vimfiles/syntax/ttm.vim; do
    [ -f "$place/$file" ] || fault "make install: no file $file"
  done
  rm "$room/ttm"
  ln -s "$place/bin/ttm" "$room/ttm"
  mv "$room/copy" "$room/away"
  local whole=$room/tools
  expect "an installed program" 0 "unproved: sim" 1 sim
  expect "an installed version" 0 "ttm 0.1.0" 0 --version
  expect "an installed program isn't built" 1 "" 1 --build
  whole=$room/bin:$room/tools
  expect "an installed viewer" 2 "view stats json x none" 0 stats json x
  mv "$room/away" "$room/copy"
}
