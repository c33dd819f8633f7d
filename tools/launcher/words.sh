# The words of ./ttm: their table, the help text, and how the program's words are split. Sourced by ./ttm.

# Sets `kind` to who answers the word $1, or to nothing where it isn't listed.
find_kind() {
  local who form
  kind=
  while IFS='|' read -r who form _; do
    form=${form# }
    case $who in
      program* | viewer* | launcher*) [ "${form%% *}" = "$1" ] && kind=${who% } && return ;;
    esac
  done <"$commands"
}

# Writes a text to standard output. Ends with the program's status of a failed write where that can't be done.
tell() {
  printf '%s\n' "$1" 2>/dev/null || exit 5
}

tell_version() {
  local who form
  while IFS='|' read -r who form _; do
    if [ "${who% }" = version ]; then
      form=${form# }
      tell "ttm ${form% }"
    fi
  done <"$commands"
}

tell_help() {
  local who form what text="Runs scripts of a graphics memory manager (TTM), and shows what they report."$'\n'
  while IFS='|' read -r who form what; do
    case $who in
      program* | viewer* | launcher*) form=${form# } text+=$'\n'"ttm ${form% }"$'\n'"    ${what# }" ;;
    esac
  done <"$commands"
  tell "$text

FILE is a script, whose lines may begin with # or end with ' # ..'. REPORT is
what the program wrote for it; without REPORT, FILE holds both, the report after
the script. Without FILE, standard input is read:

    ttm sim examples/one_page_eviction.ttm
    ttm check examples/one_page_eviction.ttm examples/one_page_eviction.report
    ttm sim --turns 100 < examples/one_page_eviction.ttm

The exit status of sim, run, gen and check is 0 (done), 2 (unknown words), 3 (the
input is no script), 4 (a read failed), 5 (a write failed), 6 (no memory), 7 (not
over after N turns) or 8 (the report isn't right); 1 says that the launcher or a
viewer failed, 130 that it was interrupted. docs/SPECIFICATION.md describes
scripts and reports."
}

# Answers words that aren't listed as the program does.
refuse_words() {
  echo "ttm: these words aren't known: $*; ./ttm --help lists those that are" >&2
  tell usage
  exit 2
}

is_number() {
  [[ $1 =~ ^(0|[1-9][0-9]{0,19})$ ]]
}

# Splits the words of the proved program into `words`, which it takes itself, and `files`, which it is to read.
split_words() {
  local all=("$@") most
  words=("$1")
  shift
  case ${words[0]} in
    gen)
      most=0
      is_number "${1-}" || refuse_words "${all[@]}"
      words+=("$1")
      shift
      ;;
    sim)
      most=1
      if [ "${1-}" = --turns ]; then
        is_number "${2-}" || refuse_words "${all[@]}"
        words+=(--turns "$2")
        shift 2
      fi
      ;;
    run) most=1 ;;
    check) most=2 ;;
  esac
  files=("$@")
  [ $# -le "$most" ] || refuse_words "${all[@]}"
  for file in "$@"; do
    case $file in
      -*) refuse_words "${all[@]}" ;;
    esac
    if [ ! -r "$file" ] || [ -d "$file" ]; then
      echo "ttm: $file is no file that can be read" >&2
      exit 1
    fi
  done
}
