# Read by the scripts that run a program of crates/, such as ./replay. Each is three lines, of which the third calls
#   program NAME FILES INPUT TEXT "$@"
# NAME   the program. It is proved and built first where that was not done yet.
# FILES  the files that it takes, as --help shows them: 'FIRST SECOND' are both needed, '[FILE]' may be left out.
# INPUT  what it reads on standard input where no file is named, for who waits at a terminal.
# TEXT   what it does, for --help.
# A program of crates/ writes to standard error where something failed, and only then. So the status is
#   0  a result was printed (a line `bad` is a result)
#   1  something could not be read or written
#   2  wrong use: the program was not run
#   3  the program could not be built, or the toolchain is missing or another one
set -euo pipefail
root=$(cd "$(dirname "${BASH_SOURCE[0]}")/.." && pwd)

help() {
  printf 'usage: ./%s %s\n\n%s\n' "$1" "$2" "$4"
  [[ $2 != \[* ]] || printf 'Where no file is named, it reads %s from standard input.\n' "$3"
  printf '\nExit status: 0 for a result (a line `bad` is one), 1 for what could not be read or written,\n'
  printf '2 for wrong use, 3 where the program could not be built.\n'
}

wrong_use() {
  printf '%s: %s\nusage: ./%s %s, or ./%s --help\n' "$1" "$3" "$1" "$2" "$1" >&2
  exit 2
}

# Refuses what no program takes: an option other than --help, too few files or too many.
check_use() {
  local name=$1 files=$2 word words needed=0
  shift 4
  for word in "$@"; do
    case $word in -*) wrong_use "$name" "$files" "there is no option $word (a file of that name is ./$word)" ;; esac
  done
  read -ra words <<< "$files"
  for word in "${words[@]}"; do [[ $word == \[* ]] || needed=$((needed + 1)); done
  [ $# -ge "$needed" ] || wrong_use "$name" "$files" "$# files are named, and it takes $needed"
  [ $# -le "${#words[@]}" ] || wrong_use "$name" "$files" "$# files are named, and it takes ${#words[@]}"
}

# The crates that a program is built from, itself among them, one to a line.
crates_of() {
  awk -v want="$1" '
    { sub(/#.*/, ""); at = index($0, ":"); if (!at) next; name = substr($0, 1, at - 1); gsub(/ /, "", name); uses[name] = substr($0, at + 1) }
    function add(name,   parts, count, i) {
      if (!(name in uses) || name in seen) return
      seen[name] = 1
      count = split(uses[name], parts, " ")
      for (i = 1; i <= count; i++) add(parts[i])
      print name
    }
    END { add(want) }' "$root/crates.txt"
}

# Reads what `rt run` says, keeps it in the file $1, and says after each crate that had to be proved how far it is: $3 were not proved yet.
progress() {
  local line crate='' proved=0 missing=$3 began=$SECONDS
  while IFS= read -r line; do
    printf '%s\n' "$line" >> "$1"
    case $line in
      'rt: chose '*' for '*) crate=${line##* } ;;
      logic=proved*)
        proved=$((proved + 1))
        printf '%s: %s of %s crates proved, %s s (%s)\n' "$2" "$proved" "$missing" "$((SECONDS - began))" "$crate" >&2
        ;;
    esac
  done
}

# Is the crate proved and built already?
is_built() { [ -f "$root/crates/$1/out/rlib/stamp" ] || [ -x "$root/crates/$1/out/$1" ]; }

# Proves and builds the program where that was not done yet. Two at once would disturb each other, so the second waits.
build() {
  local name=$1 said all missing
  (. "$root/tests/toolchain.sh") || exit 3
  mkdir -p "$root/target"
  exec 9> "$root/target/building"
  if ! flock -n 9; then
    echo "$name: another program is being built in this folder; waiting for it" >&2
    flock 9
  fi
  all=$(crates_of "$name" | wc -l)
  missing=$(for crate in $(crates_of "$name"); do is_built "$crate" || echo "$crate"; done | wc -l)
  if [ "$missing" -gt 1 ]; then
    echo "$name: the first run proves what it is built from: $missing of $all crates, some minutes on two cores" >&2
  fi
  said=$(mktemp)
  # `rt run` proves, builds and runs the program, here on no bytes, of which it prints at most a line; what rt says goes to standard error.
  if ! (cd "$root/crates/$name" && rt run 2>&1 > /dev/null < /dev/null) | progress "$said" "$name" "$missing"; then
    cat "$said" >&2
    rm -f "$said"
    exit 3
  fi
  rm -f "$said"
  exec 9>&-
}

program() {
  local name=$1 input=$3 word fd status=0 words=()
  for word in "${@:5}"; do
    if [ "$word" = --help ]; then help "$@"; exit 0; fi
  done
  check_use "$@"
  shift 4
  build "$name"
  . "$root/tests/machine.sh"
  if [ $# -eq 0 ] && [ -t 0 ]; then
    echo "$name: waiting for $input on standard input (Ctrl-D ends it; ./$name --help says more)" >&2
  fi
  # The program names files by text. One whose name is no UTF-8 is opened here, and handed on by its number.
  for word in "$@"; do
    if command -v iconv > /dev/null && ! printf %s "$word" | iconv -f UTF-8 -t UTF-8 > /dev/null 2>&1; then
      if [ ! -e "$word" ]; then echo "$word: No such file or directory" >&2; exit 1; fi
      if [ -d "$word" ]; then echo "$word: Is a directory" >&2; exit 1; fi
      if [ ! -r "$word" ]; then echo "$word: Permission denied" >&2; exit 1; fi
      exec {fd}< "$word"
      word=/dev/fd/$fd
    fi
    words+=("$word")
  done
  said=$(mktemp)
  trap 'rm -f "$said"' EXIT
  $run "$root/crates/$name/out/$name" "${words[@]}" 2> "$said" || status=$?
  if [ -s "$said" ]; then
    cat "$said" >&2
    exit 1
  fi
  if [ "$status" -ne 0 ]; then
    echo "$name: the program ended with status $status" >&2
    exit 1
  fi
}
