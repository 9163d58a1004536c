# What the tests of the journal program share: the program, a folder to work in, and journals in hex.
#
# NAME.journal is in hex, a record to a line, `#` comments; NAME.lines is what has to be printed. Where a file holds several
# journals, a line `== TITLE` stands before each of them, in both files alike.
#
# To be read by a script with the program as its first argument, or none for the one of this repository (tests/build.bash).
program=${1:+$(realpath "$1")}
cd "$(dirname "${BASH_SOURCE[0]}")/.."
source tests/build.bash
if [ -z "$program" ]; then
  have_program
  program=$replay
fi
work=$(mktemp -d)
trap 'rm -rf "$work"' EXIT

# fail TEXT: ends the script with that.
fail() {
  echo "$(basename "$0" .sh): $1" >&2
  exit 1
}

# split_parts FILE: titles and texts become the title and the lines of each part of FILE.
split_parts() {
  local line
  titles=()
  texts=()
  while IFS= read -r line; do
    if [[ $line == "== "* ]]; then
      titles+=("${line#== }")
      texts+=("")
    else
      [ ${#titles[@]} -gt 0 ] || { titles=("") && texts=(""); }
      texts[-1]+=$line$'\n'
    fi
  done <"$1"
}

# load NAME: names, hexes and lines become the titles, the bytes and the lines of the journals of NAME.
load() {
  local text
  split_parts <(sed '/^==/!{ s/#.*//; s/[[:blank:]]//g; }; /^$/d' "$1.journal")
  names=("${titles[@]}")
  hexes=()
  for text in "${texts[@]}"; do
    hexes+=("${text//$'\n'/}")
    [[ ${hexes[-1]} =~ ^([0-9a-f][0-9a-f])*$ ]] || fail "$1.journal has something else than bytes in hex"
  done
  split_parts "$1.lines"
  lines=("${texts[@]}")
  [ "${names[*]}" = "${titles[*]}" ] || fail "$1.journal and $1.lines have different titles"
}

# bytes HEX: those bytes.
bytes() {
  printf "$(sed 's/../\\x&/g' <<<"$1")"
}

# put_parts NAME: the bytes of each journal of NAME become $work/TITLE.bytes, and its lines $work/TITLE.lines.
put_parts() {
  local j
  load "$1"
  for ((j = 0; j < ${#names[@]}; j++)); do
    bytes "${hexes[j]}" >"$work/${names[j]}.bytes"
    printf '%s' "${lines[j]}" >"$work/${names[j]}.lines"
  done
}

# repeat TITLE TIMES: its bytes and lines so many times over, a power of two.
repeat() {
  local form times
  for form in bytes lines; do
    for ((times = 1; times < $2; times *= 2)); do
      cat "$work/$1.$form" "$work/$1.$form" >"$work/twice"
      mv "$work/twice" "$work/$1.$form"
    done
  done
}

# compare LABEL STATUS: what was printed is what was asked for. 01 names no exit status, but a signal is an error.
compare() {
  [ "$2" -lt 128 ] || fail "$1: ended by a signal, status $2"
  cmp -s "$work/asked" "$work/printed" && return
  diff "$work/asked" "$work/printed" >&2 || true
  fail "$1: the lines above differ (< asked for, > printed)"
}
