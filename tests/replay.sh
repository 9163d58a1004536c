#!/usr/bin/env bash
# The journal program against journals worked out by hand from document 01: each is fed whole and byte by byte, and every
# byte that the program prints is compared. Then a long journal has to be read in little memory.
# The program is crates/replay, or the first argument.
#
# tests/journals.bash says how journals are written down.
set -eu
source "$(dirname "${BASH_SOURCE[0]}")/journals.bash"

# A pipe with O_DIRECT keeps writes apart: each read gets one byte. Where the system has no such pipes, single writes must do.
apart=(bs=1 oflag=direct)
[ "$(printf xy | dd "${apart[@]}" 2>/dev/null | cat)" = xy ] || apart=(bs=1)

journals=0
cases=0
for file in tests/journals/*.journal; do
  load "${file%.journal}"
  for ((j = 0; j < ${#names[@]}; j++)); do
    label=$(basename "$file" .journal)${names[j]:+: ${names[j]}}
    bytes "${hexes[j]}" >"$work/journal"
    printf '%s' "${lines[j]}" >"$work/asked"
    status=0
    "$program" <"$work/journal" >"$work/printed" || status=$?
    compare "$label" "$status"
    status=0
    dd "${apart[@]}" <"$work/journal" 2>/dev/null | "$program" >"$work/printed" || status=$?
    compare "$label, byte by byte" "$status"
    journals=$((journals + 1))
  done
  cases=$((cases + 1))
done
echo "replay: $cases cases, $journals journals, each whole and byte by byte"

# The long journal: a start, a block of calls 350 times 4,096 times over, and an unknown kind. The block has every kind of
# call but a PROBE and leaves the device as it found it, so that its lines repeat too. Its 145 bytes are an odd number, so that a reader's
# buffer ends at each of them in turn. 208 MB in 64 MiB leave no room to keep the journal or its lines, and the offset in the
# last line has counted every byte.
put_parts tests/long
repeat block 4096

# long FORM: the long journal's bytes, or the lines that it asks for.
long() {
  local i
  local parts=("$work/start.$1")
  for ((i = 0; i < 350; i++)); do
    parts+=("$work/block.$1")
  done
  cat "${parts[@]}" "$work/end.$1"
}

long bytes | (ulimit -v 65536 && exec "$program") | cmp - <(long lines) ||
  fail "the long journal: its lines differ, or 64 MiB were not enough"
echo "replay: a long journal, $(long bytes | wc -c) bytes and $(long lines | wc -l) lines, in 64 MiB"
