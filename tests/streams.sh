#!/usr/bin/env bash
# The journal program's reading and writing, of which nothing is proved: very many reads of one byte each, reads that fail, and
# writes that fail (docs/DECISIONS.md, 23). Where one fails, the program may end with any status, but not by a signal, and may say so on
# standard error; what it prints is compared. No test waits for a time to pass.
# The program is crates/replay, or the first argument. tests/journals.bash says how journals are written down.
set -eu
source "$(dirname "${BASH_SOURCE[0]}")/journals.bash"
feed=$work/feed
gcc -std=c11 -O2 -Wall -Wextra -Werror tests/c/feed.c -o "$feed"
put_parts tests/long

# see LABEL: ends the script with what the command has said on standard error.
see() {
  cat "$work/said" >&2
  fail "$1: see above"
}

# check LABEL ASKED COMMAND..: the command succeeds and prints what the file ASKED holds.
check() {
  local label=$1
  cat "$2" >"$work/asked"
  shift 2
  "$@" >"$work/printed" 2>"$work/said" || see "$label"
  compare "$label" 0
}

# A read that fails is no end of the journal: the lines of what was read come, and no last line, whether a record is cut or not.
: >"$work/nothing"
from_folder() { "$program" </ || [ $? -lt 128 ]; }
from_closed() { "$program" <&- || [ $? -lt 128 ]; }
check "standard input is a folder" "$work/nothing" from_folder
check "standard input is closed" "$work/nothing" from_closed
check "the first read fails" "$work/nothing" "$feed" broken "$program" "$work/nothing"
cat "$work"/{start,block}.lines >"$work/worked.lines"
cat "$work"/{start,block}.bytes >"$work/worked.bytes"
head -c 10 "$work/block.bytes" | cat "$work/worked.bytes" - >"$work/cut.bytes"
check "a read fails between two records" "$work/worked.lines" "$feed" broken "$program" "$work/worked.bytes"
check "a read fails within a record" "$work/worked.lines" "$feed" broken "$program" "$work/cut.bytes"
echo "streams: reads that fail, after which there is no last line"

# Where lines can't be written, the program reads no more of its journal: `feed` finds the second part unread.
for how in full closed unread; do
  check "output that is $how" "$work/nothing" "$feed" "$how" "$program" "$work/worked.bytes" "$work/block.bytes"
done

# beginning LABEL FIRST SECOND: where long writes fail and short ones do not, no line follows a missing one.
beginning() {
  "$feed" short "$program" "$2" "$3" >"$work/printed" 2>"$work/said" || see "$1"
  head -c "$(wc -c <"$work/printed")" "$work/asked" | cmp -s - "$work/printed" ||
    fail "$1: what was printed does not begin the lines asked for: $(head -c 100 "$work/printed")"
}

repeat block 128
cat "$work"/{start,block}.bytes >"$work/first"
cat "$work"/{start,block,block}.lines - <<<E >"$work/asked"
beginning "a part of the lines can't be written" "$work/first" "$work/block.bytes"
cat "$work"/{start,block,end}.bytes >"$work/first"
cat "$work"/{start,block}.lines - <<<"bad journal at $((58 + 128 * 145))" >"$work/asked"
beginning "the lines before the last can't be written" "$work/first" "$work/block.bytes"
echo "streams: writes that fail, after which nothing is read and nothing printed"

# Every byte in a read of its own, so that the program goes round at least as often as there are bytes.
repeat block 16
cat "$work"/{start,block,end}.bytes >"$work/journal"
cat "$work"/{start,block}.lines - <<<"bad journal at $((58 + 128 * 16 * 145))" >"$work/lines"
check "byte by byte" "$work/lines" "$feed" apart "$program" "$work/journal"
echo "streams: $(wc -c <"$work/journal") reads of one byte each"
