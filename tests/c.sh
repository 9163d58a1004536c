#!/usr/bin/env bash
# The library as C calls it: builds the archive, checks its symbols and the header, then compiles the programs of tests/c
# against both and runs them. The first failure ends it.
set -euo pipefail

cd "$(dirname "${BASH_SOURCE[0]}")/.."
source tests/build.bash
out=target/c
mkdir -p "$out"
build_archive >"$out/archive.log" 2>&1 || { cat "$out/archive.log"; exit 1; }

# Every function that the header declares is in the archive, and the archive needs nothing but C's own copying and filling.
entries=(readable_length writable_length set_up request access reset fetch held lost)
symbols=$(nm "$archive")
for entry in "${entries[@]}"; do
  grep -q " T viommu_$entry\$" <<<"$symbols" || { echo "no viommu_$entry in $archive"; exit 1; }
done
needed=$(awk '$1 == "U" && $2 !~ /^(memcpy|memset|memmove|memcmp)$/ { print $2 }' <<<"$symbols")
[ -z "$needed" ] || { echo "the archive needs: $needed"; exit 1; }
echo "archive: ${#entries[@]} entries; no symbol needed but memcpy, memset, memmove, memcmp"

# The header stands alone, in C99 and, where there is a compiler, in C++.
gcc -std=c99 -pedantic -Wall -Wextra -Werror -fsyntax-only -x c include/viommu.h
languages="C99"
if command -v g++ >/dev/null; then
  g++ -std=c++11 -pedantic -Wall -Wextra -Werror -fsyntax-only -x c++ include/viommu.h
  languages="C99 and C++11"
fi
echo "header: $languages"

# build PROGRAM FLAG.. -- FILE..: compiles the files of tests/c to target/c/PROGRAM
build() {
  local program=$1 flags=()
  shift
  while [ "$1" != -- ]; do flags+=("$1"); shift; done
  shift
  gcc -std=c11 -O2 -Wall -Wextra -Werror "${flags[@]}" -Iinclude "${@/#/tests/c/}" "$archive" -o "$out/$program"
}

build lengths -- lengths.c
"$out/lengths"

build layout -- layout.c distinct.c driver.c requests.c
"$out/layout"

build handed_in -- handed_in.c
"$out/handed_in"

build guest_numbers -- guest_numbers.c driver.c requests.c shown.c
"$out/guest_numbers"

build wide_lengths -- wide_lengths.c driver.c requests.c shown.c
"$out/wide_lengths"

build edges -- edges.c driver.c requests.c
"$out/edges"

build lookups -- lookups.c lookups_plan.c driver.c requests.c
"$out/lookups"

build stack -pthread -- stack.c stack_calls.c stack_devices.c driver.c requests.c
"$out/stack"

build worked_run -- worked_run.c requests.c
"$out/worked_run" | diff tests/c/worked_run.expected -
echo "worked run: the lines of document 01"

# show PROGRAM FILE..: what no journal shows, or not byte for byte, held to lines worked out from documents 01 and 02
show() {
  local program=$1
  build "$program" -- "$program.c" shown.c "${@:2}"
  "$out/$program" | diff "tests/c/$program.expected" -
  echo "$program: the lines expected"
}

show show_configuration show_configuration_regions.c show_configuration_line.c
show show_soundness show_soundness_line.c show_soundness_settings.c show_soundness_places.c show_soundness_records.c \
  show_soundness_faults.c show_soundness_wide.c show_soundness_regions.c driver.c requests.c
show show_regions show_regions_probe.c show_regions_map.c show_regions_attach.c driver.c requests.c
show show_lengths show_lengths_tables.c show_lengths_parts.c driver.c requests.c
show show_lost garbage_effect.c garbage_wanted.c
show show_buffers requests.c garbage_effect.c garbage_wanted.c
show show_table requests.c

wanted=(garbage_good.c garbage_regions.c garbage_sound.c garbage_wanted.c garbage_probe.c garbage_effect.c garbage_call.c
  garbage_damage.c lent.c requests.c)
build bits -- bits.c bits_kinds.c distinct.c driver.c "${wanted[@]}"
"$out/bits"

garbage=(garbage.c garbage_set_up.c garbage_draw.c garbage_queries.c garbage_break.c garbage_break_configuration.c
  garbage_break_records.c garbage_break_places.c garbage_break_regions.c "${wanted[@]}")
build garbage -- "${garbage[@]}"
"$out/garbage" "${1:-1}"

# The same with gcc's checks of the C side, from another seed, where gcc has them.
checks=(-g -fsanitize=undefined,address -fno-sanitize-recover=all)
if echo 'int main(void) { return 0; }' | gcc "${checks[@]}" -x c - -o "$out/checks" 2>/dev/null; then
  build garbage_checked "${checks[@]}" -- "${garbage[@]}"
  "$out/garbage_checked" "$((${1:-1} + 1))" | tail -n 1
else
  echo "garbage: gcc has no sanitizers here, so it ran without them"
fi
