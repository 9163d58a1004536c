#!/usr/bin/env bash
# What the gate says of must-fail edits of every kind, most of which do not fail: `.ci/run` tries those of a crate of two functions, in a
# folder of its own that has no tests beside it.
set -euo pipefail
cd "$(dirname "${BASH_SOURCE[0]}")/.."
folder=$(mktemp -d)
trap 'rm -rf "$folder"' EXIT
mkdir -p "$folder/.ci" "$folder/.git" "$folder/crates/numbers/src"
cp .ci/run "$folder/.ci/run"
cd "$folder"
echo numbers: >crates.txt
cat >crates/numbers/src/lib.rt <<'END'
// Two functions.
#![tactic(auto)]

ghost use Rattle.std.specs.Prelude.{◌≡◌};

// Seven.
pub fn seven() -> u64
    ensures { result ≡ 7 }
{
    7
}

// What seven gives.
pub fn again() -> u64
    ensures { result ≡ 7 }
{
    let n = seven();
    n
}
END

# edits CRATE/LABEL OLD NEW ..: these edits of their crates' root files and no others
edits() {
  rm -rf crates/*/must-fail
  while [ $# -gt 0 ]; do
    mkdir -p "crates/${1%/*}/must-fail"
    printf 'file: src/lib.rt\nold: %s\nnew: %s\n' "$2" "$3" >"crates/${1%/*}/must-fail/${1#*/}.edit"
    shift 3
  done
}

# asked STATUS: the gate ends with that status; its last line, and after it what it says of each edit, are what standard input has
asked() {
  local status=0
  cat >wanted
  .ci/run >said 2>&1 </dev/null || status=$?
  {
    tail -n 1 said
    sed -n -e 's/^rt: must-fail \([^ ]*\)\.edit: \(refused\|NOT REFUSED\|BAD EDIT\|NOT TRIED\).*/\1: \2/p' \
      -e 's/^FAILED: edit \([^ ]*\), which was not tried$/\1: no line/p' said | LC_ALL=C sort
  } >found
  diff wanted found && [ "$status" -eq "$1" ] || { cat said; echo "status $status, where $1 is asked"; exit 1; }
}

eight=(numbers/eight '    7' '    8')
harmless=(numbers/harmless_alone '// Seven.' '// Seven, always.')
no_program=(numbers/no_program '    7' '    7 +')
no_such_text=(numbers/no_such_text '    9' '    8')
untried=(unlisted/untried '    7' '    8')

edits "${eight[@]}" "${harmless[@]}" numbers/harmless_beside_eight '    let n = seven();' '    let m = seven(); let n = m;' \
  "${no_program[@]}" "${no_such_text[@]}" "${untried[@]}"
asked 1 <<'END'
2 passed, 5 failed
numbers/eight: refused
numbers/harmless_alone: NOT REFUSED
numbers/harmless_beside_eight: NOT REFUSED
numbers/no_program: BAD EDIT
numbers/no_such_text: BAD EDIT
unlisted/untried: no line
END

# Each of them is enough for the gate to fail.
edits "${eight[@]}" "${harmless[@]}"
asked 1 <<'END'
2 passed, 1 failed
numbers/eight: refused
numbers/harmless_alone: NOT REFUSED
END
edits "${eight[@]}" "${no_program[@]}"
asked 1 <<'END'
2 passed, 1 failed
numbers/eight: refused
numbers/no_program: BAD EDIT
END
edits "${eight[@]}" "${no_such_text[@]}"
asked 1 <<'END'
2 passed, 1 failed
numbers/eight: refused
numbers/no_such_text: BAD EDIT
END
edits "${eight[@]}" "${untried[@]}"
asked 1 <<'END'
2 passed, 1 failed
numbers/eight: refused
unlisted/untried: no line
END

edits "${eight[@]}"
asked 0 <<'END'
2 passed, 0 failed
numbers/eight: refused
END
echo "edits: one refused, five that the gate fails for"
