# Where the program and the archive lie, and how they are made. For tests/*.sh, bench/run and bin/replay to read.
#
# `rt ci` leaves the program where `rt run` puts it. Of the library for C it leaves no archive, and `rt lib` takes nothing from the
# libraries that `rt ci` leaves: it would prove all crates below once more, which takes as long as proving them did. So in the gate, with GATE
# set, the archive is made over the libraries that `rt ci` has just proved, by the command that `rt lib` ends with.
top=$(cd "$(dirname "${BASH_SOURCE[0]}")/.." && pwd)
replay=$top/crates/replay/out/replay
archive_crate=viommu
archive=$top/crates/$archive_crate/out/lib$archive_crate.a

# build_program: proves the program, builds it where a file has changed since, and runs it on no journal. What it prints belongs to none.
build_program() {
  (cd "$top/crates/replay" && rt run </dev/null) >&2
}

# have_program: builds the program where there is none.
have_program() {
  [ ! -x "$replay" ] || return 0
  [ -z "${GATE:-}" ] || { echo "rt ci has left no program" >&2; return 1; }
  build_program
}

# build_archive: proves the library for C and makes its archive.
build_archive() {
  if [ -n "${GATE:-}" ] && compgen -G "$top/crates/*/out/rlib/*.rlib" >/dev/null && ! compgen -G "$top/crates/*/out/rlib/stamp" >/dev/null; then
    build_archive_over_libraries
  else
    (cd "$top/crates/$archive_crate" && rt lib)
  fi
}

# build_archive_over_libraries: the same over the libraries in crates/*/out/rlib as `rt ci` has left them. (Those of `rt check` and
# `rt lib` have a stamp beside them, and may be older than the files: a checkout that holds such takes `rt lib`, which is short there.)
build_archive_over_libraries() {
  local kit words dep folder
  kit=$(dirname "$(rt doc)")
  words=(--crate-name "$archive_crate" src/lib.rt --crate-type staticlib --extern "std=$kit/rlibs/std.rlib" -L "dependency=$kit/rlibs")
  for dep in $(sed -n "s/^$archive_crate  *staticlib *: *//p" "$top/crates.txt"); do
    folder=$top/crates/$dep/out/rlib
    [ -d "$top/crates/$dep" ] || folder=$kit/rlibs
    words+=(--extern "$dep=$folder/$dep.rlib")
  done
  for folder in "$top"/crates/*/out/rlib; do words+=(-L "dependency=$folder"); done
  words+=(--antt-project "$kit/rattle/logic/antt-project.json" --logic-built "$kit/logic_built" --toolchain "$kit/toolchain" --backend llvm)
  mkdir -p "$top/crates/$archive_crate/out"
  (cd "$top/crates/$archive_crate" && "$kit/bin/rattle" build "${words[@]}" -o "$archive")
}
