#!/usr/bin/env bash
# The second program's own tests, worked out by hand from documents 01 and 02; then the journal program against it, line by
# line, on seeded journals, and in pairs of journals the lines of the one guest whose calls are the same in both.
set -eu
cd "$(dirname "${BASH_SOURCE[0]}")/.."
source tests/build.bash
export CARGO_NET_OFFLINE=true
have_program
(cd crosscheck && cargo test --release --locked --quiet && cargo build --release --locked --quiet)
crosscheck/target/release/crosscheck "$replay" 1 3000
