#!/bin/sh
# Builds the tests against the static library and runs them: worked examples, requests 1/12 to 5/12, library against model,
# isolation, resumption, case files, the page desk's calls alone and between runs, the first unbacked page, readings of the clock,
# many units at a time on kept translations.
set -eu
. "$(dirname "$0")/../../tools/plain.sh"
cd "$(dirname "$0")"
CARGO_TARGET_DIR=../../target/rust
export CARGO_TARGET_DIR
cargo test --release --offline --quiet
cargo build --release --offline --quiet
for program in compare isolation resume case_files desk_calls desk_runs first_unbacked store_clock laps; do
    "$CARGO_TARGET_DIR/release/$program"
done
