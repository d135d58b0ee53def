#!/bin/sh
# Builds the benchmarks of translate, run and the page desk and runs them. LIB names another library, seen from this directory; CC
# another compiler; FLAGS more of its flags, as -DBYTE_LOADS, with which the plain implementation reads its words byte by byte.
set -eu
. "$(dirname "$0")/../tools/plain.sh"
cd "$(dirname "$0")"
. ./library.sh
build bench_translate
build bench_run
build bench_desk
"$OUT/bench_translate"
"$OUT/bench_run"
"$OUT/bench_desk"
