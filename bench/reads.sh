#!/bin/sh
# Counts what is read of the host's tables for the first unbacked page, in the library and in plain C, by a trace of every load:
# exact, and the same each time. Fails where an entry is read more than once, or one past the answer. LIB, CC and FLAGS as in
# run.sh. Needs valgrind and the static library.
set -eu
. "$(dirname "$0")/../tools/plain.sh"
cd "$(dirname "$0")"
. ./library.sh
if ! command -v valgrind > /dev/null; then
    echo "bench: no valgrind; install it first" >&2
    exit 1
fi
build reads
TRACE=$OUT/reads.trace
trap 'rm -f "$TRACE"' EXIT
trap 'exit 1' HUP INT TERM
# at this level valgrind drops no load, though nothing is made of it
places=$(valgrind --tool=lackey --trace-mem=yes --vex-iropt-level=0 --log-file="$TRACE" "$OUT/reads" call)
"$OUT/reads" count $places < "$TRACE"
