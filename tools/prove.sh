#!/bin/sh
# prove.sh: proves every crate, several at a time, and builds target/bin/case and target/staticlib/libdrevokas.a. What was proved before
# and is unchanged is not proved again. Prints a line for each crate; all that the prover says goes to target/proofs.log.
set -eu
mask=$(umask)
. "$(dirname "$0")/plain.sh"
umask "$mask"
cd "$(dirname "$0")/.."
LOG=target/proofs.log
LIBRARY=target/staticlib/libdrevokas.a
PROGRAM=target/bin/case

sh tools/need.sh rt
# How many crates are checked at once: one a processor, twelve at most, and no more than there are 2 GB of memory for; or $RT_JOBS.
jobs=$(awk -v most="$(nproc)" '$1 == "MemAvailable:" { jobs = int($2 / 2097152) }
    END { if (most > 12) most = 12; if (jobs > most) jobs = most; print jobs < 1 ? 1 : jobs }' /proc/meminfo)
mkdir -p target/staticlib target/bin
rm -f "$LIBRARY"
trap '[ "$?" -eq 0 ] || rm -f "$LIBRARY"' EXIT
trap 'exit 1' HUP INT TERM
echo "Checking the proofs of $(grep -c '^[a-z]' crates.txt) crates: some minutes, the first time. What the prover says goes to $LOG."
: > "$LOG"
sh tools/progress.sh "$LOG" . all check --jobs "${RT_JOBS:-$jobs}"
sh tools/progress.sh "$LOG" crates/case run
sh tools/progress.sh "$LOG" crates/drevokas_c lib
cp crates/case/out/case "$PROGRAM"
cp crates/drevokas_c/out/libdrevokas_c.a "$LIBRARY"
echo "Built $PROGRAM and $LIBRARY."
