#!/bin/sh
# The batch guest in one run, and then interrupted by the host at every unit. Shows that both end alike, and what the fault of
# the field, a CPU timer that is reloaded at a short host interruption, did. Fails if they do not end alike. DREVOKAS names
# another command.
set -eu
. "$(dirname "$0")/../tools/plain.sh"
. "$(dirname "$0")/begin.sh"

# run ARGUMENT...: the line of a run; its sentence is shown only if the run fails.
run() {
    "$DREVOKAS" run "$@" 2> "$OUT/said" || { cat "$OUT/said" >&2; exit 1; }
}

echo "The batch guest (batch.txt) gives a job 20 microseconds of CPU time. A unit takes 1 microsecond, so the CPU timer is"
echo "negative, and the host gets control, after 21 units."
echo
"$DREVOKAS" make batch.txt -o "$OUT/batch.case"
line=$(run "$OUT/batch.case" --after "$OUT/whole.case")
echo "In one run:                     $line"
set -- $line
whole="$1 $2 $3"

# one unit, and on from the case file that it left, until the end is another one than the budget's
cp "$OUT/batch.case" "$OUT/cut.case"
runs=0
units=0
end=B
while [ "$end" = B ] && [ "$runs" -lt 1000 ]; do
    line=$(run "$OUT/cut.case" --budget 1 --after "$OUT/cut.case")
    set -- $line
    end=$1
    units=$((units + $3))
    runs=$((runs + 1))
done
cut="$1 $2 $units"
echo "Interrupted at every unit:      $cut    ($((runs - 1)) interruptions; the last run prints $line)"

# the fault: the host interrupts the job at its last microsecond, and the timer is reloaded
echo "timer = 20us" > "$OUT/reload.txt"
run "$OUT/batch.case" --budget 20 --after "$OUT/fault.case" > /dev/null
"$DREVOKAS" make "$OUT/reload.txt" --from "$OUT/fault.case" -o "$OUT/fault.case"
line=$(run "$OUT/fault.case")
set -- $line
echo "With the fault of the field:    $1 $2 $((20 + $3))    (the timer reloaded by hand at one interruption)"
echo

if [ "$cut" != "$whole" ]; then
    echo "The interrupted run ended with $cut, and not with $whole." >&2
    exit 1
fi
if ! cmp "$OUT/whole.case" "$OUT/cut.case" >&2; then
    echo "The case files after the two runs differ." >&2
    exit 1
fi
echo "Both runs end with the same line, $whole in all, and their case files after it are the same byte for byte:"
echo "record, CPU timer, clock, storage and keys. The CPU timer lost no time and got none twice."
