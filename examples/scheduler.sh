#!/bin/sh
# The scheduler guest with a run for each batch, and then interrupted by the host at every unit; each time its interval timer
# expires, the host presents the external interruption. Shows that both end alike, and what a host does that loses the residue.
# Fails if they do not end alike. DREVOKAS names another command.
set -eu
. "$(dirname "$0")/../tools/plain.sh"
. "$(dirname "$0")/begin.sh"

# run UNITS: guest.case for so many units at most. Its line is then in kind, number and units.
run() {
    line=$("$DREVOKAS" run "$OUT/guest.case" --budget "$1" --after "$OUT/guest.case" 2> "$OUT/said") ||
        { cat "$OUT/said" >&2; exit 1; }
    read -r kind number units << END
$line
END
}

# until_it_waits UNITS: the guest from its start to its wait state, in runs of so many units at most. The ends other than the
# budget's, with the units up to them, are then in ends, and the number of runs in runs.
until_it_waits() {
    cp "$OUT/scheduler.case" "$OUT/guest.case"
    ends='' runs=0 sum=0 number=20
    while [ "$number" -eq 20 ] && [ "$runs" -lt 1000 ]; do
        run "$1"
        runs=$((runs + 1)) sum=$((sum + units))
        if [ "$kind" = B ]; then
            number=20
            continue
        fi
        ends="$ends${ends:+, }$kind $number $sum"
        sum=0
        [ "$number" -ne 20 ] || "$DREVOKAS" make scheduler_external.txt --from "$OUT/guest.case" -o "$OUT/guest.case"
    done
}

echo "The scheduler (scheduler.txt) gives each of three batches 10 milliseconds by its interval timer. A unit takes 250"
echo "microseconds, so the host gets control after 40 units for each batch, and presents the external interruption."
echo
"$DREVOKAS" make scheduler.txt -o "$OUT/scheduler.case"
until_it_waits 1000
whole=$ends
cp "$OUT/guest.case" "$OUT/whole.case"
echo "In one run for each batch:      $whole    ($runs runs)"
until_it_waits 1
cp "$OUT/guest.case" "$OUT/cut.case"
echo "Interrupted at every unit:      $ends    ($runs runs)"

# the fault: at every interruption the host loses the residue, the time since the word's last fall
echo "residue = 0" > "$OUT/lost.txt"
cp "$OUT/scheduler.case" "$OUT/guest.case"
sum=0
while [ "$sum" -lt 100 ] && run 1 && [ "$kind" = B ]; do
    sum=$((sum + units))
    "$DREVOKAS" make "$OUT/lost.txt" --from "$OUT/guest.case" -o "$OUT/guest.case"
done
echo "With the residue lost:          $kind $number $sum    (the first batch has had 25 milliseconds, and its timer never fell)"
echo

if [ "$ends" != "$whole" ]; then
    echo "The interrupted guest ended with $ends, and not with $whole." >&2
    exit 1
fi
if ! cmp "$OUT/whole.case" "$OUT/cut.case" >&2; then
    echo "The case files after the two differ." >&2
    exit 1
fi
echo "Both come to the same ends, and their case files after them are the same byte for byte: record with T and residue, clock,"
echo "keys, and storage with the interval timer's word. No batch lost time by an interruption, and none got it twice."
