#!/bin/sh
# The dryer line that names its batches by the clock, in one run, and then interrupted by the host at every unit; as a 370-XA
# and as a System/370 guest. Shows that both give the same two names; what a host does that does not advance the clock; and that
# a time of 0, the fault of the field, is refused. Fails if the names are alike, if the two do not end alike, or if a time of 0
# is not refused. DREVOKAS names another command.
set -eu
. "$(dirname "$0")/../tools/plain.sh"
. "$(dirname "$0")/begin.sh"

# fail MESSAGE: what was to be shown is not so.
fail() {
    echo "$*" >&2
    exit 1
}

# change FILE LINE: changes the case file by a text of this line.
change() {
    echo "$2" | "$DREVOKAS" make - --from "$1" -o "$1"
}

# show LABEL LINE FILE: a line, and the names that the guest has in registers 4-5 and 6-7; they are then in first and second.
show() {
    registers=$("$DREVOKAS" explain "$3" | sed -n 's/^  gr4-7 //p')
    read -r first more second rest << END
$registers
END
    first=$first$more second=$second$rest
    printf '%-32s%-8s  %s and %s\n' "$1" "$2" "$first" "$second"
}

# in_pieces FILE CLOCK: runs the case file to its end, a unit at a time; if CLOCK is not empty, each unit from this clock. The
# line, with all units, is then in line.
in_pieces() {
    kind=B sum=0
    while [ "$kind" = B ] && [ "$sum" -lt 1000 ]; do
        [ -z "$2" ] || change "$1" "clock = $2"
        read -r kind number units << END
$("$DREVOKAS" run "$1" --budget 1 --after "$1" --quiet)
END
        sum=$((sum + units))
    done
    line="$kind $number $sum"
}

# show_all FILE: the guest in one run, in pieces, and with the two faults.
show_all() {
    line=$("$DREVOKAS" run "$1" --after "$OUT/whole.case" --quiet)
    show 'In one run:' "$line" "$OUT/whole.case"
    [ "$first" != "$second" ] || fail 'Two batches have one name.'

    cp "$1" "$OUT/cut.case"
    in_pieces "$OUT/cut.case" ''
    show 'Interrupted at every unit:' "$line" "$OUT/cut.case"
    cmp "$OUT/whole.case" "$OUT/cut.case" >&2 || fail 'The case files after the two runs differ.'

    # a host that goes on from the same clock, though units are done
    cp "$1" "$OUT/fault.case"
    in_pieces "$OUT/fault.case" "X'$("$DREVOKAS" explain "$1" | sed -n 's/^  clock  *\([0-9a-f]*\) .*/\1/p')'"
    show 'With the clock not advanced:' "$line" "$OUT/fault.case"

    # the fault of the field: units that take no time
    cp "$1" "$OUT/zero.case"
    change "$OUT/zero.case" 'time = 0'
    status=0
    line=$("$DREVOKAS" run "$OUT/zero.case" 2> "$OUT/said") || status=$?
    printf '%-32s%-8s  %s\n' 'With a time of 0:' "$line" "$(sed 's/.*: refused, R 6: //' "$OUT/said")"
    [ "$line, $status" = 'R 6, 1' ] || fail 'A time of 0 is not refused.'
}

echo "The dryer line (names.txt) names two batches by the clock, and then compares the names. If they differ it waits, I 28; if"
echo "they are one it calls the host, I 4. A unit takes one clock unit."
echo
"$DREVOKAS" make names.txt -o "$OUT/names.case"
show_all "$OUT/names.case"
echo
echo "The same as a System/370 guest (names370.txt):"
echo
"$DREVOKAS" make names370.txt --from "$OUT/names.case" -o "$OUT/names370.case"
show_all "$OUT/names370.case"
echo
echo "Interrupted or not, the case files after the runs are the same byte for byte, and the two batches have two names."
