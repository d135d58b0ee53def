#!/bin/sh
# Shows what the example guests do, and compares it with NAME.expected. Prints each difference, and fails if there is one.
# "check.sh update" writes the expected files instead. DREVOKAS names another command. A command that does not end by itself is
# ended, and has failed.
set -eu
. "$(dirname "$0")/../tools/plain.sh"
. "$(dirname "$0")/begin.sh"
export DREVOKAS
EXAMPLES=$(pwd)
cp ./*.txt "$OUT"

# A command as it is typed, and what it prints.
show() {
    echo "\$ drevokas $*"
    timeout 20 "$DREVOKAS" "$@" 2>&1
}

# The lines of explain that match.
show_explained() {
    echo "\$ drevokas explain $1 | grep -E '$2'"
    timeout 20 "$DREVOKAS" explain "$1" | grep -E "$2"
}

# Bytes of a frame in a case file of eight frames: file, frame, offset in decimal, count.
show_bytes() {
    printf '%s, frame %s, offset %s:' "$1" "$2" "$3"
    od -A n -t x1 -j $((232 + 4096 * $2 + $3)) -N "$4" "$1"
}

batch() {
    show make batch.txt -o batch.case
    show run batch.case --after after.case
    show trace batch.case
    show_explained after.case '^  (CPU timer|code|interruption|gr0-3) '
}

page_exception() {
    show make page_exception.txt -o page.case
    show run page.case --after after.case
    show trace page.case
    show translate page.case 6000
    show translate after.case 6000
    show_explained after.case '^  (code|gr0-3) '
}

protected_page() {
    show make protected_page.txt -o protected.case
    show run protected.case --after fault.case
    show_bytes fault.case 4 4092 4
    show_bytes fault.case 5 0 4
    show desk remove fault.case 2 --after removed.case
    show desk add removed.case 2 5 --after lifted.case
    show run lifted.case --after after.case
    show_bytes after.case 4 4092 4
    show_bytes after.case 5 0 4
    show_explained after.case '^  (code|gr0-3) '
}

scheduler() {
    show make scheduler.txt -o scheduler.case
    show check scheduler.case
    show run scheduler.case --after expired.case
    show trace scheduler.case
    show_explained expired.case '^  (code|interruption|interval timer|T|residue) '
    show make scheduler_external.txt --from expired.case -o presented.case
    show trace presented.case --budget 6
    timeout 120 sh "$EXAMPLES/scheduler.sh"
}

names() {
    show make names.txt -o names.case
    show run names.case --after after.case
    show trace names.case
    show_explained after.case '^  (clock  |code|gr4-7) '
    show run names.case --budget 10 --after cut.case
    show run cut.case --after resumed.case
    show_explained resumed.case '^  (clock  |code|gr4-7) '
    cmp after.case resumed.case
    echo 'time = 0' > zero.txt
    show make zero.txt --from names.case -o zero.case
    show run zero.case --after none.case || echo "status $?"
    show trace zero.case --after none.case || echo "status $?"
    [ ! -e none.case ]
    timeout 60 sh "$EXAMPLES/names.sh"
}

run() {
    timeout 60 sh "$EXAMPLES/run.sh"
}

names='batch names page_exception protected_page run scheduler'
differ=0
for name in $names; do
    set +e
    (set -e && cd "$OUT" && "$name") > "$OUT/$name.got"
    status=$?
    set -e
    if [ "$status" -ne 0 ]; then
        echo "$name: a command ended with status $status (124: it did not end by itself):" >&2
        tail -n 5 "$OUT/$name.got" >&2
        differ=$((differ + 1))
    elif [ "${1:-}" = update ]; then
        cp "$OUT/$name.got" "$name.expected"
    elif ! diff -u "$name.expected" "$OUT/$name.got"; then
        differ=$((differ + 1))
    fi
done
echo "$(echo $names | wc -w) examples, $differ differ"
[ "$differ" -eq 0 ]
