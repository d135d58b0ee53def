#!/bin/sh
# Compares the kept case files with those that make.py makes, and the line that the program prints for each kept file
# with its NAME.out. Prints each difference, and a count. The program is target/bin/case, or $CASE.
set -eu
. "$(dirname "$0")/../../tools/plain.sh"
cd "$(dirname "$0")/../.."
CASE=${CASE:-target/bin/case}
KEPT=tests/cases/files
OUT=target/cases
rm -rf "$OUT"
python3 tests/cases/make.py "$OUT"
count=0
differ=0
diff -rq "$OUT" "$KEPT" >&2 || differ=$((differ + 1))
cmp crates/case/stdin "$KEPT/stop.in" || differ=$((differ + 1))
for file in "$KEPT"/*.in; do
    name=$(basename "$file" .in)
    got=$OUT/$name.got
    if "$CASE" < "$file" > "$got" && cmp -s "$got" "$KEPT/$name.out"; then :; else
        echo "$name: $(cat "$got"), and not $(cat "$KEPT/$name.out")" >&2
        differ=$((differ + 1))
    fi
    count=$((count + 1))
done
echo "$count cases, $differ differ"
[ "$differ" -eq 0 ]
