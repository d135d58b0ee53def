#!/bin/sh
# Tests of the assembler, of `drevokas make` (with and without --from) and of the example guests, and a memory check of make if
# valgrind is there. Fails if anything fails. The command is target/bin/drevokas, or $DREVOKAS, seen from the root of the
# repository.
set -eu
. "$(dirname "$0")/../../tools/plain.sh"
cd "$(dirname "$0")/../.."
CC=${CC:-gcc}
FLAGS="-std=c99 -D_POSIX_C_SOURCE=200809L -Wall -Wextra -Werror -pedantic -O2"
DREVOKAS=${DREVOKAS:-target/bin/drevokas}
OUT=target/shell/make

if [ ! -x "$DREVOKAS" ]; then
    echo "shell/tests/make.sh: no $DREVOKAS; build it first, with make" >&2
    exit 1
fi
DREVOKAS=$(cd "$(dirname "$DREVOKAS")" && pwd)/$(basename "$DREVOKAS")
export DREVOKAS
mkdir -p "$OUT"

"$CC" $FLAGS -o "$OUT/instructions_test" shell/tests/instructions_test.c shell/instructions.c shell/expression.c
timeout 60 "$OUT/instructions_test"
python3 shell/tests/make_test.py "$DREVOKAS"
python3 shell/tests/make_from_test.py "$DREVOKAS"
sh examples/check.sh
if command -v valgrind > /dev/null; then
    printf 'at frame 1\nloop LR 1,16\nx = 1\nmap guest 0 to frame 9\n' > "$OUT/bad.txt"
    printf "host tables at frame 1\nguest tables at real X'3000'\nmap virtual X'6000' to real 0\n" > "$OUT/tables.txt"
    checked="timeout 60 valgrind -q --error-exitcode=9 --leak-check=full"
    $checked "$DREVOKAS" make examples/page_exception.txt -o "$OUT/page.case"
    printf "map guest X'2000' to frame 5\n" > "$OUT/map.txt"
    $checked "$DREVOKAS" make "$OUT/map.txt" --from "$OUT/page.case" -o "$OUT/new.case"
    $checked "$DREVOKAS" make "$OUT/tables.txt" --from "$OUT/page.case" -o "$OUT/new.case"
    status=0
    $checked "$DREVOKAS" make "$OUT/bad.txt" -o "$OUT/bad.case" 2> "$OUT/bad.err" || status=$?
    if [ "$status" -ne 2 ]; then
        cat "$OUT/bad.err" >&2
        exit 1
    fi
    echo "make under valgrind: 4 texts, no error"
fi
