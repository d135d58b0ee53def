#!/bin/sh
# Builds the C tests against the static library and runs them; if valgrind is there, those with tests of their own under it too,
# and bench/reads.sh, which counts table entries read. Fails if anything fails. LIB names another library, seen from the root of
# the repository; CC another compiler.
set -eu
. "$(dirname "$0")/../../tools/plain.sh"
cd "$(dirname "$0")/../.."
CC=${CC:-gcc}
LIB=${LIB:-target/staticlib/libdrevokas.a}
OUT=target/c
FLAGS="-std=c99 -Wall -Wextra -Werror -pedantic"

if [ ! -f "$LIB" ]; then
    echo "tests/c/run.sh: no $LIB; build the static library first" >&2
    exit 1
fi
mkdir -p "$OUT"

# the header by itself, as C99 and as C++, without a warning on conversions or casts
echo '#include "include/drevokas.h"' | "$CC" $FLAGS -Wconversion -I. -fsyntax-only -x c -
for compiler in g++ clang++; do
    command -v "$compiler" > /dev/null || continue
    echo '#include "include/drevokas.h"' |
        "$compiler" -Wall -Wextra -Werror -pedantic -Wconversion -Wold-style-cast -I. -fsyntax-only -x c++ -
done

"$CC" $FLAGS -O1 -g -o "$OUT/test_translate" tests/c/test_translate.c "$LIB"
"$CC" $FLAGS -O1 -g -o "$OUT/test_run" tests/c/test_run.c "$LIB"
"$CC" $FLAGS -O1 -g -o "$OUT/test_clock" tests/c/test_clock.c "$LIB"
"$CC" $FLAGS -O1 -g -o "$OUT/test_system370" tests/c/test_system370.c "$LIB"
"$CC" $FLAGS -O1 -g -o "$OUT/test_desk" tests/c/test_desk.c "$LIB"
"$CC" $FLAGS -O1 -g -o "$OUT/test_unbacked" tests/c/test_unbacked.c "$LIB"
"$CC" $FLAGS -O2 -o "$OUT/compare_translate" tests/c/compare_translate.c bench/plain.c "$LIB"
"$CC" $FLAGS -O2 -o "$OUT/compare_desk" tests/c/compare_desk.c bench/plain.c bench/plain_desk.c "$LIB"
"$CC" $FLAGS -O2 -o "$OUT/compare_unbacked" tests/c/compare_unbacked.c bench/plain.c bench/plain_desk.c "$LIB"

echo "test_translate"
"$OUT/test_translate"
echo "test_run"
"$OUT/test_run"
echo "test_clock"
"$OUT/test_clock"
echo "test_system370"
"$OUT/test_system370"
echo "test_desk"
"$OUT/test_desk"
echo "test_unbacked"
"$OUT/test_unbacked"
echo "compare_translate"
"$OUT/compare_translate"
echo "compare_desk"
"$OUT/compare_desk"
echo "compare_unbacked"
"$OUT/compare_unbacked"
if command -v valgrind > /dev/null; then
    echo "test_translate under valgrind"
    valgrind --error-exitcode=9 -q "$OUT/test_translate"
    echo "test_run under valgrind"
    valgrind --error-exitcode=9 -q "$OUT/test_run"
    echo "test_clock under valgrind"
    valgrind --error-exitcode=9 -q "$OUT/test_clock"
    echo "test_system370 under valgrind"
    valgrind --error-exitcode=9 -q "$OUT/test_system370"
    echo "test_desk under valgrind"
    valgrind --error-exitcode=9 -q "$OUT/test_desk"
    echo "test_unbacked under valgrind"
    valgrind --error-exitcode=9 -q "$OUT/test_unbacked"
    echo "bench/reads.sh"
    case $LIB in
    /*) LIB=$LIB sh bench/reads.sh ;;
    *) LIB=../$LIB sh bench/reads.sh ;;
    esac
fi
