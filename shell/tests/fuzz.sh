#!/bin/sh
# Runs make.sh; then damaged texts through make and damaged case files through explain, run, translate, desk and unbacked, in a
# build with gcc's sanitizers where they work. SEED repeats a run, COUNT says how many of each. Fails if anything fails.
set -eu
. "$(dirname "$0")/../../tools/plain.sh"
cd "$(dirname "$0")/../.."
CC=${CC:-gcc}
FLAGS="-std=c99 -D_POSIX_C_SOURCE=200809L -Wall -Wextra -Werror -pedantic"
SANITIZERS="-O1 -g -fsanitize=address,undefined -fno-sanitize-recover=all"
LIB=target/staticlib/libdrevokas.a
OUT=target/shell/fuzz

sh shell/tests/make.sh

rm -rf "$OUT"
mkdir -p "$OUT"
echo 'int main(void) { return 0; }' > "$OUT/try.c"
if "$CC" $SANITIZERS -o "$OUT/try" "$OUT/try.c" 2> /dev/null && "$OUT/try" 2> /dev/null; then
    "$CC" $FLAGS $SANITIZERS -o "$OUT/drevokas" shell/*.c "$LIB"
else
    echo "fuzz: no sanitizers here; a plain build is used"
    "$CC" $FLAGS -O2 -o "$OUT/drevokas" shell/*.c "$LIB"
fi
python3 shell/tests/fuzz.py "$OUT/drevokas" "$OUT" "${COUNT:-200}" ${SEED:-}
