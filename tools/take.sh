#!/bin/sh
# take.sh: makes target/bin/case and target/staticlib/libdrevokas.a of what rt ci has proved and left in crates/*/out, for which nothing but
# drevokas_c is proved once more. Only for a checkout that had no crates/*/out/rlib before rt ci, which would put those back; the
# libraries are removed at the end, since no other command reads them. All that the prover says goes to target/proofs.log.
set -eu
. "$(dirname "$0")/plain.sh"
cd "$(dirname "$0")/.."
LOG=target/proofs.log
LIBRARY=target/staticlib/libdrevokas.a
PROGRAM=target/bin/case

rm -f "$LIBRARY" "$PROGRAM"
mkdir -p target/staticlib target/bin
kit=$(rt doc)
kit=${kit%/*}
cd crates/drevokas_c
set -- --crate-name drevokas_c --crate-type staticlib src/lib.rt --extern "std=$kit/rlibs/std.rlib" -L "dependency=$kit/rlibs"
for name in $(sed -n 's/^drevokas_c staticlib://p' ../../crates.txt); do
    set -- "$@" --extern "$name=../$name/out/rlib/$name.rlib"
done
for folder in ../*/out/rlib; do
    set -- "$@" -L "dependency=$folder"
done
mkdir -p out
rattle build "$@" --antt-project "$kit/rattle/logic/antt-project.json" --logic-built "$kit/logic_built" --toolchain "$kit/toolchain" \
    -o out/libdrevokas_c.a > "../../$LOG" 2>&1 || {
    echo "failed: rattle build, exit status $?; all that it said is in $LOG" >&2
    exit 1
}
cd ../..
cp crates/case/out/case "$PROGRAM"
cp crates/drevokas_c/out/libdrevokas_c.a "$LIBRARY"
rm -rf crates/*/out/rlib
echo "Built $PROGRAM and $LIBRARY."
