#!/bin/sh
# The gate, which make gate runs: every proof, the sources' layout, every must-fail edit and the program (rt ci); then library and command
# are built and all tests are run, tests/rust, tests/tools and tests/c beside the others. rt ci keeps what it passed, and proves again
# only what has changed since, and what stands on that. The last line is that of rt ci, printed when all has passed; otherwise what
# failed is named, and the exit status is 1.
set -eu
. "$(dirname "$0")/../tools/plain.sh"
cd "$(dirname "$0")/.."
unset CASE CC COUNT DREVOKAS DREVOKAS_LIB FLAGS LIB SEED
LOG=target/gate.log
failed=''

# part NAME COMMAND...: runs a part, and says how it ended.
part() {
    name=$1 began=$(date +%s) ended=passed
    shift
    echo "gate: $name"
    "$@" || ended=FAILED
    echo "gate: $name $ended, $(($(date +%s) - began)) s"
    [ "$ended" = passed ] || failed="$failed $name"
}

# Ends the gate if a part has failed.
stop_if_failed() {
    [ -n "$failed" ] || return 0
    echo "gate: failed:$failed" >&2
    exit 1
}

install_valgrind() {
    apt-get update -qq && apt-get install -y -qq valgrind
}

# Waits for tests that were started before; shows what they printed if they failed.
ended() { # PROCESS LOG
    wait "$1" && return
    cat "$2"
    return 1
}

# rt ci passes an edit that cannot be applied or read.
no_edit_is_bad() {
    ! grep '^rt: ok;.* must-fail edits: .*[0-9] bad' "$LOG"
}

# What rt ci has proved is not proved again where all that it made is there.
build_library() {
    { [ -z "$earlier" ] && sh tools/take.sh; } || sh tools/prove.sh
}

sh tools/need.sh rt gcc python3 cargo
command -v valgrind > /dev/null || part 'installation of valgrind' install_valgrind
earlier=$(find crates -path 'crates/*/out/rlib' -prune)
mkdir -p target
: > "$LOG"
echo "gate: the first time some half an hour, by the machine; what the prover says goes to $LOG"
part 'proofs and must-fail edits' sh tools/progress.sh "$LOG" . ci
stop_if_failed
part 'each edit tells something' no_edit_is_bad
stop_if_failed
part 'library and program' build_library
stop_if_failed
part build make clean all
stop_if_failed
echo "gate: tests/rust, tests/tools and tests/c, beside the others; what they print goes to target/rust.log, tools.log and c.log"
sh tests/rust/run.sh > target/rust.log 2>&1 &
rust=$!
sh tests/tools/run.sh > target/tools.log 2>&1 &
tools=$!
sh tests/c/run.sh > target/c.log 2>&1 &
c=$!
for folder in tests/cases shell/tests tests/docs; do
    part "$folder" sh "$folder/run.sh"
done
part tests/c ended "$c" target/c.log
part tests/tools ended "$tools" target/tools.log
part tests/rust ended "$rust" target/rust.log
stop_if_failed
tail -n 1 "$LOG"
