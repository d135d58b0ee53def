#!/bin/sh
# Builds the command and tests it: every sub-command, good and bad input, messages and exit status; all kept case files; runs
# that are cut and resumed; traces; files that cannot be written; signals; the table entries that are named where a translation
# fails; the time per unit, and the clock that STCK stores; the page desk, and the first page that is not valid; the shell's own
# statement of the rules against the library; then, under valgrind if it is there, every sub-command that reads a case file on
# every kept one; and damaged files. Prints each failure, and a count. Fails if anything fails; a command that does not end by
# itself is ended, and has failed.
set -eu
. "$(dirname "$0")/../../tools/plain.sh"
cd "$(dirname "$0")/../.."
CC=${CC:-gcc}
FLAGS="-std=c99 -D_POSIX_C_SOURCE=200809L -Wall -Wextra -Werror -pedantic"
LIB=target/staticlib/libdrevokas.a
ROOT=$PWD
FILES=tests/cases/files
EXPECTED=shell/tests/expected
OUT=target/shell/tests

make -s all
rm -rf "$OUT"
mkdir -p "$OUT"
# No link stays: rt ci takes none in the repository.
trap 'find "$OUT" -type l -exec rm -f {} +' EXIT
trap 'exit 1' HUP INT TERM
tests=0
failed=0

fail() {
    failed=$((failed + 1))
    echo "failed: $*" >&2
}

# The command, ended after 20 seconds with exit status 124. The messages of the test itself go to 3, the first standard error.
exec 3>&2
drevokas() {
    ended=0
    timeout 20 "$ROOT/target/bin/drevokas" "$@" 3>&- || ended=$?
    [ "$ended" -ne 124 ] || echo "failed: did not end by itself: drevokas $*" >&3
    return "$ended"
}

# call ARGUMENT...: runs the command; its exit status is then in $status, and what it said in out and err.
call() {
    status=0
    drevokas "$@" > "$OUT/out" 2> "$OUT/err" < /dev/null || status=$?
    tests=$((tests + 1))
}

# The sentence that every run ends with, unless it is refused.
SENTENCE='^drevokas: [^ ]*: \(budget used: \|intercepted, code \|host fault \)'

# says STATUS OUTPUT MESSAGE ARGUMENT...: the exit status and standard output are these, and standard error has this message
# in it, or, if that is empty, nothing but how a run ended.
says() {
    want_status=$1 want_out=$2 want_err=$3
    shift 3
    call "$@"
    [ "$status" -eq "$want_status" ] || fail "$*: exit status $status, and not $want_status"
    [ "$(cat "$OUT/out")" = "$want_out" ] || fail "$*: printed $(cat "$OUT/out"), and not $want_out"
    case $want_err in
    '') ! grep -qv "$SENTENCE" "$OUT/err" || fail "$*: said $(cat "$OUT/err")" ;;
    *) grep -qF -e "$want_err" "$OUT/err" || fail "$*: said $(cat "$OUT/err"), and not $want_err" ;;
    esac
}

# same FILE FILE WHAT: the files are the same.
same() {
    tests=$((tests + 1))
    cmp -s "$1" "$2" || fail "$3: $1 and $2 differ"
}

# shows NAME ARGUMENT...: standard output is the kept one of this name. With UPDATE set it is kept anew.
shows() {
    kept=$EXPECTED/$1
    shift
    call "$@"
    [ -z "${UPDATE:-}" ] || cp "$OUT/out" "$kept"
    cmp -s "$OUT/out" "$kept" || fail "$*: the output is not $kept"
}

# within_100 WHAT: the output has no line of more than 100 columns.
within_100() {
    awk 'length > 100 { exit 1 }' "$OUT/out" || fail "$1: a line of more than 100 columns"
}

test_usage() {
    says 0 "$(printf 'drevokas 1.0\nrecord versions 1 and 2, case file version 1')" '' --version
    call help
    [ "$status" -eq 0 ] && grep -q '^usage: drevokas SUBCOMMAND ' "$OUT/out" && [ ! -s "$OUT/err" ] || fail help
    within_100 help
    for word in --help -h; do
        says 0 "$(cat "$OUT/out")" '' "$word"
    done
    says 2 '' 'no sub-command fly' help fly
    drevokas help make | grep -q '1 MiB' || fail 'help make does not name the limit of a text'
    says 2 '' 'no sub-command'
    says 2 '' 'no sub-command fly' fly
    says 2 '' 'no sub-command -x' -x
    for sub in run check translate explain make trace desk unbacked; do
        call "$sub" --help
        [ "$status" -eq 0 ] && grep -q "^usage: drevokas $sub " "$OUT/out" && [ ! -s "$OUT/err" ] || fail "$sub --help"
        within_100 "$sub --help"
        says 0 "$(cat "$OUT/out")" '' "$sub" -h
        says 0 "$(cat "$OUT/out")" '' help "$sub"
        drevokas --help | grep -q "^  $sub " || fail "--help does not name $sub"
        call "$sub"
        [ "$status" -eq 2 ] && [ ! -s "$OUT/out" ] && [ -s "$OUT/err" ] || fail "$sub without arguments"
        call "$sub" --fly "$FILES/ar.in"
        [ "$status" -eq 2 ] && [ ! -s "$OUT/out" ] && grep -qF -e --fly "$OUT/err" || fail "$sub --fly"
    done
    for sub in run check explain trace; do
        says 2 '' "$sub: too few arguments: 0, and must be 1" "$sub"
        says 2 '' "$sub: too many arguments: 2, and must be 1" "$sub" a b
        says 2 '' "none.in: cannot be read: No such file" "$sub" "$OUT/none.in"
        says 2 '' "$OUT: cannot be read: Is a directory" "$sub" "$OUT"
    done
    says 2 '' 'too few arguments: 1, and must be 2' translate "$FILES/ar.in"
    says 2 '' 'too many arguments: 3, and must be 2' translate "$FILES/ar.in" 0 1
    says 2 '' 'cannot be read' translate "$OUT/none.in" 0
}

test_options() {
    for sub in run trace; do
        for value in '' x -1 4294967296 99999999999999999999 1x 0x10 ' 1'; do
            says 2 '' 'must be a decimal number from 0 to 4294967295' "$sub" "$FILES/ar.in" "--budget=$value"
        done
        says 2 '' 'option --budget needs a value' "$sub" "$FILES/ar.in" --budget
        says 2 '' 'option --after is given twice' "$sub" "$FILES/ar.in" --after a --after b
    done
    says 2 '' 'must be a decimal number from 0 to 524288' explain "$FILES/ar.in" --pages 524289
    says 2 '' 'must be fetch, store or instruction' translate "$FILES/ar.in" 0 --access load
    for address in '' x 0x 100000000 0x100000000 12345678g -- ' 0' +1 "X'" "X''" "X'1" "0x'1'" "X'100000000'" "X'0x1'"; do
        call translate "$FILES/ar.in" "$address"
        [ "$status" -eq 2 ] && [ ! -s "$OUT/out" ] && [ -s "$OUT/err" ] || fail "translate ar.in '$address'"
    done
    says 0 'B 0 0' '' run "$FILES/budget_7.in" --budget 0
    says 0 'B 0 3' '' run --budget=3 "$FILES/budget_7.in"
    says 0 'B 0 3' '' run --budget 3 -- "$FILES/budget_7.in"
}

# All kept case files, from a name and from standard input.
test_cases() {
    for file in "$FILES"/*.in; do
        name=${file##*/}
        name=${name%.in}
        read -r kind rest < "$FILES/$name.out"
        call run "$file"
        cmp -s "$OUT/out" "$FILES/$name.out" || fail "run $file: $(cat "$OUT/out"), and not $kind $rest"
        case $kind$status in
        R1) grep -q "refused, R [1-8]:\|not a case file:" "$OUT/err" || fail "run $file: no reason" ;;
        H0) grep -q ": host fault .. hex, .*, at host address [0-9a-f]*, " "$OUT/err" || fail "run $file: no host address" ;;
        I0) grep -q ": intercepted, code ${rest% *}: [a-zA-Z]" "$OUT/err" || fail "run $file: said $(cat "$OUT/err")" ;;
        B0) grep -q ": budget used: ${rest#* } units* completed$" "$OUT/err" || fail "run $file: said $(cat "$OUT/err")" ;;
        *) fail "run $file: exit status $status" ;;
        esac
    done
    drevokas run - < "$FILES/ar.in" 2> "$OUT/err" | cmp -s - "$FILES/ar.out" || fail 'run -'
    grep -q '^drevokas: standard input: [ibh]' "$OUT/err" || fail "run -: said $(cat "$OUT/err")"
    drevokas explain - < "$FILES/record_version_2.in" 2> "$OUT/err" > /dev/null && fail 'explain -'
    grep -q '^drevokas: standard input: refused, R 2: ' "$OUT/err" || fail "explain -: said $(cat "$OUT/err")"
    tests=$((tests + 1))
}

test_check() {
    says 0 good '' check "$FILES/ar.in"
    says 0 good '' check "$FILES/time_too_large.in"
    drevokas help check | tr '\n' ' ' | grep -q 'a time per unit that is 0 or over 1048576 (R 6)' || fail 'help check: time'
    says 0 'I 32: mode is 00 hex: bits 4-5 must be 10, for 370-XA' '' check "$FILES/entry_mode_00.in"
    says 0 'I 32: mode is 0a hex: bit 6 must be zero, since preferred storage is not installed' '' \
        check "$FILES/entry_mode_0a.in"
    says 0 'I 32: origin is 32768 blocks, and must be 32767 at most' '' check "$FILES/entry_origin_32768.in"
    says 0 'I 32: extent is 0 blocks, and must be 1 at least' '' check "$FILES/entry_extent_0.in"
    says 0 'I 32: origin 32767 and extent 2 are 32769 blocks together, and must be 32768 at most' '' \
        check "$FILES/entry_sum_32769.in"
    says 0 'I 32: prefix: the block at 00010000 is not below the extent, which ends at 00010000' '' \
        check "$FILES/entry_prefix_over_extent.in"
    says 1 "R 1: the record's length field is 199, and must be 200 or 208" '' check "$FILES/record_length_199.in"
    says 1 "R 2: the record's version is 2, and must be 1 with a length of 200" '' check "$FILES/record_version_2.in"
    says 1 'R 7: bytes 66-71 of the record are 010000000000 hex, and must be zero' '' check "$FILES/byte_66_used.in"
    says 1 'R 9: case file malformed' 'the version in byte 4 is not 1' check "$FILES/malformed_version_2.in"
}

test_translate() {
    says 0 'good 00000200: frame 0, offset 200 hex' '' translate "$FILES/ar.in" 200
    says 0 'good 00000200: frame 0, offset 200 hex' '' translate "$FILES/ar.in" 0x80000200 --access instruction
    says 0 'good 00000fff: frame 0, offset fff hex' '' translate "$FILES/ar.in" 0XFFF --access=store
    says 0 'exception 05 hex: addressing, a program exception of the guest' '' translate "$FILES/ar.in" 10000
    for address in 1000 0x1000 0X1000 "X'1000'" "x'00001000'" X1000; do
        says 0 'fault 11 hex at 00001000: page translation, a host fault at that host address' \
            'ar.in: host page entry at 00000f44: invalid' translate "$FILES/ar.in" "$address" --access fetch
    done
    says 2 '' 'address 0b10: is it hexadecimal, 0x0b10, or binary?' translate "$FILES/ar.in" 0b10
    says 0 'good 00000b10: frame 0, offset b10 hex' '' translate "$FILES/ar.in" 0x0b10
    says 0 'I 32: extent is 0 blocks, and must be 1 at least' '' translate "$FILES/entry_extent_0.in" 0
    says 1 "R 2: the record's version is 2, and must be 1 with a length of 200" '' translate "$FILES/record_version_2.in" 0
    says 1 'R 9: case file malformed' 'not a case file' translate "$FILES/malformed_count_9.in" 0
}

# Files that are not whole, and files that are more than whole.
test_damaged() {
    for bytes in 0 1 3 4 5 22 23 222 223 224 225 4000 4320; do
        head -c "$bytes" "$FILES/ar.in" > "$OUT/cut.in"
        says 1 'R 9' 'not a case file: the' run "$OUT/cut.in"
        says 1 'R 9' 'not a case file: the' trace "$OUT/cut.in"
        says 1 '' 'not a case file: the' explain "$OUT/cut.in"
        says 1 'R 9' 'not a case file: the' desk list "$OUT/cut.in"
        says 1 'R 9' 'not a case file: the' unbacked "$OUT/cut.in"
    done
    { cat "$FILES/ar.in"; echo; } > "$OUT/long.in"
    says 1 'R 9' 'the length in bytes 0-3 is not the number of bytes that follow it' run "$OUT/long.in"
    says 1 'R 9' 'over 33008 bytes' run /dev/zero
    says 1 'R 9' 'cut short' run /dev/null
    says 1 'R 9' 'the frame count in byte 223 is not 1 to 8' run "$FILES/malformed_count_0.in"
    says 1 'R 9' 'over 33008 bytes' run "$FILES/malformed_count_9.in"
    says 1 'R 9' 'is not 220 and 4097 for each frame of the count in byte 223' run "$FILES/malformed_count_over.in"
    says 1 'R 9' 'standard input: not a case file' run -
    for sub in run trace; do
        says 1 'R 9' 'batch.txt: not a case file: this is a text: use drevokas make' "$sub" examples/batch.txt
    done
    says 1 'R 9: case file malformed' 'this is a text: use drevokas make' check examples/batch.txt
    says 1 'R 9: case file malformed' 'this is a text: use drevokas make' translate examples/batch.txt 0
    says 1 '' 'this is a text: use drevokas make' explain examples/batch.txt
    printf '\357\273\277# a text\r\n' > "$OUT/mark.txt"
    says 1 'R 9' 'this is a text: use drevokas make' run "$OUT/mark.txt"
}

# cut_at FILE UNITS BUDGET: the run that is cut after so many units and resumed leaves the same as whole.after.
cut_at() {
    drevokas run "$1" --budget "$2" --after "$OUT/part.after" > "$OUT/part" 2> /dev/null
    drevokas run "$OUT/part.after" --budget $(($3 - $2)) --after "$OUT/cut.after" > "$OUT/rest" 2> /dev/null
    [ "$(cat "$OUT/part")" = "B 0 $2" ] || fail "$1 cut after $2: the first part ended with $(cat "$OUT/part")"
    same "$OUT/cut.after" "$OUT/whole.after" "$1 cut after $2"
}

# Every kept case file that completes a unit: cut and resumed, and traced; both leave what the whole run leaves.
test_resumption() {
    for file in "$FILES"/*.in; do
        read -r kind number units < "${file%in}out"
        [ "$kind" != R ] && [ "$units" -ge 1 ] && [ "$units" -le 1000 ] || continue
        drevokas run "$file" --after "$OUT/whole.after" > "$OUT/whole" 2> /dev/null
        budget=100
        [ "$kind" != B ] || budget=$units
        cut_at "$file" 1 "$budget"
        [ "$units" -lt 2 ] || cut_at "$file" $((units / 2)) "$budget"
        [ "$units" -lt 2 ] || cut_at "$file" "$units" "$budget"
        lines=$((units + 2))
        [ "$kind" != B ] || lines=$((units + 1))
        drevokas trace "$file" --after "$OUT/trace.after" > "$OUT/trace" 2> /dev/null
        same "$OUT/trace.after" "$OUT/whole.after" "$file traced"
        [ "$(tail -n 1 "$OUT/trace")" = "$kind $number $units" ] || fail "trace $file: $(tail -n 1 "$OUT/trace")"
        [ "$(wc -l < "$OUT/trace")" -eq "$lines" ] || fail "trace $file: not one line for each unit, exit and end"
    done
}

# Budgets over 65,535, and pipes.
test_slices() {
    says 0 'B 0 200000' '' run "$FILES/budget_65535.in" --budget 200000 --after "$OUT/whole.after" --quiet
    cut_at "$FILES/budget_65535.in" 70000 200000
    cut_at "$FILES/budget_65535.in" 131070 200000
    drevokas run "$FILES/budget_65535.in" --budget 65536 --after - --quiet 2> "$OUT/err" |
        drevokas run - --budget 134464 --after "$OUT/cut.after" --quiet > "$OUT/rest"
    [ "$(cat "$OUT/err")" = 'B 0 65536' ] || fail "run --after -: $(cat "$OUT/err")"
    same "$OUT/cut.after" "$OUT/whole.after" 'run --after - into run -'
    drevokas trace "$FILES/budget_65535.in" --budget 70000 --quiet | tail -n 1 | grep -qx 'B 0 70000' ||
        fail 'trace --budget 70000'
    drevokas run "$FILES/budget_7.in" --after "$OUT/whole.after" --quiet > "$OUT/whole"
    drevokas trace "$FILES/budget_7.in" --after - --quiet 2> "$OUT/err" | cmp -s - "$OUT/whole.after" || fail 'trace --after -'
    [ "$(tail -n 1 "$OUT/err")" = 'B 0 7' ] || fail 'trace --after -: lines'
    tests=$((tests + 3))
}

# Nothing is left half-written, and what is there stays.
test_unwritable() {
    mkdir "$OUT/folder"
    cp "$FILES/ar.in" "$OUT/folder/old"
    says 2 '' 'none/after.in: cannot be written: No such file' run "$FILES/budget_7.in" --after "$OUT/none/after.in"
    says 2 '' "$OUT/folder: cannot be written: Is a directory" run "$FILES/budget_7.in" --after "$OUT/folder"
    (failed=0 && ulimit -f 1 &&
        says 2 'B 0 7' 'cannot be written: File too large' run "$FILES/budget_7.in" --after "$OUT/folder/old" &&
        exit "$failed") || fail 'a file that grows too large'
    says 1 'R 2' "the record's version is 2" run "$FILES/record_version_2.in" --after "$OUT/folder/new"
    says 1 'R 9' 'not a case file' run "$FILES/malformed_version_2.in" --after "$OUT/folder/new"
    [ "$(ls -A "$OUT/folder")" = old ] || fail "left behind: $(ls -A "$OUT/folder")"
    same "$OUT/folder/old" "$FILES/ar.in" 'what was there'
    [ -z "$(find "$OUT" -name '*.??????')" ] || fail "left behind: $(find "$OUT" -name '*.??????')"
    for sub in run check explain trace unbacked; do
        status=0
        drevokas "$sub" "$FILES/budget_7.in" > /dev/full 2> "$OUT/err" || status=$?
        [ "$status" -eq 2 ] && grep -q 'standard output cannot be written' "$OUT/err" || fail "$sub > /dev/full"
        status=0
        drevokas "$sub" "$FILES/budget_7.in" >&- 2> "$OUT/err" || status=$?
        [ "$status" -eq 2 ] && grep -q 'standard output cannot be written' "$OUT/err" || fail "$sub >&-"
        tests=$((tests + 2))
    done
    status=0
    drevokas run "$FILES/budget_7.in" --after "$OUT/folder/old" <&- >&- 2>&- || status=$?
    [ "$status" -eq 2 ] || fail "run --after with all standard streams closed: exit status $status"
    same "$OUT/folder/old" "$FILES/ar.in" 'run --after with all standard streams closed'
}

# A link stands for its file; permissions stay; a file may be run into itself. More of it in output_test.py.
test_after() {
    cp "$FILES/budget_7.in" "$OUT/self.in"
    chmod 640 "$OUT/self.in"
    ln -s self.in "$OUT/link.in"
    says 0 'B 0 4' '' run "$OUT/self.in" --budget 4 --after "$OUT/link.in" --quiet
    says 0 'B 0 3' '' run "$OUT/link.in" --budget 3 --after "$OUT/self.in" --quiet
    drevokas run "$FILES/budget_7.in" --after "$OUT/whole.after" --quiet > "$OUT/whole"
    same "$OUT/self.in" "$OUT/whole.after" 'run into itself'
    [ -L "$OUT/link.in" ] || fail 'a link is replaced'
    [ "$(ls -l "$OUT/self.in" | cut -c 1-10)" = -rw-r----- ] || fail "permissions: $(ls -l "$OUT/self.in")"
}

# Signals, checkpoints, places, names, faults and terminals.
test_output() {
    "$CC" $FLAGS -O2 -shared -fPIC -o "$OUT/faults.so" shell/tests/faults.c -ldl
    timeout 300 python3 shell/tests/output_test.py target/bin/drevokas "$OUT/faults.so" "$OUT/output" || fail output_test.py
    tests=$((tests + 1))
}

# The text form; more of it in the examples and in fuzz.sh.
test_make() {
    says 0 '' '' make shell/tests/rich.txt -o "$OUT/rich.in"
    drevokas make shell/tests/rich.txt | cmp -s - "$OUT/rich.in" || fail 'make to standard output'
    drevokas make - < shell/tests/rich.txt | cmp -s - "$OUT/rich.in" || fail 'make from standard input'
    tests=$((tests + 2))
    printf 'time = 1us\nnonsense = 1\n' > "$OUT/wrong.txt"
    says 2 '' 'wrong.txt:2: ' make "$OUT/wrong.txt" -o "$OUT/wrong.in"
    [ ! -e "$OUT/wrong.in" ] || fail 'make: a case file in spite of an error'
    says 2 '' 'none.txt' make "$OUT/none.txt" -o "$OUT/wrong.in"
    says 2 '' 'none/rich.in' make shell/tests/rich.txt -o "$OUT/none/rich.in"
    for text in examples/batch.txt examples/names.txt examples/page_exception.txt examples/protected_page.txt; do
        says 0 '' '' make "$text" -o "$OUT/example.in"
        says 0 good '' check "$OUT/example.in"
    done
    printf "# the protection is lifted\nmap guest X'2000' to frame 5\n" > "$OUT/lift.txt"
    says 0 '' '' make "$OUT/lift.txt" --from "$OUT/example.in" -o "$OUT/lifted.in"
    call run "$OUT/lifted.in"
    [ "$status" -eq 0 ] && [ "$(cat "$OUT/out")" = 'I 28 3' ] || fail "the lifted page: $(cat "$OUT/out")"
    says 2 '' 'lift.txt:2: the host' make "$OUT/lift.txt" -o "$OUT/wrong.in"
    : > "$OUT/empty.txt"
    says 2 '' 'empty.txt: the text says nothing' make "$OUT/empty.txt" -o "$OUT/wrong.in"
    says 2 '' 'it changes nothing' make "$OUT/empty.txt" --from "$OUT/example.in" -o "$OUT/wrong.in"
    [ ! -e "$OUT/wrong.in" ] || fail 'make: a case file in spite of an error'
}

# What a person reads, word for word.
test_views() {
    shows rich.explain explain "$OUT/rich.in"
    for name in page_invalid_stored cross_store_host_4 timer_negative; do
        shows "$name.explain" explain "$FILES/$name.in"
    done
    for name in page_invalid_stored svc_stored malformed_psw_to_wait odd_address_stored cross_text_page_invalid_stored \
        wrap_2_31_next; do
        shows "$name.trace" trace "$FILES/$name.in"
    done
    for file in "$FILES"/*.in; do
        read -r kind number < "${file%in}out"
        call explain "$file"
        case $kind$status in
        R1) grep -q "refused, R [1-8]:\|not a case file:" "$OUT/err" || fail "explain $file: no reason" ;;
        [HIB]0) [ -s "$OUT/out" ] && [ ! -s "$OUT/err" ] || fail "explain $file: said $(cat "$OUT/err")" ;;
        *) fail "explain $file: exit status $status" ;;
        esac
        within_100 "explain $file"
    done
}

# changed LINES: changed.in is 370.in with what these lines say.
changed() {
    printf "$1\n" | drevokas make - --from "$OUT/370.in" -o "$OUT/changed.in" || fail "make --from 370.in: $1"
}

# checks STATUS LINE LINES: check prints this of 370.in with what these lines say.
checks() {
    changed "$3"
    says "$1" "$2" '' check "$OUT/changed.in"
}

test_system_370() {
    says 0 '' '' make shell/tests/system370.txt -o "$OUT/370.in"
    for bytes in 223 224 231 232; do
        head -c "$bytes" "$OUT/370.in" > "$OUT/cut.in"
        says 1 'R 9' 'not a case file: the' run "$OUT/cut.in"
    done
    { head -c 231 "$OUT/370.in"; printf '\000'; tail -c +233 "$OUT/370.in"; } > "$OUT/cut.in"
    says 1 'R 9' 'the frame count in byte 231, behind a record of 208 bytes, is not 1 to 8' run "$OUT/cut.in"
    { head -c 231 "$OUT/370.in"; printf '\005'; tail -c +233 "$OUT/370.in"; } > "$OUT/cut.in"
    says 1 'R 9' 'is not 228 and 4097 for each frame of the count in byte 231' run "$OUT/cut.in"
    says 0 good '' check "$OUT/370.in"
    checks 0 good 'mode.inactive = 1\nmode.system = xa'
    checks 0 'I 32: mode is 00 hex: bits 4-5 must be 10, for 370-XA, or 01, for System/370' 'mode = 0'
    checks 0 'I 32: mode is 04 hex: bits 4-5 must be 10, for 370-XA; System/370 needs the record of 208 bytes' 'length = 200'
    checks 0 'I 32: prefix is 01001000: bits 1-7 must be zero for System/370, whose addresses have 24 bits' \
        "prefix = X'01001000'\nextent = 512"
    checks 1 "R 2: the record's version is 1, and must be 2 with a length of 208" 'version = 1'
    checks 1 'R 7: bytes 201-203 of the record are 000100 hex, and must be zero' "reserved2 = X'100'"
    checks 1 'R 7: the residue is 40960000, and must be below 40960000' 'residue = 40960000'
    says 0 'good 00003200: frame 3, offset 200 hex' '' translate "$OUT/370.in" 7f000200
    changed 'psw = 0\npsw.ec = 1\npsw.dat = 1'
    says 0 'I 32: PSW bit 5 must be zero: DAT is not installed for System/370' '' translate "$OUT/changed.in" 200
    shows system370_dat.explain explain "$OUT/changed.in"
    shows system370.explain explain "$OUT/370.in"
    within_100 'explain System/370'
    changed "prefix = X'2000'\nmode.bit0 = 1"
    shows system370_protected.explain explain "$OUT/changed.in"
    changed 'mode.inactive = 1'
    shows system370_inactive.explain explain "$OUT/changed.in"
    changed 'request.t = 0\ninterventions = 0'
    shows system370.trace trace "$OUT/changed.in"
    drevokas run "$OUT/changed.in" --after "$OUT/whole.after" > "$OUT/whole" 2> /dev/null
    for units in 1 2 3 4; do
        cut_at "$OUT/changed.in" "$units" 40
    done
}

# The shell's own statement of the rules against the library; and a memory checker over everything.
test_programs() {
    sources=$(ls shell/*.c | grep -v '/main\.c$')
    "$CC" $FLAGS -O2 -o "$OUT/test_rules" shell/tests/test_rules.c $sources $LIB
    timeout 120 "$OUT/test_rules" "$FILES"/*.in || fail test_rules
    "$CC" $FLAGS -O1 -g -o "$OUT/many" shell/tests/many.c $sources $LIB
    tests=$((tests + 1))
    command -v valgrind > /dev/null || return 0
    timeout 300 valgrind -q --error-exitcode=99 --leak-check=full \
        "$OUT/many" "$OUT" "$FILES"/*.in "$OUT/rich.in" "$OUT/370.in" > /dev/null 2> "$OUT/valgrind" ||
        fail "valgrind: $(grep -v '^drevokas: ' "$OUT/valgrind" | head -n 40)"
    tests=$((tests + 1))
}

test_usage
test_options
test_cases
test_check
test_translate
test_damaged
test_resumption
test_slices
test_unwritable
test_after
test_output
test_make
test_views
test_system_370
test_programs
timeout 120 python3 shell/tests/words_test.py "$ROOT/target/bin/drevokas" || fail shell/tests/words_test.py
timeout 120 python3 shell/tests/stage_test.py "$ROOT/target/bin/drevokas" || fail shell/tests/stage_test.py
timeout 300 python3 shell/tests/desk_test.py target/bin/drevokas "$OUT/faults.so" "$OUT/desk" > "$OUT/desk.log" 2>&1 &
desk=$!
timeout 300 python3 shell/tests/unbacked_test.py target/bin/drevokas "$OUT/unbacked" > "$OUT/unbacked.log" 2>&1 &
unbacked=$!
timeout 300 python3 shell/tests/clock_test.py target/bin/drevokas "$OUT/clock" > "$OUT/clock.log" 2>&1 &
clock=$!
timeout 300 sh shell/tests/fuzz.sh || fail shell/tests/fuzz.sh
wait "$desk" || fail shell/tests/desk_test.py
wait "$unbacked" || fail shell/tests/unbacked_test.py
wait "$clock" || fail shell/tests/clock_test.py
cat "$OUT/desk.log" "$OUT/unbacked.log" "$OUT/clock.log"
echo "$tests shell tests, $failed failed"
[ "$failed" -eq 0 ]
