#!/bin/sh
# Machine instructions a call of translate, check and the page desk, and a unit of run (in the rows "call" a call of it), counted
# by callgrind: repeatable, whatever else the machine does. Needs valgrind and the static library.
set -eu
. "$(dirname "$0")/../tools/plain.sh"
cd "$(dirname "$0")"
. ./library.sh
build bench_translate
build bench_run
build bench_desk

instructions() { # PROGRAM CASE FRAMES WHO COUNT
    program=$1
    shift
    valgrind --tool=callgrind --callgrind-out-file=/dev/null "$OUT/$program" "$@" 2>&1 | sed -n 's/.*refs: *//p' | tr -d ,
}

each() { # PROGRAM CASE FRAMES|PAGES WHO CALLS
    few=$(instructions "$1" "$2" "$3" "$4" "$(($5 / 10))")
    many=$(instructions "$1" "$2" "$3" "$4" "$(($5 / 10 + $5))")
    echo $(((many - few + $5 / 2) / $5))
}

counted() { # PROGRAM CASE FRAMES|PAGES [CALLS]
    printf '%-30s %6s %10s %10s\n' "$2" "$3" "$(each "$1" "$2" "$3" drevokas "${4:-10000}")" \
        "$(each "$1" "$2" "$3" plain "${4:-10000}")"
}

printf '%-30s %6s %10s %10s\n' case frames drevokas plain
for name in 'DAT off, fetch' 'DAT on, fetch' 'DAT on, store' 'DAT on, two host segments' 'host fault 11 hex' 'segment translation' 'key protection' \
    'refusal 1' 'refusal 8' 'check, good' 'entry fails' 'low-address protection' "CR0's format" 'segment past table' \
    'segment past extent' 'segment, host fault 11 hex' 'segment malformed' 'page past table' 'page past extent' \
    'page, host fault 11 hex' 'page invalid' 'page malformed' 'byte past extent' 'byte past extent, DAT off' \
    'host fault 10 hex, DAT off' 'host fault 11 hex, DAT off' 'host fault 12 hex' 'host fault 5, frame' 'page protection' \
    'host fault 4'; do
    counted bench_translate "$name" 8
    counted bench_translate "$name" 4096
done
"$OUT/bench_run" check
"$OUT/bench_run" names | while read -r name; do
    case $name in
    call,*) calls=1000 ;;
    *) calls=10000 ;;
    esac
    counted bench_run "$name" 8 "$calls"
    counted bench_run "$name" 4096 "$calls"
done
printf '%-30s %6s %10s %10s\n' case pages drevokas plain
for name in list add remove protect 'first unbacked'; do
    counted bench_desk "$name" 16
    counted bench_desk "$name" 4096 100
    counted bench_desk "$name" 524288 2
    counted bench_desk "$name, half valid" 524288 2
done
