#!/bin/sh
# progress.sh LOG FOLDER WORDS...: runs rt with these words in a folder, both seen from the root of the repository. All that it says
# goes to the end of LOG; printed is a line for each crate, each must-fail edit and each program, with the seconds since the start,
# and what failed, with the first errors. Ends with the status of rt.
set -eu
log=$1 folder=$2
shift 2
crates=$(grep -c '^[a-z]' crates.txt)
edits=$(find crates -path '*/must-fail/*.edit' | wc -l)
verb=$1 name='' crate=0 edit=0 errors='' count=0 status=2 began=$(date +%s)

# Keeps the line, cut after some 300 characters, as one of the first three errors of its crate.
keep() {
    count=$((count + 1))
    start=$(printf '%.300s' "$line")
    [ "$start" = "$line" ] || start="${start% *} ..."
    [ "$count" -gt 3 ] || errors="$errors    $start
"
}

# A crate's check has ended so.
ended() { # NAME HOW
    crate=$((crate + 1))
    [ "$2" = unchanged ] || echo "crate $crate of $crates, $1, $2, $(($(date +%s) - began)) s"
    [ "$2" = proved ] || [ "$2" = unchanged ] || printf '%s' "$errors"
    name='' errors='' count=0
}

# The crate whose lines these were has no line of its own for how its check ended: it did not end well, or there was nothing to do.
left() {
    [ -z "$name" ] || { [ "$count" -gt 0 ] && ended "$name" 'NOT PROVED'; } || ended "$name" unchanged
}

# A line of rt itself.
show() {
    said=${line#rt: }
    case $said in
    'rt '* | 'chose '* | 'running '* | *': begins with what a check kept '* | *' must-fail edits were tried by an earlier run '* | \
        'nothing has changed since '*) ;;
    'must-fail '*': refused, as it must be'*)
        said=${said#must-fail }
        edit=$((edit + 1))
        echo "edit $edit of $edits, ${said%%: *}, refused"
        ;;
    'must-fail '*)
        said=${said#must-fail }
        edit=$((edit + 1))
        printf 'edit %s of %s, %.300s\n' "$edit" "$edits" "${said%%: *}, ${said#*: }"
        ;;
    *': its tests are proved') echo "tests of ${said%%: *}, proved, $(($(date +%s) - began)) s" && name='' errors='' count=0 ;;
    *' proved') ended "${said% proved}" proved ;;
    *' NOT PROVED'*) ended "${said%% NOT PROVED*}" "NOT PROVED${said#* NOT PROVED}" ;;
    *' is kept: an earlier run '*) ended "${said%% is kept: *}" 'proved by an earlier run' ;;
    *' ran, and wrote what its file stdout has') echo "program ${said%% ran, *}, ran and wrote what it must" ;;
    *" ran (built by Rattle's own compiler), and wrote what its file stdout has")
        echo "program ${said%% ran *}, built by the second compiler, ran and wrote what it must"
        ;;
    *) printf '%.600s\n' "$said" ;;
    esac
}

{
    (cd "$folder" && exec rt "$@") 2>&1 && ended=0 || ended=$?
    echo "ended $ended"
} | {
    while IFS= read -r line; do
        case $verb:$line in
        *:'ended '*) status=${line#ended } && continue ;;
        *:'== summary') left && name=summary ;;
        *:'== '*) left && name=${line#== } ;;
        all:'logic=proved'*) [ -z "$name" ] || ended "$name" proved ;;
        all:'logic=not-proved'*) [ -z "$name" ] || ended "$name" 'NOT PROVED' ;;
        *:'rt: '*) show ;;
        *:*': error'* | *:'note: src/'* | *:'note: proofs/'* | *:*': no proof'*) keep ;;
        all:*' crates ok' | all:*': failed ('*')' | all:*': not run, since '*) [ "$name" != summary ] || echo "$line" ;;
        esac
        [ -d "${log%/*}" ] || mkdir -p "${log%/*}"
        printf '%s\n' "$line" >> "$log"
    done
    [ "$status" -eq 0 ] || printf '%s%s\n' "$errors" "failed: rt $*, exit status $status; all that it said is in $log" >&2
    exit "$status"
}
