#!/bin/sh
# back.sh FILE FROM TO FRAME...: before a long batch, gives every page of the guest from FROM up to and not including TO that is
# not valid a frame, the next of those that are named, and writes FILE after each. Stops with a message, and status 1, where a
# page cannot be added or no frame is left; the pages that are added till then stay. DREVOKAS names another command.
set -eu
. "$(dirname "$0")/../tools/plain.sh"
DREVOKAS=${DREVOKAS:-drevokas}

stop() {
    echo "back.sh: $*" >&2
    exit 1
}

[ $# -ge 3 ] || stop 'too few arguments: it takes FILE FROM TO FRAME...'
file=$1 from=$2 to=$3
shift 3
while :; do
    status=0
    line=$("$DREVOKAS" unbacked "$file" "$from" "$to") || status=$?
    case $status in
    0) break ;;
    3) page=${line%% *} ;;
    *) stop "it cannot be told which page is missing" ;;
    esac
    [ $# -gt 0 ] || stop "no frame is left for page $page"
    "$DREVOKAS" desk add "$file" "$page" "$1" --after "$file" || stop "page $page is not added in frame $1"
    shift
done
echo "$line"
