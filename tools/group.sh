#!/bin/sh
# group.sh COMMAND...: runs a command in a process group of its own. A signal that ends this script ends the whole group, also
# those in it that ignore the terminal's interrupt because a shell started them beside others.
set -u

# Ends the group and exits: it is asked, and after ten seconds killed.
end() { # STATUS
    trap '' HUP INT TERM
    [ -n "$!" ] || exit "$1"
    kill -s TERM -- "-$!" "$!" 2> /dev/null
    tries=0
    while kill -s 0 -- "-$!" 2> /dev/null && [ "$tries" -lt 100 ]; do
        sleep 0.1
        tries=$((tries + 1))
    done
    kill -s KILL -- "-$!" 2> /dev/null
    exit "$1"
}

trap 'end 129' HUP
trap 'end 130' INT
trap 'end 143' TERM
setsid "$@" &
wait "$!"
