#!/bin/sh
# need.sh COMMAND...: fails, and says what is missing, if one of these commands is not on the PATH. Notes a toolchain that is
# not the one of toolchain.txt.
set -eu
. "$(dirname "$0")/plain.sh"
cd "$(dirname "$0")/.."
toolchain=$(cat toolchain.txt)
missing=''

# is_for COMMAND: what it is needed for.
is_for() {
    case $1 in
    rt) echo "the Rattle toolchain ($toolchain), which proves and compiles the library" ;;
    cargo) echo "the build of the tests in Rust" ;;
    python3) echo "the tests" ;;
    *) echo "the compiler of all C" ;;
    esac
}

for command in "$@"; do
    command -v "$command" > /dev/null && continue
    missing="$missing $command"
    echo "missing: $command, $(is_for "$command")" >&2
done
if [ -n "$missing" ]; then
    echo "Not on the PATH:$missing. README.md, \"Two commands\", says what is needed and where it comes from." >&2
    exit 1
fi
case " $* " in
*' rt '*)
    here=$(rt --version)
    [ "$here" = "$toolchain" ] || echo "note: proved with $toolchain; this is $here"
    ;;
esac
