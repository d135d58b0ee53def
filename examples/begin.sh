# Read by the scripts beside it: finds the command, goes to this folder, and makes the folder OUT, which is gone at the end.
DREVOKAS=${DREVOKAS:-$(dirname "$0")/../target/bin/drevokas}
if [ ! -x "$DREVOKAS" ]; then
    echo "examples/$(basename "$0"): no $DREVOKAS; build it first, with make" >&2
    exit 1
fi
DREVOKAS=$(cd "$(dirname "$DREVOKAS")" && pwd)/$(basename "$DREVOKAS")
cd "$(dirname "$0")"
OUT=$(mktemp -d)
trap 'rm -rf "$OUT"' EXIT
trap 'exit 1' HUP INT TERM
