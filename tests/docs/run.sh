#!/bin/sh
# Runs the examples of the documents and compares what they print with what the documents show; check.py says how. Prints a diff
# for each difference, and a count. Fails if there is a difference.
set -eu
. "$(dirname "$0")/../../tools/plain.sh"
cd "$(dirname "$0")/../.."
make -s all
python3 tests/docs/check.py *.md docs/*.md
python3 docs/pictures/make.py --check
python3 tests/docs/definitions.py
