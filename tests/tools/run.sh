#!/bin/sh
# Tests of the Makefile, of tools/ and of the gate, in a copy of the repository with stand-ins for toolchain and compiler; then
# of scripts in a strange environment. Prints each failure, and a count. Fails if anything fails.
set -eu
. "$(dirname "$0")/../../tools/plain.sh"
cd "$(dirname "$0")/../.."
make -s all
timeout 600 python3 tests/tools/test.py
