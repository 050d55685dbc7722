#!/bin/sh
# streams_memory.sh [SIZE [NAME ..]]: runs the program on streams of 2 MB of eleven shapes, or of SIZE bytes, and looks that none takes more
# than 10 MB of memory, and that each ends in time: a program that keeps what is gone takes more. Needs what `rt ci` has built, or another
# program: SMTCHECK names it; and Python 3. Prints what is wrong, and with a SIZE what each takes.
set -e
cd "$(dirname "$0")/.."
program=${SMTCHECK:-$PWD/crates/smtcheck/out/smtcheck}
work=$(mktemp -d)
trap 'rm -rf "$work"' EXIT
command -v python3 >"$work/python" || { echo 'streams: skipped, no python3' >&2; exit 0; }
export PYTHONDONTWRITEBYTECODE=1
[ $# = 0 ] || exec python3 tests/streams_memory.py "$program" "$@"
python3 tests/streams_memory.py "$program" 2000000 >"$work/table" || { cat "$work/table"; exit 1; }
