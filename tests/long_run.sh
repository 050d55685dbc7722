#!/bin/sh
# long_run.sh SIZE: runs the program on two long dialogues of SIZE bytes, an incremental script and its answers, which are made as they
# are read: one whose answers are four times as long as its script, and one the other way. Prints the time and the most memory that each
# takes. It stands in no gate: with 1000000000 it takes some minutes, and should take at most 10 MB. Needs what `rt ci` has built, and
# Python.
set -e
cd "$(dirname "$0")/.."
for longer in answers script; do
    PYTHONDONTWRITEBYTECODE=1 python3 tests/long_run.py "${PROGRAM:-crates/smtcheck/out/smtcheck}" "$1" "$longer"
done
