#!/bin/sh
# Tries the wrong bodies that the gate leaves out, for want of time: tests/wrong_bodies/CRATE holds them, in the form of must-fail/.
# With names of crates, those of these crates alone. Wants Python 3, and a checkout in which `rt ci` has passed. For each crate a line of
# tests/wrong_bodies/tried says how many of how many were refused, and of which commit (`no commit` in a copy without a repository);
# docs/TESTING.md has these lines in its table.
cd "$(dirname "$0")/.." || exit
export PYTHONDONTWRITEBYTECODE=1
status=0
python3 tests/wrong_bodies.py "$@" || status=1
python3 tests/docs.py --write || status=1
exit $status
