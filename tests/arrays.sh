#!/bin/sh
# Compares equality of small arrays with a table that is computed index by index: all that up to four writes make, by truth values and by vectors
# of one and two bits; and by sorts that have more indexes, or may have. Needs what `rt ci` has built, or another program: SMTCHECK names it; and
# Python 3. Prints what is wrong.
set -e
cd "$(dirname "$0")/.."
program=${SMTCHECK:-$PWD/crates/smtcheck/out/smtcheck}
command -v python3 >/dev/null || { echo 'arrays: skipped, no python3' >&2; exit 0; }
PYTHONDONTWRITEBYTECODE=1 python3 tests/arrays.py "$program"
