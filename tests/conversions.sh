#!/bin/sh
# Compares overflow predicates and conversions with the arithmetic of Python's integers: at every value and pair of values of 1 to 4 bits, and
# at the corners of 63, 64, 65, 127 and 128 bits. Needs what `rt ci` has built, or another program: SMTCHECK names it; and Python 3. Prints
# what is wrong.
set -e
cd "$(dirname "$0")/.."
program=${SMTCHECK:-$PWD/crates/smtcheck/out/smtcheck}
command -v python3 >/dev/null || { echo 'conversions: skipped, no python3' >&2; exit 0; }
PYTHONDONTWRITEBYTECODE=1 python3 tests/conversions.py "$program"
