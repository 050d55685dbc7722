#!/bin/sh
# Counts the instructions that the program takes for four dialogues of 100 kB, and compares them with bench/counts.tsv: over 3% more are an
# error. Whoever makes the program slower for a reason writes that file anew (`bench/run --count && bench/plot`). Needs what `rt ci` has built, or
# another program: SMTCHECK names it. Prints what is wrong.
set -e
cd "$(dirname "$0")/.."
command -v valgrind >/dev/null && command -v python3 >/dev/null || { echo 'counts: skipped, no valgrind or python3' >&2; exit 0; }
python3 bench/run --compare --program "${SMTCHECK:-crates/smtcheck/out/smtcheck}" --only bv --only lia --only consts --only labels
