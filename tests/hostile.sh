#!/bin/sh
# Runs the program on texts that are made to take much, or large and honest, of a quarter of the size that docs/SECURITY.md tells of, and looks
# that none takes more seconds of the processor, or more memory, than its shape may: tests/hostile.py prints the whole table. Then on texts
# whose explanation could take much, or more than the machine's stack. Needs what `rt ci` has built, or another program: SMTCHECK names it; and
# Python 3. Prints what is wrong.
set -e
cd "$(dirname "$0")/.."
work=$(mktemp -d)
trap 'rm -rf "$work"' EXIT
command -v python3 >"$work/python" || { echo 'hostile: skipped, no python3' >&2; exit 0; }
# Left out are those whose time is the time of steps.
PYTHONDONTWRITEBYTECODE=1 python3 tests/hostile.py --part 4 --bound --patience 20 \
    'unused body' 'assumptions, models' assumptions 'honest assumptions' 'honest models' 'empty models' 'global declarations' 'wide model' 'wide script' \
    'deep and wide' levels 'levels beside names' >"$work/table" || { cat "$work/table"; exit 1; }
# Those that are explained, on the usual stack and on the smallest that the program takes, beside what they take without an explanation.
for stack in 8192 256; do
    PYTHONDONTWRITEBYTECODE=1 python3 tests/hostile.py --bound --patience 20 --stack "$stack" \
        'deep items' 'many items' 'deep definitions' 'honest definitions' \
        'trees in an attribute' 'ill sorted' 'many sorts' 'levels before checks' 'deep function' 'global label' \
        'wide disjunction' 'deep conjunction' 'deep choices' >"$work/table" ||
        { echo "hostile: $stack KB of stack:"; cat "$work/table"; exit 1; }
done
PYTHONDONTWRITEBYTECODE=1 python3 tests/hostile.py --part 4 --bound --patience 20 'many assertions' 'many refuted checks' >"$work/table" ||
    { cat "$work/table"; exit 1; }
PYTHONDONTWRITEBYTECODE=1 python3 tests/hostile.py --bound --patience 60 'equal arrays' 'arrays of arrays' 'arrays by names' 'larger arrays' \
    stores memory 'high memory' >"$work/table" || { cat "$work/table"; exit 1; }
