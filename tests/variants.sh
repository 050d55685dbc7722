#!/bin/sh
# Above smt_theory, smt_values and smt_arrays no code names a variant of a sort, of a value or of an operator: a theory that
# comes is written there alone. The files that may, each with its reason, are those named below. Says nothing where that is so.
set -e
cd "$(dirname "$0")/.."
types='SortKind|Value|Op|CoreOp|IntsOp|BitsOp|PlainOp|Arithmetic|Comparison|BitsUnary|BitsFolded|BitsBinary|BitsComparison'
named=$(
    find crates/*/src -name '*.rt' |
        grep -vE '^crates/(smt_theory|smt_values|smt_arrays)/' |
        # sorts and values as texts
        grep -vx 'crates/smt_reasons/src/value_texts.rt' |
        # whether a value is an array, of which the text says no more
        grep -vx 'crates/smt_reasons/src/values.rt' |
        # `const`, whose operator holds the sort that it is given
        grep -vx 'crates/smt_terms/src/library/constants.rt' |
        # a sort that a command declared
        grep -vx 'crates/smt_terms/src/sorts.rt' |
        # what the rows print
        grep -vxE 'crates/rows/src/(names|values).rt' |
        # tests of their crates
        grep -vxE 'crates/(smt_machine|smt_nodes)/src/tests.rt' |
        xargs grep -nE "\\b($types)::[A-Z]" |
        grep -vE '^[^:]*:[0-9]+: *//' || true
)
if [ -n "$named" ]; then
    echo "variants of sorts, values or operators above their crates:"
    echo "$named"
    exit 1
fi
