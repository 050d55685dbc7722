#!/bin/sh
# Tries what docs/SOLVERS.md says: of bitwuzla and boolector on answers that are stored (tests/solvers), and of z3, where it is installed, by
# running it: the table of shares is made with two scripts of each kind, and labels are left out of models by an option, and set aside with
# `--profile wide`. SMTCHECK names the program; without it, that which `rt ci` has built. Skips with a word where z3 or Python is not
# installed. Says nothing else where all is well.
set -e
cd "$(dirname "$0")/.."
program="${SMTCHECK:-$PWD/crates/smtcheck/out/smtcheck}"
while read -r name solver lines; do
    solver=${solver%:}
    told=$("$program" --print-success off "tests/solvers/$name.smt2" "tests/solvers/$name.$solver.txt" | grep -v '^verdict' | tr '\n' ';')
    [ "$told" = "$lines" ] || { echo "solvers: $name of $solver: $told"; exit 1; }
done <tests/solvers/expected
for tool in python3 z3; do
    command -v "$tool" >/dev/null || { echo "solvers: skipped, since there is no $tool"; exit 0; }
done
export SMTCHECK="${SMTCHECK:-$PWD/crates/smtcheck/out/smtcheck}"
work=$(mktemp -d)
trap 'rm -rf "$work"' EXIT
fail() {
    echo "solvers: $1"
    exit 1
}

python3 bench/shares.py --scripts 2 z3=z3 >"$work/table" 2>"$work/errors" || fail "a model of z3 is refuted: $(cat "$work/table" "$work/errors")"
[ "$(grep -c '^| .*(`QF_' "$work/table")" = 12 ] || fail "kinds are missing: $(cat "$work/table")"
awk -F '|' '/and functions|`push`/ { split($3, n, " "); if (n[1] == 0 || n[1] != n[3]) exit 1 }' "$work/table" || fail "not all are confirmed: $(cat "$work/table")"
grep -q 'constants that the script defines.*| 0 of [1-9]' "$work/table" || fail "z3 prints no defined constants: $(cat "$work/table")"

python3 bench/shares.py --scripts 4 --profile wide --kind declared z3=z3 >"$work/table" 2>"$work/errors" || fail "a sort: $(cat "$work/table" "$work/errors")"
awk -F '|' '/declared/ { split($3, n, " "); if (n[1] == 0 || n[1] != n[3]) exit 1; seen = 1 } END { exit !seen }' "$work/table" || fail "sorts: $(cat "$work/table")"

# Labels, with the option and without, where this z3 knows it.
cat >"$work/label.smt2" <<'END'
(declare-const x Int)
(declare-const y Int)
(assert (! (< x y) :named small))
(check-sat)
(get-model)
END
z3 "$work/label.smt2" >"$work/answers.txt" || true
"$SMTCHECK" --print-success off "$work/label.smt2" "$work/answers.txt" >"$work/report" || true
grep -q 'item [1-9] F7' "$work/report" || fail "a label: $(cat "$work/report")"
"$SMTCHECK" --profile wide --print-success off "$work/label.smt2" "$work/answers.txt" >"$work/report" || fail "a label in wide: $(cat "$work/report")"
if z3 -pm:model 2>/dev/null | grep -q user_functions; then
    z3 model.user_functions=false "$work/label.smt2" >"$work/answers.txt" || true
    "$SMTCHECK" --print-success off "$work/label.smt2" "$work/answers.txt" >"$work/report" || fail "a label that is left out: $(cat "$work/report")"
fi
