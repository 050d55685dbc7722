#!/bin/sh
# Runs the program on the larger examples, as they are and with one value of a model changed, and compares the reports. Needs what
# `rt ci` has built. Says nothing where all is well.
set -e
cd "$(dirname "$0")/.."
program=$PWD/crates/smtcheck/out/smtcheck
data=$PWD/crates/smtcheck/data
work=$(mktemp -d)
trap 'rm -rf "$work"' EXIT

# expect STATUS REPORT SUCCESS SCRIPT ANSWERS
expect() {
    status=0
    "$program" --print-success "$3" "$4" "$5" >"$work/output" || status=$?
    if [ "$status" != "$1" ] || ! cmp -s "$work/output" "$2"; then
        echo "examples: $5: status $status, $(cat "$work/output")"
        exit 1
    fi
}

expect 0 "$data/counter.report" on "$data/counter.smt2" "$data/counter.txt"
sed 's/s_17 () (_ BitVec 32) #x00000011/s_17 () (_ BitVec 32) #x00000012/' "$data/counter.txt" >"$work/changed.txt"
cat >"$work/refuted.report" <<'END'
check 1 at command 609: sat, model of command 610: refuted by the assertion of command 58
verdict: invalid, confirmed 0, refuted 1, undecided 0, unchecked 0
END
expect 1 "$work/refuted.report" on "$data/counter.smt2" "$work/changed.txt"

cat >"$work/jobs.report" <<'END'
check 1 at command 12: sat, confirmed
check 2 at command 16: unsat
verdict: valid, confirmed 1, refuted 0, undecided 0, unchecked 1
END
expect 0 "$work/jobs.report" off "$data/jobs.smt2" "$data/jobs.txt"
sed '/define-fun painting/{n;s/5/4/;}' "$data/jobs.txt" >"$work/changed.txt"
cat >"$work/refuted.report" <<'END'
check 1 at command 12: sat, model of command 13: refuted by the assertion of command 10
check 2 at command 16: unsat
verdict: invalid, confirmed 0, refuted 1, undecided 0, unchecked 1
END
expect 1 "$work/refuted.report" off "$data/jobs.smt2" "$work/changed.txt"
