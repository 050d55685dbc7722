#!/bin/sh
# Runs the program on terms with many variables, parameters and labels, whose check has to take time in proportion to their text (and the
# logarithm of how many names there are): comparing each name with each would take minutes, and a copy of the term of each label gigabytes.
# So have checks that assume many literals, and levels that are gone under global declarations. Needs what `rt ci` has built, or another
# program: SMTCHECK names it. Says nothing where all is well.
set -e
cd "$(dirname "$0")/.."
program=${SMTCHECK:-$PWD/crates/smtcheck/out/smtcheck}
work=$(mktemp -d)
trap 'rm -rf "$work"' EXIT

# check WHAT LINE [ANSWER N]: the report on the script on standard input, and on so many answers or none, begins with this line.
check() {
    cat >"$work/script"
    yes "${3:-}" | head -n "${4:-0}" >"$work/answers"
    timeout 30 "$program" --print-success off "$work/script" "$work/answers" >"$work/report" || [ $? -lt 4 ] ||
        { echo "many names: $1: no report in 30 seconds"; exit 1; }
    [ "$(head -n 1 "$work/report")" = "$2" ] || { echo "many names: $1: $(head -n 1 "$work/report")"; exit 1; }
}

valid='verdict: valid, confirmed 0, refuted 0, undecided 0, unchecked 0'

awk 'BEGIN { n = 100000
    printf "(define-fun f () Bool (let ("; for (i = 0; i < n; i++) printf "(v%d true)", i
    printf ") (and"; for (i = n - 1; i >= 0; i--) printf " v%d", i; print ")))" }' | check 'a let of 100,000 bindings' "$valid"
awk 'BEGIN { n = 100000
    printf "(define-fun f ("; for (i = 0; i < n; i++) printf "(p%d Bool)", i
    printf ") Bool (and"; for (i = 0; i < n; i++) printf " p%d", n - 1; print "))" }' | check '100,000 parameters' "$valid"
awk 'BEGIN { n = 100000
    printf "(assert (! true"; for (i = 0; i < n; i++) printf " :named a%d", i; print "))" }' | check '100,000 labels' "$valid"
awk 'BEGIN { printf "(assert "; for (i = 0; i < 900; i++) printf "(! "
    printf "(and"; for (i = 0; i < 100000; i++) printf " true"; printf ")"
    for (i = 0; i < 900; i++) printf " :named a%d)", i; print ")" }' | check '900 labels around a term of 100,000 parts' "$valid"
awk 'BEGIN { n = 200000
    printf "(define-fun f () Bool (let ("; for (i = 0; i < n; i++) printf "(v%d true)", i
    printf ") "; for (i = 0; i < 900; i++) printf "(let ((y v%d)) ", i
    printf "(and y v%d)", n - 1; for (i = 0; i < 900; i++) printf ")"; print "))" }' |
    check '900 lets within one of 200,000 bindings' "$valid"
awk 'BEGIN { printf "(define-fun f () Bool (let ((y true)) "
    for (i = 0; i < 900; i++) printf "(let ((y (not y))) "
    printf "(and"; for (i = 0; i < 100000; i++) printf " y"
    printf ")"; for (i = 0; i < 900; i++) printf ")"; print "))" }' | check 'a name bound 900 times and used 100,000 times' "$valid"
awk 'BEGIN { n = 100000
    printf "(define-fun f () Bool (let ("; for (i = 0; i < n; i++) printf "(v%d true)", i
    print "(v0 true)) v0))" }' | check 'a name bound twice in a let of 100,001 bindings' 'fault C7 F6 at command 1'

# names that assumptions and assertions of other levels have, in models that name few of them
awk 'BEGIN { n = 5000
    for (i = 0; i < n; i++) printf "(declare-const x%d Bool)", i
    for (k = 0; k < 100; k++) { printf "(check-sat-assuming ("; for (i = 0; i < n; i++) printf " x%d", i; print "))" } }' |
    check '100 checks that assume 5,000 names' 'check 1 at command 5001: unsat' unsat 100
awk 'BEGIN { n = 5000
    print "(set-option :global-declarations true)"
    for (k = 0; k < n; k++) { printf "(push 1)(declare-const x%d Bool)(assert (and", k; for (i = 0; i < 50; i++) printf " x%d", k
        print "))(check-sat)(pop 1)" } }' |
    check '5,000 levels under global declarations' 'check 1 at command 5: unsat' unsat 5000

# names that were chosen to collide
if command -v python3 >"$work/python"; then
    PYTHONDONTWRITEBYTECODE=1 python3 tests/colliding_names.py "$program" >"$work/table" || { echo 'many names: names that collide take too long'; cat "$work/table"; exit 1; }
else
    echo 'many names: colliding names skipped, no python3' >&2
fi
