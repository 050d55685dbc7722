#!/bin/sh
# Tries both profiles on answers of solvers that are stored (tests/profiles), and compares the lines of each report with those that were
# worked out by hand; without --profile a report is that of `base`, to the byte. SMTCHECK names the program; without it, that which `rt ci`
# has built. Says nothing where all is well.
set -e
cd "$(dirname "$0")/.."
program="${SMTCHECK:-$PWD/crates/smtcheck/out/smtcheck}"
count=0
while read -r name solver profile lines; do
    profile=${profile%:}
    set -- --print-success off "tests/profiles/$name.smt2" "tests/profiles/$name.$solver.txt"
    all=$("$program" --profile "$profile" "$@") || [ $? -lt 4 ]
    told=$(echo "$all" | grep -v '^verdict' | tr '\n' ';')
    [ "$told" = "$lines" ] || { echo "profiles: $name of $solver, $profile: $told"; exit 1; }
    if [ "$profile" = base ]; then
        plain=$("$program" "$@") || [ $? -lt 4 ]
        [ "$plain" = "$all" ] || { echo "profiles: $name of $solver, none named: $plain"; exit 1; }
    fi
    count=$((count + 1))
done <tests/profiles/expected
[ "$count" = "$((2 * $(ls tests/profiles/*.txt | wc -l)))" ] || { echo "profiles: $count lines"; exit 1; }
