#!/bin/sh
# limits.sh [BYTES]: runs the program on dialogues of some 5 MB, or so many bytes, each of which needs much of something, under twenty
# limits on its addresses (`ulimit -v`, in KB), and with a machine's stack of 256 KB; and on the deepest terms, in texts of 50 to 400 KB,
# under a hundred limits, some of which the heap takes nearly whole. Each run gives the report that it gives without a limit, or status 4,
# the line `smtcheck: memory` and the first lines of that report. Takes some minutes, and stands in no gate. Needs what `rt ci` has built,
# or another program: SMTCHECK names it; and Python 3. Prints each run that is wrong, and nothing where all is well.
set -e
cd "$(dirname "$0")/.."
program=${SMTCHECK:-$PWD/crates/smtcheck/out/smtcheck}
work=$(mktemp -d)
trap 'rm -rf "$work"' EXIT
command -v python3 >"$work/python" || { echo 'limits: skipped, no python3' >&2; exit 0; }
ulimit -c 0

python3 - "$work" "${1:-5000000}" <<'END'
import sys
sys.path.insert(0, 'tests')
import slow_models as made

def write(kind, size, name):
    script, answers = kind(size)
    for text, end in ((script, 'smt2'), (answers, 'txt')):
        with open(f'{sys.argv[1]}/{name}.{end}', 'w', encoding='ascii') as out:
            out.write(text)

for kind in (made.deep_behind_large, made.deep_around_wide):
    for size in (50_000, 100_000, 200_000, 400_000):
        write(kind, size, f'near_{kind.__name__}_{size}')
for kind in (made.functions_of_the_model, made.constants_of_the_script, made.deep_lets, made.labels_on_a_term, made.labels_over_labels,
             made.labels_in_lets, made.many_parameters, made.models_with_many_names, made.nested_choices, made.nested_functions,
             made.chains_of_functions, made.annotations, made.long_names, made.rounds, made.wide_let, made.distinct_integers,
             made.distinct_vectors, made.deep_behind_large, made.deep_around_wide):
    write(kind, int(sys.argv[2]), kind.__name__)
END

# run NAME [LIMIT ..]: runs the program on a dialogue, under a limit if one is named.
run() {
    name=$1
    shift
    status=0
    ([ $# = 0 ] || ulimit "$@"; exec "$program" --print-success off "$work/$name.smt2" "$work/$name.txt") >"$work/output" \
        2>"$work/errors" || status=$?
}

# judge NAME LIMIT ..: whether the program is right under a limit.
judge() {
    run "$@"
    if [ "$status" = "$right" ]; then
        cmp -s "$work/output" "$work/right" && [ ! -s "$work/errors" ] && return
    elif [ "$status" = 4 ] && [ "$(cat "$work/errors")" = 'smtcheck: memory' ]; then
        head -n "$(wc -l <"$work/output")" "$work/right" | cmp -s - "$work/output" && return
    fi
    echo "limits: $*: status $status, $(head -c 200 "$work/errors")"
    wrong=1
}

wrong=0
for script in "$work"/*.smt2; do
    dialogue=$(basename "$script" .smt2)
    run "$dialogue"
    right=$status
    [ "$right" -lt 4 ] || { echo "limits: $dialogue: status $right"; wrong=1; continue; }
    mv "$work/output" "$work/right"
    case $dialogue in
    near_*)
        for size in $(seq 8192 192 27200); do judge "$dialogue" -v "$size"; done
        continue ;;
    esac
    for size in 4000 5000 6000 8000 10000 14000 20000 28000 40000 56000 80000 110000 160000 220000 320000 450000 640000 900000 1300000 \
        1800000; do
        judge "$dialogue" -v "$size"
    done
    judge "$dialogue" -s 256
done
exit "$wrong"
