#!/bin/sh
# fuzz.sh N SEED [base|wide] [OPTION ..]: runs the program on N invented dialogues, one for each number from SEED on, and compares it with
# the second validator in tests/fuzz, in the profile `base` or in that which is named. Prints how often each kind of line, fault and operator
# was reached; the status is 1 where a report differs, and where 2,000 dialogues or more leave something out. `tests/fuzz/run.py --help` has
# the options, as `-j 4`, `--program PATH`. Needs what `rt ci` has built, and Python 3.9.
set -e
[ $# -ge 2 ] || { echo 'fuzz: N and SEED are missing'; exit 2; }
cd "$(dirname "$0")/.."
command -v python3 >/dev/null || { echo 'fuzz: skipped, no python3'; exit 0; }
python3 tests/fuzz/selftest.py
number=$1
seed=$2
shift 2
case "${1:-}" in
base | wide)
    profile=$1
    shift
    set -- --profile "$profile" "$@"
    ;;
esac
exec python3 tests/fuzz/run.py "$@" "$number" "$seed"
