#!/bin/sh
# compare.sh RESULTS RESULTS..: compares the answers of several solvers. --help tells more.
exec python3 -B "$(dirname "$0")/compare.py" "$@"
