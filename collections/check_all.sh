#!/bin/sh
# check_all.sh RESULTS FOLDER [JOBS]: checks every script below the folder, and prints the table. --help tells more.
exec python3 -B "$(dirname "$0")/collection.py" check_all "$@"
