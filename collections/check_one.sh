#!/bin/sh
# check_one.sh RESULTS SCRIPT: checks one script, and writes its row. --help tells more.
exec python3 -B "$(dirname "$0")/collection.py" check_one "$@"
