#!/bin/sh
# table.sh RESULTS: prints the rows. --help tells more.
exec python3 -B "$(dirname "$0")/collection.py" table "$@"
