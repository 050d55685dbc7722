#!/bin/sh
# taken.sh SCRIPT..: tells of each script whether it is taken whole, and the first command that is not. --help tells more.
exec python3 -B "$(dirname "$0")/taken.py" "$@"
