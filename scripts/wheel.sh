#!/bin/sh
# Puts a wheel of the Python module, with the proved library in it, into a folder, and prints its name. Needs what scripts/c_library.sh
# needs, and Python 3.8. `pip install` takes the wheel without a network, on any Linux whose C library is as new as the wheel's name says.
#
#     scripts/wheel.sh FOLDER
set -e
[ $# = 1 ] || { echo "usage: scripts/wheel.sh FOLDER" >&2; exit 64; }
mkdir -p "$1"
to=$(cd "$1" && pwd)
cd "$(dirname "$0")/.."
work=$(mktemp -d)
trap 'rm -rf "$work"' EXIT
scripts/c_library.sh "$work"
cp bindings/python/pyproject.toml bindings/python/smtcheck.py bindings/python/smtcheck_wheel.py "$work"
rm "$work/libsmtcheck.so"
mv "$work/libsmtcheck.so.2" "$work/libsmtcheck.so"
cd "$work"
PYTHONDONTWRITEBYTECODE=1 python3 -c 'import sys, smtcheck_wheel as w; print(sys.argv[1] + "/" + w.build_wheel(sys.argv[1]))' "$to"
