#!/bin/sh
# Looks that what the documents say of the repository is so: contracts and laws, the copy of 'valid' and what it rests on, layers and files,
# numbers, names, paths and links. Prints what is not. `python3 tests/docs.py --write` writes what it computes. Wants Python 3.
set -e
cd "$(dirname "$0")/.."
command -v python3 >/dev/null 2>&1 || { echo 'docs: skipped, no python3' >&2; exit 0; }
PYTHONDONTWRITEBYTECODE=1 python3 tests/docs.py
