#!/bin/sh
# No proof cites a lemma file of another crate of this repository: what it needs of one is a law there. Says nothing where that is so.
set -e
cd "$(dirname "$0")/.."
cited=$(
    for proofs in crates/*/proofs; do
        crate=${proofs#crates/}
        crate=${crate%/proofs}
        find "$proofs" -name '*.antt' -exec grep -H '^use Rattle\.[a-z_]*\.proofs\.' {} + |
            grep -v "use Rattle\.\(std\|clap\|$crate\)\.proofs\." || true
    done
)
if [ -n "$cited" ]; then
    echo "proofs that cite lemmas of another crate:"
    echo "$cited"
    exit 1
fi
