#!/bin/sh
# No line of code or of a definition is wider than 120 columns, and none of a proof wider than 200, but for lines that are one string. A
# line that begins with `ghost` may have 130: `rt fmt` breaks none of them. Says nothing where that is so.
set -e
cd "$(dirname "$0")/.."

# the lines of the files that are named on the input which have more than so many characters
wider_than() {
    LC_ALL=C.UTF-8 xargs grep -HnE "^.{$1}." | grep -vE ':[0-9]+: *b?"[^"]*"[,;)]*$' | cut -d: -f1,2 || true
}

# the line of this number of the file that is named on the input, if it has more than so many characters
wider_at() {
    wider_than "$1" | grep -E ":$2\$" || true
}

wide=$(
    find crates/*/src crates/*/specs -name '*.rt' -o -name '*.antt' | sort | wider_than 120 | while IFS=: read -r file line; do
        case $(sed -n "${line}p" "$file" | sed 's/^ *//') in
        'ghost '*) echo "$file" | wider_at 130 "$line" ;;
        *) echo "$file:$line" ;;
        esac
    done
    find crates/*/proofs -name '*.antt' | sort | wider_than 200
)
if [ -n "$wide" ]; then
    echo "lines that are too wide (120 columns in src and specs, 130 of a ghost line, 200 in proofs):"
    echo "$wide"
    exit 1
fi
