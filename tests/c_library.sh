#!/bin/sh
# Builds the examples of the C library and runs them: a program in C and one in Python on the dialogues of solvers, whose reports have to be
# those of the program, one in C++ with an embedded solver, the deepest lists on a small stack, and 10,000 calls that are watched for
# memory. Needs what `rt ci` has built, or `rt lib` in crates/smtcheck_c, which builds no program to compare with: a word on standard error
# says so. Needs a C compiler; a C++ compiler, Python and valgrind are used where they are installed. Says nothing else where all is well.
set -e
cd "$(dirname "$0")/.."
top=$PWD
program=$top/crates/smtcheck/out/smtcheck
work=$(mktemp -d)
trap 'rm -rf "$work"' EXIT

fail() {
    echo "c library: $1"
    exit 1
}

if ! command -v "${CC:-cc}" >"$work/found"; then
    echo 'c library: skipped, since there is no C compiler'
    exit 0
fi
examples=crates/smtcheck_c/examples
[ -x "$program" ] || echo 'c library: the program is not built, and its reports are not compared' >&2
strict='-std=c99 -O1 -Wall -Wextra -Werror -pedantic'
scripts/c_library.sh "$work" 2>"$work/log" || fail "$(cat "$work/log")"

# the shared object exports the calls of smtcheck.h and no other name, and has a name of its own
if command -v nm >"$work/found" && command -v readelf >"$work/found"; then
    nm -D --defined-only "$work/libsmtcheck.so" | awk '{ print $3 }' | LC_ALL=C sort >"$work/exported"
    sed -n 's/^[a-z].* \**\(smtcheck_[a-z_]*\)(.*/\1/p' "$work/smtcheck.h" | LC_ALL=C sort >"$work/declared"
    cmp -s "$work/exported" "$work/declared" || fail "it exports $(cat "$work/exported")"
    readelf -d "$work/libsmtcheck.so" | grep -q 'SONAME.*\[libsmtcheck\.so\.2\]' || fail 'the shared object has no name'
fi

# the library's version is the program's
cat >"$work/version.c" <<'END_OF_C'
#include "smtcheck.h"
#include <stdio.h>
int main(void) {
    char text[200];
    size_t length = smtcheck_version(text, sizeof text);
    return printf("smtcheck %.*s\n", (int)length, text) < 0;
}
END_OF_C
"${CC:-cc}" $strict -I"$work" -o "$work/version" "$work/version.c" "$work/libsmtcheck.a"
"$work/version" >"$work/printed"
[ ! -x "$program" ] || "$program" --version | cmp -s - "$work/printed" || fail "version $(cat "$work/printed")"

"${CC:-cc}" $strict -I"$work" -o "$work/check" "$examples/check.c" "$work/libsmtcheck.a"
"$work/check" off crates/smtcheck/data/jobs.smt2 crates/smtcheck/data/jobs.txt >"$work/printed" || fail 'the example in C'
cat >"$work/shown" <<'END'
check 1 at command 12: sat, confirmed
check 2 at command 16: unsat
verdict: valid, confirmed 1, refuted 0, undecided 0, unchecked 1
END
cmp "$work/shown" "$work/printed"

if command -v "${CXX:-c++}" >"$work/found"; then
    "${CXX:-c++}" -std=c++11 -O1 -Wall -Wextra -Werror -I"$work" -o "$work/embedded" "$examples/embedded.cpp" "$work/libsmtcheck.a"
    "$work/embedded" >"$work/printed" || fail 'the example in C++'
    [ "$(wc -l <"$work/printed")" = 4 ] || fail "the example in C++ prints $(cat "$work/printed")"
fi

# a session, whose lines come as they are decided
"${CC:-cc}" $strict -g -fsanitize=address -I"$work" -o "$work/session" "$examples/session.c" "$work/libsmtcheck.a"
"$work/session" >"$work/printed" 2>"$work/errors" || fail "a session in C: $(cat "$work/errors")"
cat >"$work/shown" <<'END'
turn 1:
turn 2:
check 1 at command 3: sat, confirmed
turn 3:
check 2 at command 6: unsat
end:
verdict: valid, confirmed 1, refuted 0, undecided 0, unchecked 1
END
cmp -s "$work/printed" "$work/shown" || fail "a session in C prints $(cat "$work/printed")"

# the deepest lists, on threads of the stack that smtcheck.h says is enough
"${CC:-cc}" $strict -pthread -I"$work" -o "$work/small_stack" tests/small_stack.c "$work/libsmtcheck.a"
status=0
for explain in '' explain; do
    # (one word, or none)
    "$work/small_stack" 262144 $explain >"$work/printed" 2>&1 || status=$?
    [ "$status" = 0 ] || fail "256 KB of stack $explain: status $status, $(cat "$work/printed")"
done

# 10,000 calls in buffers with no byte to spare: under -fsanitize=address, and fewer under valgrind, which sees the library's own reads too
"${CC:-cc}" $strict -g -fsanitize=address -I"$work" -o "$work/loop" "$examples/loop.c" "$work/libsmtcheck.a"
"$work/loop" 10000 >"$work/printed" 2>&1 || fail "10,000 calls: $(cat "$work/printed")"
if command -v valgrind >"$work/found"; then
    "${CC:-cc}" $strict -g -I"$work" -o "$work/loop" "$examples/loop.c" "$work/libsmtcheck.a"
    valgrind -q --error-exitcode=9 --leak-check=full --errors-for-leak-kinds=all "$work/loop" 1000 >"$work/printed" 2>&1 ||
        fail "calls under valgrind: $(cat "$work/printed")"
fi

if command -v python3 >"$work/found"; then
    export SMTCHECK_LIBRARY="$work/libsmtcheck.so" PYTHONDONTWRITEBYTECODE=1
    python3 -m doctest bindings/python/smtcheck.py >"$work/printed" || fail "$(cat "$work/printed")"
    python3 tests/python_module.py >"$work/printed" 2>&1 || fail "the Python module: $(cat "$work/printed")"
    cat "$work/printed"
    [ ! -x "$program" ] || python3 bindings/python/compare.py "$program" "$work/check" crates/dialogue_rows/data/solvers.txt ||
        fail 'the dialogues of solvers'
fi
