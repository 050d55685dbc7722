#!/bin/sh
# Puts the library for C into a folder: libsmtcheck.a, with the three functions over `malloc` that it calls, libsmtcheck.so.2, which exports
# the calls of smtcheck.h alone, with the link libsmtcheck.so to it, and smtcheck.h.
# Needs the kit's `rt`, a C compiler, and the libraries below crates/smtcheck_c: those that `rt lib` there, `rt run` in crates/smtcheck or
# `rt ci` has built. The archive of `rt lib` is taken if it is newer than the code. Else the kit's compiler builds it over these libraries,
# since `rt lib` would prove those of `rt ci` once more.
#
#     scripts/c_library.sh FOLDER
set -e
[ $# = 1 ] || { echo "usage: scripts/c_library.sh FOLDER" >&2; exit 64; }
mkdir -p "$1"
to=$(cd "$1" && pwd)
cd "$(dirname "$0")/.."
top=$PWD
kit=$(dirname "$(rt doc)")
built=$top/crates/smtcheck_c/out/libsmtcheck_c.a

# Builds the archive, which proves the crate over the libraries below it.
build() {
    cd crates/smtcheck_c
    mkdir -p out
    set -- --crate-name smtcheck_c src/lib.rt --crate-type staticlib --links smtcheck_c= --extern "std=$kit/rlibs/std.rlib" \
        -L "dependency=$kit/rlibs"
    for name in $(sed -n 's/^smtcheck_c staticlib: //p' "$top/crates.txt"); do
        set -- "$@" --extern "$name=$top/crates/$name/out/rlib/$name.rlib"
    done
    for at in "$top"/crates/*/out/rlib; do
        set -- "$@" -L "dependency=$at"
    done
    "$kit/bin/rattle" build "$@" --antt-project "$kit/rattle/logic/antt-project.json" --logic-built "$kit/logic_built" \
        --toolchain "$kit/toolchain" --backend llvm --jobs 2 -o "$built"
}

if [ ! -e "$built" ] || [ -n "$(find crates/smtcheck_c/src crates.txt -newer "$built")" ]; then
    if [ ! -d crates/smt_dialogue/out/rlib ]; then
        echo "c_library: no library is built: (cd crates/smtcheck_c && rt lib)" >&2
        exit 1
    fi
    echo 'c_library: proves and builds the archive, which takes some minutes' >&2
    (build) >"$to/build.log" 2>&1 && grep -q '^logic=proved ' "$to/build.log" || { rm -f "$built"; cat "$to/build.log" >&2; exit 1; }
    rm "$to/build.log"
fi
cp crates/smtcheck_c/include/smtcheck.h "$to"
printf 'create %s\naddlib %s\naddlib %s\nsave\nend\n' "$to/libsmtcheck.a" "$built" "$kit/c/liblibc_c.a" | ar -M
"${CC:-cc}" -shared -o "$to/libsmtcheck.so.2" -Wl,-soname,libsmtcheck.so.2 -Wl,--version-script="$top/scripts/c_library.map" \
    -Wl,--whole-archive "$to/libsmtcheck.a" -Wl,--no-whole-archive
ln -sf libsmtcheck.so.2 "$to/libsmtcheck.so"
