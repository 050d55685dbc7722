#!/bin/sh
# install.sh PREFIX: installs the program that `rt run` has proved and built, the library for C and Python if it is built, and the pages.
set -e
usage() {
    cat <<'END_OF_USAGE'
usage: ./install.sh [--library FOLDER] PREFIX    as in ./install.sh ~/.local
       ./install.sh --uninstall PREFIX           removes what was installed there
       ./install.sh --help

  bin/smtcheck               the program that `rt run` has proved and built
  share/man/man1             its manual page
  share/doc/smtcheck         the README, the changes and the documents
  share/smtcheck             collections/, for folders of scripts and competitions, and the Python module
  lib, include               the library for C: libsmtcheck.so, libsmtcheck.a, smtcheck.pc and smtcheck.h

The library is that of `scripts/c_library.sh FOLDER`, if --library names FOLDER, or else that of `rt lib` in crates/smtcheck_c; where neither
is there, the rest is installed. If DESTDIR is set, the files go below $DESTDIR/PREFIX, and name PREFIX.
END_OF_USAGE
}
refuse() {
    echo "install.sh: $1" >&2
    usage >&2
    exit 1
}

library=
removes=
while [ $# -gt 0 ]; do
    case $1 in
        --help | -h) usage; exit 0 ;;
        --uninstall) removes=yes ;;
        --library)
            [ $# -ge 2 ] || refuse '--library names no folder'
            library=$2
            shift ;;
        --) shift; break ;;
        -*) refuse "there is no option $1" ;;
        *) break ;;
    esac
    shift
done
[ $# = 1 ] && [ -n "$1" ] || refuse 'one PREFIX is wanted'
case $1 in
    /*) prefix=${1%/} ;;
    *) prefix=$PWD/${1%/} ;;
esac
to=$DESTDIR$prefix
top=$(cd "$(dirname "$0")" && pwd)
list=$to/share/smtcheck/installed

# Removes the files of the list, and the folders that are empty then.
uninstall() {
    [ -r "$list" ] || { echo "install.sh: $list is not there: nothing was installed by this script" >&2; exit 1; }
    folders=$(sed 's|/[^/]*$||' "$list" | LC_ALL=C sort -ru)
    files=$(cat "$list")
    printf '%s\n' "$files" | while read -r file; do
        rm -f "$to/$file"
    done
    for folder in $folders share/smtcheck share/doc share/man include lib share bin; do
        rmdir "$to/$folder" 2>/dev/null || true
    done
    echo "smtcheck is removed from $to"
}
if [ -n "$removes" ]; then
    uninstall
    exit 0
fi

program=$top/crates/smtcheck/out/smtcheck
if [ ! -x "$program" ]; then
    echo "install.sh: $program is not there. This proves and builds it, in about an hour:" >&2
    echo '    (cd crates/smtcheck && rt run -- "$PWD/data/script.smt2" "$PWD/data/answers.txt")' >&2
    exit 1
fi
version=$("$program" --version) || [ $? = 5 ]
work=$(mktemp -d)
trap 'rm -rf "$work"' EXIT

# put MODE FROM NAME: installs a file, which stands whole or not at all.
put() {
    mkdir -p "$to/$(dirname "$3")"
    cp "$2" "$to/$3.new"
    chmod "$1" "$to/$3.new"
    mv "$to/$3.new" "$to/$3"
    echo "$3" >>"$work/installed"
}

# link TARGET NAME: installs a link.
link() {
    mkdir -p "$to/$(dirname "$2")"
    ln -sf "$1" "$to/$2"
    echo "$2" >>"$work/installed"
}

# page FILE: a document, whose links lead to documents beside it, and to nothing that is not installed.
page() {
    sed 's|](docs/|](|g; s/\[\([^]]*\)\](\.\.\/*\(README\|CHANGELOG\)\.md\(#[^)]*\)*)/[\1](\2.md\3)/g
         s/!*\[\([^]]*\)\](\([^)#]*\/[^)]*\|[^)]*\.svg\))/\1/g' "$top/$1" >"$work/page"
    put 644 "$work/page" "share/doc/smtcheck/$(basename "$1")"
}

put 755 "$program" bin/smtcheck
"$top/scripts/man_page.sh" "$program" "$top/docs/LANGUAGE.md" >"$work/smtcheck.1"
put 644 "$work/smtcheck.1" share/man/man1/smtcheck.1
for file in LICENSE docs/explanation.schema.json docs/explanation.sarif.schema.json; do
    put 644 "$top/$file" "share/doc/smtcheck/$(basename "$file")"
done
(cd "$top" && ls README.md CHANGELOG.md docs/*.md) >"$work/pages"
while read -r file; do
    page "$file"
done <"$work/pages"
(cd "$top" && find collections -type f ! -name '*.pyc') >"$work/scripts"
while read -r file; do
    mode=644
    [ ! -x "$top/$file" ] || mode=755
    put "$mode" "$top/$file" "share/smtcheck/$file"
done <"$work/scripts"
put 644 "$top/bindings/python/smtcheck.py" share/smtcheck/python/smtcheck.py

# The library, of the folder that is named or of an archive that is newer than its code.
built=$top/crates/smtcheck_c/out/libsmtcheck_c.a
if [ -z "$library" ] && [ -e "$built" ] && [ -z "$(find "$top/crates/smtcheck_c/src" "$top/crates.txt" -newer "$built")" ]; then
    library=$work/library
    "$top/scripts/c_library.sh" "$library" >"$work/log" 2>&1 || { cat "$work/log"; library=; }
fi
if [ -n "$library" ]; then
    soname=libsmtcheck.so.2
    put 755 "$library/$soname" "lib/$soname"
    link "$soname" lib/libsmtcheck.so
    put 644 "$library/libsmtcheck.a" lib/libsmtcheck.a
    put 644 "$library/smtcheck.h" include/smtcheck.h
    number=${version#smtcheck }
    cat >"$work/smtcheck.pc" <<END_OF_PC
prefix=$prefix
libdir=\${prefix}/lib
includedir=\${prefix}/include

Name: smtcheck
Description: Checks the models that an SMT solver printed
Version: ${number%% *}
Libs: -L\${libdir} -lsmtcheck
Cflags: -I\${includedir}
END_OF_PC
    put 644 "$work/smtcheck.pc" lib/pkgconfig/smtcheck.pc
    link "../../../lib/$soname" share/smtcheck/python/libsmtcheck.so
fi
echo share/smtcheck/installed >>"$work/installed"
cp "$work/installed" "$list"

echo "$version is installed: $to/bin/smtcheck"
[ -n "$library" ] || echo 'The library for C and Python is not built, and not installed: (cd crates/smtcheck_c && rt lib)'
case ":$PATH:" in
    *":$prefix/bin:"*) ;;
    *) echo "Add $prefix/bin to PATH to call it by its name." ;;
esac
