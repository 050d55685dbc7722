#!/bin/sh
# Installs into an empty folder: the program runs there, the manual page names every option of `--help`, and its version is that of
# CHANGELOG.md; with a stand-in for the library, also below DESTDIR, and away again. Needs what `rt ci` has built. Says nothing where all is
# well.
set -e
cd "$(dirname "$0")/.."
data=$PWD/crates/smtcheck/data
work=$(mktemp -d)
trap 'rm -rf "$work"' EXIT
page=$work/to/share/man/man1/smtcheck.1

fail() {
    echo "install: $1"
    exit 1
}

./install.sh "$work/to" >"$work/said" 2>&1 || fail "$(cat "$work/said")"
version=$(sed -n 's/^## //p' CHANGELOG.md | head -n 1)
grep -q "^smtcheck $version (.*) is installed: $work/to/bin/smtcheck\$" "$work/said" || fail "it said $(cat "$work/said")"
(cd "$work" && PATH=$work/to/bin:$PATH smtcheck "$data/script.smt2" "$data/answers.txt" >report) || fail 'the installed program has another status'
cmp -s "$work/report" crates/smtcheck/stdout || fail 'the installed program has another report'
for file in LICENSE CHANGELOG.md LANGUAGE.md SOLVERS.md COLLECTIONS.md CLAIMS.md CONTRACTS.md TESTING.md explanation.schema.json; do
    [ -s "$work/to/share/doc/smtcheck/$file" ] || fail "no $file"
done

# documents lead to nothing that is not installed
for file in "$work"/to/share/doc/smtcheck/*.md; do
    grep -o '](\([^)]*\))' "$file" | sed 's/^](//; s/)$//; s/#.*//' | grep -v '^http' | LC_ALL=C sort -u >"$work/links" || true
    while read -r name; do
        [ -z "$name" ] || [ -e "$work/to/share/doc/smtcheck/$name" ] || fail "$(basename "$file") names $name, which is not installed"
    done <"$work/links"
done
"$work/to/share/smtcheck/collections/check_all.sh" --help >"$work/said" 2>&1 || ! command -v python3 >"$work/found" || fail "collections: $(cat "$work/said")"

# every option and argument of `--help`, and each status, is a line of the page
"$work/to/bin/smtcheck" --help >"$work/help" || [ $? = 5 ]
sed -n 's/^ *\(-[^ ].*\)$/\1/p; s/^ *\(<[A-Z]*>\)$/\1/p; s/^  \([0-9]\)  .*/\1/p' "$work/help" >"$work/named"
grep -q -- --print-success "$work/named" || fail 'no options in --help'
while read -r named; do
    grep -qxF ".B $(printf '%s\n' "$named" | sed 's/-/\\-/g')" "$page" || fail "the manual page does not name $named"
done <"$work/named"
grep -qF "smtcheck $version" "$page" || fail 'the manual page has another version'
# so is every fault, and every line of standard error
for file in script answers output memory; do
    grep -qx ".B smtcheck: $file" "$page" || fail "the manual page does not name smtcheck: $file"
done
for fault in $(cat crates/smt_faults/specs/FlawText.antt crates/smt_report/specs/LineText.antt |
    grep -o 'codes "[A-Z fault]*[XCPF][0-9]' | grep -o '[XCPF][0-9]$'); do
    grep -q "^\\.B $fault" "$page" || fail "the manual page does not name $fault"
done
# every line of the report, and each count
sed -n '/^| line | meaning |$/,/^$/s/^| `\([^`]*\)`.*/\1/p' docs/LANGUAGE.md >"$work/lines"
[ "$(wc -l <"$work/lines")" -ge 15 ] || fail 'no lines of the report in docs/LANGUAGE.md'
while read -r line; do
    grep -qF "$line" "$page" || fail "the manual page does not have the line $line"
done <"$work/lines"
for count in confirmed refuted undecided unchecked; do
    grep -qx ".B $count" "$page" || fail "the manual page does not explain $count"
done
! grep -qx -e 'Likely: \.' -e 'To do: \.' "$page" || fail 'the manual page leaves out what to do'
if command -v mandoc >"$work/said"; then
    mandoc -T lint -W error "$page" >"$work/said" || fail "$(cat "$work/said")"
fi

# a second time, over what is there; and refusals that say what to do
./install.sh "$work/to" >"$work/said" || fail 'not a second time'
for words in '' '--librarie x' '--library' 'one two'; do
    # (the words stand between spaces)
    ! ./install.sh $words >"$work/said" 2>&1 || fail "installed with '$words'"
    grep -q '^usage: ./install.sh .*PREFIX' "$work/said" || fail 'it does not say how it is called'
done
(cd "$work" && "$OLDPWD/install.sh" --help >said && [ ! -e ./--help ]) || fail '--help'
grep -q '^usage: ./install.sh' "$work/said" || fail '--help says nothing'

# The library, of a folder that is named: here one of a stand-in, below DESTDIR.
if command -v "${CC:-cc}" >"$work/found"; then
    mkdir "$work/library"
    cp crates/smtcheck_c/include/smtcheck.h "$work/library"
    printf '#include "smtcheck.h"\nsize_t smtcheck_version(char *text, size_t room) { (void)text; return room + 7; }\nint other(void) { return 1; }\n' >"$work/stand_in.c"
    (cd "$work" && "${CC:-cc}" -fPIC -Ilibrary -c stand_in.c && ar rc library/libsmtcheck.a stand_in.o)
    "${CC:-cc}" -shared -o "$work/library/libsmtcheck.so.2" -Wl,-soname,libsmtcheck.so.2 -Wl,--version-script=scripts/c_library.map \
        -Wl,--whole-archive "$work/library/libsmtcheck.a" -Wl,--no-whole-archive
    DESTDIR=$work/staged ./install.sh --library "$work/library" /opt/kit >"$work/said" || fail "$(cat "$work/said")"
    [ ! -e /opt/kit ] && grep -qx 'prefix=/opt/kit' "$work/staged/opt/kit/lib/pkgconfig/smtcheck.pc" || fail 'DESTDIR'
    if command -v nm >"$work/found"; then
        [ "$(nm -D --defined-only "$work/staged/opt/kit/lib/libsmtcheck.so.2" | awk '{ print $3 }')" = smtcheck_version ] || fail 'other names are exported'
    fi
    printf '#include <smtcheck.h>\nint main(void) { char text[1]; return (int)smtcheck_version(text, 1) - 8; }\n' >"$work/use.c"
    flags="-I$work/staged/opt/kit/include -L$work/staged/opt/kit/lib -lsmtcheck"
    if command -v pkg-config >"$work/found"; then
        flags=$(PKG_CONFIG_PATH=$work/staged/opt/kit/lib/pkgconfig PKG_CONFIG_SYSROOT_DIR=$work/staged pkg-config --cflags --libs smtcheck) || fail 'smtcheck.pc'
    fi
    # (flags stand between spaces)
    "${CC:-cc}" -o "$work/use" "$work/use.c" $flags || fail 'a program over the installed library'
    ! "$work/use" 2>"$work/said" && grep -q 'libsmtcheck\.so\.2' "$work/said" || fail 'the library has another name at run time'
    LD_LIBRARY_PATH=$work/staged/opt/kit/lib "$work/use" || fail 'the installed library'
    [ -e "$work/staged/opt/kit/share/smtcheck/python/libsmtcheck.so" ] || fail 'no library beside the Python module'

    # And away again: what is not of it stays.
    echo mine >"$work/staged/opt/kit/lib/mine"
    DESTDIR=$work/staged ./install.sh --uninstall /opt/kit >"$work/said" || fail 'not away'
    [ "$(cd "$work/staged" && find . ! -type d)" = ./opt/kit/lib/mine ] || fail "left: $(find "$work/staged" ! -type d)"
fi
./install.sh --uninstall "$work/to" >"$work/said" || fail 'not away'
[ -z "$(find "$work/to" -mindepth 1)" ] || fail "left: $(find "$work/to" -mindepth 1)"
! ./install.sh --uninstall "$work/to" >"$work/said" 2>&1 || fail 'away twice'
