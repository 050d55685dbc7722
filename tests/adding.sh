#!/bin/sh
# Adds the operator `bvumul_noovfl`, and the sort `Toy` with two elements, each to a copy of the sources by a patch of tests/adding. Looks that the patch
# applies, that it touches at most so many files of src and specs, and just those that docs/DEVELOPING.md lists, and that the compiler takes the code of
# smt_theory and smt_values (above them tests/variants.sh finds a place that is forgotten). It proves nothing and reads no definition, which takes
# a minute a crate. Prints how many files each patch touches.
set -e
cd "$(dirname "$0")/.."
command -v git >/dev/null || { echo 'adding: skipped, since there is no git'; exit 0; }
top=$PWD
work=$(mktemp -d)
trap 'rm -rf "$work"' EXIT
# (no copy is part of a repository)
unset GIT_DIR GIT_WORK_TREE GIT_INDEX_FILE
export GIT_CEILING_DIRECTORIES="$work"

fail() {
    echo "adding: $1"
    exit 1
}

# listed WHAT CRATE: the files that the list WHAT of DEVELOPING names in the item of the crate
listed() {
    awk -v head="**$1.**" -v crate="\`$2\`:" '
        index($0, head) == 1 { inside = 1; next }
        /^(\*\*|## )/ { inside = 0 }
        inside && /^([0-9]+\.|-) / && index($0, crate) { print }
    ' docs/DEVELOPING.md | grep -o '`[a-zA-Z0-9_/]*\.\(rt\|antt\)`' | tr -d '`' || true
}

# words FOLDER: what the compiler is called with for smt_values there, with all crates below as sources
words() {
    awk -v folder="$1/crates" -v kit="$kit" -v crate=smt_values '
        /^[a-z_]+:/ { name[++count] = $1; sub(/:/, "", name[count]); uses[count] = $0; sub(/^[^:]*: */, "", uses[count]) }
        END {
            of_kit["core"] of_kit["std"] wanted[crate]
            for (i = count; i > 0; i--) {
                if (!(name[i] in wanted)) continue
                parts = split(uses[i], part, " ")
                for (j = 1; j <= parts; j++) { wanted[part[j]]; of_kit[part[j]] }
                delete of_kit[name[i]]
                gsub(/ +/, ",", uses[i])
                if (name[i] != crate) print "--lib " name[i] ":core,std" (parts ? "," : "") uses[i] "=" folder "/" name[i] "/src/lib.rt"
            }
            for (one in of_kit) print "--extern " one "=" kit "/rlibs/" one ".rlib"
        }
    ' crates.txt
}

# touches PATCH WHAT MOST: the patch of this name, which adds what the list WHAT tells of, may touch so many files
touches() {
    for part in crates/*/src crates/*/specs; do
        mkdir -p "$work/$1/${part%/*}"
        cp -R "$part" "$work/$1/$part"
    done
    (cd "$work/$1" && git apply "$top/tests/adding/$1.patch") 2>"$work/refused" ||
        fail "bring tests/adding/$1.patch up to date, it no longer applies: $(cat "$work/refused")"
    git apply --numstat "tests/adding/$1.patch" | cut -f 3 | grep -E '^crates/[^/]*/(src|specs)/' | grep -v '/tests\.rt$' >"$work/touched" || true
    count=$(wc -l <"$work/touched")
    [ "$count" -ge 1 ] && [ "$count" -le "$3" ] || fail "$1 touches $count files of src and specs, and at most $3 are wanted: $(cat "$work/touched")"
    while read -r file; do
        # (a file that the patch makes has no name before)
        [ -e "$file" ] || continue
        crate=${file#crates/}
        found=
        for name in $(listed "$2" "${crate%%/*}"); do
            case /$file in */"$name") found=1 ;; esac
        done
        [ "$found" ] || fail "$1 touches $file, which docs/DEVELOPING.md does not list at '$2'"
    done <"$work/touched"
    for crate in $(cut -d / -f 2 "$work/touched" | sort -u); do
        for name in $(listed "$2" "$crate"); do
            grep -qE "^crates/$crate/(.*/)?$name\$" "$work/touched" || fail "docs/DEVELOPING.md lists $name of $crate at '$2', and $1 does not touch it"
        done
    done
    if command -v rt >/dev/null; then
        kit=$(dirname "$(rt doc)")
        (cd "$work/$1/crates/smt_values" && "$kit/bin/rattle" check --crate-name smt_values src/lib.rt $(cd "$top" && words "$work/$1") \
            -L "dependency=$kit/rlibs" --antt-project "$kit/rattle/logic/antt-project.json" --logic-built "$kit/logic_built" --jobs 1 --only '') \
            >"$work/read" 2>&1 || fail "the compiler refuses what tests/adding/$1.patch makes: $(grep -A 2 'error' "$work/read")"
    fi
    printed="$printed, $1 $count of $3"
}

printed=
touches bvumul_noovfl 'An operator' 6
touches toy_sort 'A sort' 43
echo "adding: files of src and specs touched:${printed#,}"
