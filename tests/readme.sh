#!/bin/sh
# Runs the README's commands word for word, in a folder with the repository's files, and compares what they print with what it shows.
# `rt run` and `rt try` prove and compile nothing here: they run the program that `rt ci` has built. Where z3 is not installed, its
# answers are those that are kept. Says nothing where all is well.
set -e
cd "$(dirname "$0")/.."
top=$PWD
work=$(mktemp -d)
trap 'rm -rf "$work"' EXIT
mkdir -p "$work/bin" "$work/top/.ci" "$work/home"

fail() {
    echo "readme: $1"
    exit 1
}

for file in *; do
    ln -s "$top/$file" "$work/top/$file"
done
cat >"$work/bin/rt" <<END
#!/bin/sh
case "\$1 \$2" in 'doc ') exec "$(command -v rt)" doc ;; 'run --' | 'try --') ;; *) echo "readme: rt \$*" >&2; exit 1 ;; esac
shift 2
exec "$top/crates/smtcheck/out/smtcheck" "\$@"
END
printf '#!/bin/sh\n' >"$work/top/.ci/run"
cat >"$work/bin/z3" <<END
#!/bin/sh
[ "\$*" = crates/smtcheck/data/jobs.smt2 ] || exit 1
exec cat "$top/crates/smtcheck/data/jobs.txt"
END
chmod +x "$work/bin/rt" "$work/bin/z3" "$work/top/.ci/run"
if command -v z3 >"$work/found" && [ "$(z3 --version)" = 'Z3 version 4.8.12 - 64 bit' ]; then rm "$work/bin/z3"; fi

# Each block of commands, with the block behind it that shows what they print.
awk -v to="$work/block" '
    /^```sh$/ { blocks++; out = to blocks ".commands"; printf "" >out; in_block = 1; waits = 1; next }
    /^```$/ && in_block { in_block = 0; close(out); next }
    /^```$/ && waits { out = to blocks ".shown"; printf "" >out; in_block = 1; waits = 0; next }
    /^```$/ { out = "/dev/null"; in_block = 1; next }
    in_block { print >out; next }
    /^[^ ]/ { waits = waits && /:$/ }
' README.md
count=0
for commands in "$work"/block*.commands; do
    count=$((count + 1))
    status=0
    (cd "$work/top" && HOME=$work/home PATH=$work/bin:$PATH sh "$commands" >"$work/printed" 2>"$work/errors") || status=$?
    [ ! -s "$work/errors" ] || fail "$(cat "$commands"): $(cat "$work/errors")"
    shown=${commands%.commands}.shown
    if [ -e "$shown" ]; then
        cmp -s "$shown" "$work/printed" || fail "$(cat "$commands") prints: $(cat "$work/printed")"
    fi
    # the status that the verdict has
    case "$(tail -n 1 "$work/printed")" in
        'verdict: invalid'*) wanted=1 ;;
        *) wanted=0 ;;
    esac
    [ "$status" = "$wanted" ] || fail "$(cat "$commands") ends with $status"
done
[ "$count" -ge 5 ] && [ "$(ls "$work"/block*.shown | wc -l)" -ge 3 ] || fail 'too few commands or outputs were found'

# What it shows besides: lines of reports, the answer of a forgotten option, the kit, and its own length.
"$top/crates/smtcheck/out/smtcheck" crates/smtcheck/data/jobs.smt2 crates/smtcheck/data/jobs.txt >"$work/printed" || [ $? = 3 ]
grep -qx 'fault P2 at command 1, answer 1' "$work/printed" || fail "without the option: $(cat "$work/printed")"
HOME=$work/home ./install.sh "$work/home/.local" >"$work/printed" || fail 'install.sh'
# (another kit of the same logic has the same rules of proof)
kit=$(sed -n 's/.*`\(rattle-kit-[^ ]* logic [0-9a-f]*\)`.*/\1/p' README.md)
here=$(rt version)
[ "${kit#* }" = "${here#* }" ] || fail "it names another logic than $here"
[ "$(wc -l <README.md)" -le 90 ] || fail "it has $(wc -l <README.md) lines"

# Every link of the README and the documents leads to a file that is there.
for file in README.md CONTRIBUTING.md docs/*.md CHANGELOG.md; do
    grep -o '](\([^)]*\))' "$file" | sed 's/^](//; s/)$//; s/#.*//' | while read -r link; do
        case $link in '' | http*) continue ;; esac
        [ -e "$(dirname "$file")/$link" ] || { echo "readme: $file links to $link, which is not there"; exit 1; }
    done
done
