#!/bin/sh
# Runs the program where its words or its streams are at fault: the status, and the line on standard error; and where a solver is at
# work: each line comes once it is decided. Looks which files it opens. Needs what `rt ci` has built, and for a part of it z3 and strace,
# which is left out with a word on standard error where there are none. Says nothing else where all is well.
set -e
cd "$(dirname "$0")/.."
program=$PWD/crates/smtcheck/out/smtcheck
data=$PWD/crates/smtcheck/data
work=$(mktemp -d)
trap 'rm -rf "$work"' EXIT

fail() {
    echo "streams: $1"
    exit 1
}

# expect STATUS LINE WORDS..: the output goes to $output.
expect() {
    want=$1
    line=$2
    shift 2
    status=0
    "$program" "$@" >"$output" 2>"$work/errors" || status=$?
    if [ "$status" != "$want" ] || [ "$(head -n 1 "$work/errors")" != "$line" ]; then
        echo "streams: $*: status $status, $(cat "$work/errors")"
        exit 1
    fi
}

output=/dev/full
expect 4 'smtcheck: output' "$data/script.smt2" "$data/answers.txt"
output=$work/output
expect 0 '' "$data/script.smt2" "$data/answers.txt"
cmp -s "$output" "$data/../stdout" || { echo 'streams: another report'; exit 1; }
expect 4 'smtcheck: script' "$work/none" "$work/none"
expect 4 'smtcheck: answers' "$data/script.smt2" "$work"
expect 5 'error: invalid UTF-8 was detected in one or more arguments' "$(printf '\377')" "$data/answers.txt"
expect 5 'error: the following required arguments were not provided:' "$data/script.smt2"
[ ! -s "$output" ] || { echo 'streams: a report of a refused command line'; exit 1; }

# What is missing or no file, and which of two is told.
: >"$work/there"
expect 0 '' "$work/there" "$work/there"
expect 4 'smtcheck: script' "$work/none" "$work/there"
expect 4 'smtcheck: answers' "$work/there" "$work/none"
expect 4 'smtcheck: script' "$work/none" "$work"
expect 4 'smtcheck: answers' "$work" "$work/none"
expect 4 'smtcheck: script' "$work" "$work/there"
expect 4 'smtcheck: answers' "$work/there" "$work"

# told NAME WHY: the second and last line says this of this name.
told() {
    [ "$(sed 1d "$work/errors")" = "$1: $2" ] || fail "told $(cat "$work/errors")"
}
missing='No such file or directory (os error 2)'
folder='Is a directory (os error 21)'
expect 4 'smtcheck: script' "$work/none" "$work/there"
told "$work/none" "$missing"
expect 4 'smtcheck: answers' "$work/there" "$work/none"
told "$work/none" "$missing"
expect 4 'smtcheck: script' "$work" "$work/there"
told "$work" "$folder"
expect 4 'smtcheck: answers' "$work/there" "$work"
told "$work" "$folder"

# Standard input as a text: of a file, of a pipe, a folder and closed. It is one of the two.
for words in "- $data/answers.txt" "$data/script.smt2 -"; do
    case $words in
    -*) text=$data/script.smt2 ;;
    *) text=$data/answers.txt ;;
    esac
    expect 0 '' $words <"$text"
    cmp -s "$output" "$data/../stdout" || fail "$words: another report"
    cat "$text" | { expect 0 '' $words; }
    cmp -s "$output" "$data/../stdout" || fail "$words, by a pipe: another report"
done
expect 4 'smtcheck: answers' "$data/script.smt2" - <"$work"
told 'standard input' "$folder"
expect 4 'smtcheck: script' - "$data/answers.txt" <&-
told 'standard input' 'Bad file descriptor (os error 9)'
expect 4 'smtcheck: answers' "$data/script.smt2" - <&-
told 'standard input' 'Bad file descriptor (os error 9)'
expect 4 'smtcheck: script' "$work/none" - <&-
told "$work/none" "$missing"
expect 4 'smtcheck: answers' - - <"$data/script.smt2"
told 'standard input' 'standard input is the script'
(cd "$work" && : >./- && expect 0 '' ./- "$work/there" && rm ./-)

# status STATUS SCRIPT ANSWERS: the status for files that hold these texts.
status() {
    printf "$2" >"$work/script"
    printf "$3" >"$work/answers"
    expect "$1" '' "$work/script" "$work/answers"
}

script='(declare-const p Bool)(assert p)(check-sat)(get-model)'
status 0 "$script" 'success success sat ((define-fun p () Bool true))'
status 1 "$script" 'success success sat ((define-fun p () Bool false))'
status 2 "$script" 'success success sat ()'
status 3 "$script" 'success'
status 3 '\177\000\001' '\000'

# Which files are opened: what the loader of programs opens aside, its limits and the two that are named, in order. No program is started, and nothing
# is asked of a network.
if strace -o "$work/trace" true 2>"$work/errors"; then
    printf '(declare-const p Bool)(set-option :diagnostic-output-channel "%s")(set-info :source |%s|)(check-sat)(get-model)' \
        "$work/none" "$work/none" >"$work/script"
    echo 'sat ((define-fun p () Bool true))' >"$work/answers"
    strace -f -o "$work/trace" "$program" --print-success off "$work/script" "$work/answers" >"$work/output"
    sed 's/^[0-9]* *//' "$work/trace" |
        grep '^\(open\|creat\|exec\|fork\|vfork\|clone\|socket\|connect\|bind\|link\|symlink\|unlink\|rename\|mkdir\)' |
        grep -v '/ld\.so\.\|\.so\.[0-9]' | sed 's/^execve(.*/execve/; s/(.*\/\([a-z]*\)", O_RDONLY.*/ \1/' >"$work/calls"
    printf '%s\n' execve 'openat limits' 'openat script' 'openat answers' | cmp -s - "$work/calls" || fail "it calls: $(cat "$work/calls")"
else
    echo 'streams: no strace, so that it is not looked at which files are opened' >&2
fi

# An output that is closed, and a pipe whose reader has gone, of which its writers are told by a signal too. Nor does the program need an
# input.
output=$work/output
status=0
"$program" "$data/script.smt2" "$data/answers.txt" >&- 2>"$work/errors" || status=$?
printf '%s\n' 'smtcheck: output' 'standard output: Bad file descriptor (os error 9)' | cmp -s - "$work/errors" && [ "$status" = 4 ] ||
    fail "a closed output: status $status, $(cat "$work/errors")"
mkfifo "$work/pipe"
{
    exec 5<"$work/pipe"
    exec 5<&-
    : >"$work/gone"
} &
{
    while [ ! -e "$work/gone" ]; do sleep 0.05; done
    status=0
    "$program" "$data/script.smt2" "$data/answers.txt" 2>"$work/errors" || status=$?
    echo "$status" >"$work/status"
} >"$work/pipe"
printf '%s\n' 'smtcheck: output' 'standard output: Broken pipe (os error 32)' | cmp -s - "$work/errors" && [ "$(cat "$work/status")" = 4 ] ||
    fail "a pipe without a reader: status $(cat "$work/status"), $(cat "$work/errors")"
"$program" "$data/script.smt2" "$data/answers.txt" <&- >"$output" 2>"$work/errors" || fail 'no input: no report'
cmp -s "$output" "$data/../stdout" || fail 'no input: another report'

# From here on the texts come slowly, through pipes. A writer that finds no reader doesn't end this script.
trap '' PIPE
valid='verdict: valid, confirmed 1, refuted 0, undecided 0, unchecked 1'
first='(declare-const p Bool)(assert p)(check-sat)(get-model)(push 1)'
second='(assert (not p))(check-sat)(pop 1)'
model='sat ((define-fun p () Bool true))'
cat >"$work/wanted" <<END
check 1 at command 3: sat, confirmed
check 2 at command 7: unsat
$valid
END
head -n 1 "$work/wanted" >"$work/wanted_first"

# until_true WHAT COMMAND..: waits until the command succeeds, for forty seconds at most: the machine may be busy.
until_true() {
    what=$1
    shift
    tries=0
    while ! "$@"; do
        tries=$((tries + 1))
        [ "$tries" -lt 800 ] || fail "$what: $(cat "$work/output" "$work/errors")"
        sleep 0.05
    done
}

# Whether the first line stands, and nothing else.
stands_first() {
    cmp -s "$work/output" "$work/wanted_first"
}

# Whether more than one line stands.
stands_second() {
    [ "$(wc -l <"$work/output")" -gt 1 ]
}

# begins: the program runs on two named pipes, open as 3 and 4 here, and prints into the file `output`.
begins() {
    rm -f "$work/script" "$work/answers"
    mkfifo "$work/script" "$work/answers"
    : >"$work/output"
    timeout 60 "$program" --print-success off "$work/script" "$work/answers" >"$work/output" 2>"$work/errors" 3>&- 4>&- &
    running=$!
    exec 3>"$work/script" 4>"$work/answers"
}

# ends WHAT STATUS LINE: both texts end here, and the program by this status and this line on standard error.
ends() {
    exec 3>&- 4>&-
    ended "$@"
}

# ended WHAT STATUS LINE: the same where the texts go on.
ended() {
    status=0
    wait "$running" 2>"$work/waited" || status=$?
    [ "$status" = "$2" ] && [ "$(cat "$work/errors")" = "$3" ] || fail "$1: status $status, $(cat "$work/errors")"
}

# Lines come before either text has ended.
begins
echo "$first" >&3
echo "$model" >&4
until_true 'a line that is decided' stands_first
echo "$second" >&3
echo unsat >&4
ends 'two named pipes' 0 ''
cmp -s "$work/output" "$work/wanted" || fail 'another report through pipes'

# A script that has gone from its folder is read to its end all the same.
rm -f "$work/script" "$work/answers"
echo "$first$second" >"$work/script"
mkfifo "$work/answers"
: >"$work/output"
timeout 60 "$program" --print-success off "$work/script" "$work/answers" >"$work/output" 2>"$work/errors" &
running=$!
exec 4>"$work/answers"
echo "$model" >&4
until_true 'a line of a script that is there' stands_first
rm "$work/script"
echo unsat >&4
ends 'a script that has gone' 0 ''
cmp -s "$work/output" "$work/wanted" || fail 'another report on a script that has gone'

# lines N LINE: the line, so often.
lines() {
    awk -v n="$1" -v line="$2" 'BEGIN { for (i = 0; i < n; i++) print line }'
}

# A text that shrinks while it is read ends where it ends then.
#
# shrinks FILE BYTES PIPE FIRST REST FAULT: the file is cut to so many bytes once its first piece was read and no more, as the line of the
# check tells. The other text is a pipe, through which come what the check needs, and the rest.
shrinks() {
    rm -f "$work/$3"
    mkfifo "$work/$3"
    : >"$work/output"
    timeout 60 "$program" "$work/script" "$work/answers" >"$work/output" 2>"$work/errors" &
    running=$!
    exec 4>"$work/$3"
    echo "$4" >&4
    until_true "a file that shrinks, $1" test -s "$work/output"
    truncate -s "$2" "$work/$1"
    lines 10000 "$5" >&4
    exec 4>&-
    ended "a file that shrinks, $1" 3 ''
    grep -q "^$6" "$work/output" || fail "a file that shrinks, $1: $(cat "$work/output")"
}

for bytes in 20000 0; do
    rm -f "$work/script"
    { echo '(check-sat)' && lines 10000 '(assert true)'; } >"$work/script"
    shrinks script "$bytes" answers unsat success "fault X3 in the script at byte ${bytes#0}"
done
rm -f "$work/script" "$work/answers"
{ echo unsat && lines 10000 success; } >"$work/answers"
shrinks answers 20003 script '(check-sat)' '(assert true)' 'fault P2 at command 2501, answer 2501'

# A reader that has closed: the next line is not written.
rm -f "$work/script" "$work/answers" "$work/pipe"
mkfifo "$work/script" "$work/answers" "$work/pipe"
head -c 10 "$work/pipe" >"$work/output" &
reader=$!
timeout 60 "$program" --print-success off "$work/script" "$work/answers" >"$work/pipe" 2>"$work/errors" &
running=$!
exec 3>"$work/script" 4>"$work/answers"
echo "$first" >&3
echo "$model" >&4
wait "$reader"
[ "$(cat "$work/output")" = 'check 1 at' ] || fail "a reader of ten bytes: $(cat "$work/output")"
echo "$second" >&3 || true
echo unsat >&4 || true
ends 'a reader that has closed' 4 'smtcheck: output
standard output: Broken pipe (os error 32)'

# A device that is full, where texts go on: the run ends at the first line.
rm -f "$work/script" "$work/answers"
mkfifo "$work/script" "$work/answers"
timeout 60 "$program" --print-success off "$work/script" "$work/answers" >/dev/full 2>"$work/errors" 3>&- 4>&- &
running=$!
exec 3>"$work/script" 4>"$work/answers"
echo "$first" >&3
echo "$model" >&4
ended 'a full device' 4 'smtcheck: output
standard output: No space left on device (os error 28)'
exec 3>&- 4>&-

# Each line comes once it is decided, though its answer was pulled with many others: each of 500 models takes long to judge, by functions that
# call one another, and what came of the one before stands by then. Where the run is stopped, whole lines are left.
awk 'BEGIN {
    printf "(define-fun f0 ((x Int)) Int (+ x x))"
    for (i = 1; i < 21; i++) printf "(define-fun f%d ((x Int)) Int (f%d (f%d x)))", i, i - 1, i - 1
    printf "(assert (= (f20 0) 0))"
    for (i = 0; i < 500; i++) printf "(check-sat)(get-model)"
}' >"$work/long_script"
lines 500 'sat ()' >"$work/long_answers"
: >"$work/output"
timeout 60 "$program" --print-success off "$work/long_script" "$work/long_answers" >"$work/output" 2>"$work/errors" &
running=$!
until_true 'a line before the next model' test -s "$work/output"
kill -0 "$running" || fail 'a line before the next model: the run has ended'
[ "$(wc -l <"$work/output")" -lt 20 ] || fail 'a line before the next model: it comes with others'
until_true 'a second line' stands_second
kill "$running"
ended 'a run that is stopped' 143 ''
awk '$0 != "check " NR " at command " 2 * NR + 21 ": sat, confirmed" { exit 1 }' "$work/output" ||
    fail "a run that is stopped: $(cat "$work/output")"

# A text that fails behind lines that were written: these stay.
rm -f "$work/script" "$work/answers"
echo '(foo)' >"$work/script"
output=$work/output
expect 4 'smtcheck: answers' "$work/script" "$work"
[ "$(head -n 1 "$output")" = 'fault C1 at command 1' ] || fail 'a fault that is not told'

if ! command -v z3 >"$work/z3"; then
    echo 'streams: no z3, so that no line is looked at while one works' >&2
    exit 0
fi

# z3 answers what it is asked through a pipe, and the second check is asked once the first line stands. The script is a file.
echo "$first$second" >"$work/script"
: >"$work/output"
status=0
{
    echo "$first"
    until_true 'a line while z3 waits' stands_first >&2
    echo "$second"
} | z3 -in | timeout 60 "$program" --print-success off "$work/script" /dev/stdin >"$work/output" 2>"$work/errors" || status=$?
[ "$status" = 0 ] && cmp -s "$work/output" "$work/wanted" || fail "z3 in a pipe: status $status, $(cat "$work/output" "$work/errors")"

# The same where the program too reads the script as it is asked, both texts through named pipes.
rm -f "$work/script" "$work/answers" "$work/asked"
mkfifo "$work/script" "$work/answers" "$work/asked"
: >"$work/output"
timeout 60 "$program" --print-success off "$work/script" "$work/answers" >"$work/output" 2>"$work/errors" &
running=$!
z3 -in <"$work/asked" >"$work/answers" &
solver=$!
exec 3>"$work/script" 4>"$work/asked"
echo "$first" | tee /dev/fd/4 >&3
until_true 'a line while z3 waits for more of a named pipe' stands_first
echo "$second" | tee /dev/fd/4 >&3
ends 'z3 through named pipes' 0 ''
wait "$solver"
cmp -s "$work/output" "$work/wanted" || fail 'another report through named pipes'
