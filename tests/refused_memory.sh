#!/bin/sh
# Runs the program, and the parts of it that the programs of rows call, with each of their requests for memory refused in turn. Each run
# has to give the right answer, or to say that memory was refused, behind the first lines of what is right. The parts:
#
#   the reader, names and terms, models, commands    rows of texts, terms, models and commands
#   validate, a session, a run                       rows of runs and of a session
#
# Requests are refused one in each run until a run meets none, or each in a copy of one run. Needs what `rt ci` has built, and a C
# compiler. Says nothing where all is well.
set -e
cd "$(dirname "$0")/.."
top=$PWD
work=$(mktemp -d)
trap 'rm -rf "$work"' EXIT
refuse=$work/refuse.so
"${CC:-cc}" -shared -fPIC -O1 -o "$refuse" tests/refuse_memory.c
"${CC:-cc}" -shared -fPIC -O1 -o "$work/each.so" tests/refuse_each.c

fail() {
    echo "refused memory: $1, request $number: $2"
    exit 1
}

# Runs the words behind the first, which says what they are, until no request is left to be refused; `$judge` looks at each run.
each_request() {
    what=$1
    shift
    number=0
    met=yes
    while [ "$met" = yes ]; do
        number=$((number + 1))
        status=0
        REFUSE=$number REFUSED=$work/met LD_PRELOAD=$refuse "$@" >"$work/output" 2>"$work/errors" || status=$?
        if [ -e "$work/met" ]; then rm "$work/met"; else met=no; fi
        "$judge"
    done
    [ "$number" -gt 10 ] || fail "$what" "only so many were met"
}

# What is read of each text is right, however it is cut; or status 1 and a line say that memory was refused, and what was printed
# before is right.
judge_reader() {
    output=$(cat "$work/output")
    if [ "$status" = 0 ]; then
        [ "$output" = "$read" ] || fail "$what" "$output"
    elif [ "$status" = 1 ] && [ "$met" = yes ]; then
        case $read in
        "$output"*) ;;
        *) fail "$what" "$output" ;;
        esac
        case $(cat "$work/errors") in
        *'out of memory' | *'memory allocation failed') ;;
        *) fail "$what" "$(cat "$work/errors")" ;;
        esac
    else
        fail "$what" "status $status, $output"
    fi
}

# The reader's requests are many, so that it runs beside the program, in a folder of its own.
(
    judge=judge_reader
    work=$work/reader
    mkdir "$work"
    printf 'texts: two texts\ntext: ((1)x)\ntext: abcdefghijklmnopqrstuvw\n' >"$work/texts.txt"
    read='two texts
((1)x) => ( ( n:1 ) s:x ) .
abcdefghijklmnopqrstuvw => s:abcdefghijklmnopqrstuvw .'
    each_request 'the reader' "$top/crates/rows/out/rows" "$work/texts.txt"
) &
reader=$!

# The program has status 4, the first lines of the report or none and a line that says why (a second one which file), or the status and the report that it has
# without a refusal.
judge_program() {
    if [ "$status" = "$right" ]; then
        cmp -s "$work/output" "$work/right" || fail "$what" 'another report'
    elif [ "$status" = 4 ] && [ "$met" = yes ]; then
        head -n "$(wc -l <"$work/output")" "$work/right" | cmp -s - "$work/output" || fail "$what" 'another report, with status 4'
        case $(head -n 1 "$work/errors") in
        'smtcheck: memory' | 'smtcheck: script' | 'smtcheck: answers') ;;
        *) fail "$what" "$(cat "$work/errors")" ;;
        esac
    else
        fail "$what" "status $status"
    fi
}

# An explained run may also have the status and the report that it has without an explanation, or no output in a form without a report, and say
# that there is no explanation.
judge_explained() {
    if [ "$status" = "$right" ] && [ "$met" = yes ] && ! cmp -s "$work/output" "$work/right"; then
        cmp -s "$work/output" "$work/report" || fail "$what" 'another report'
        grep -qx 'smtcheck: the explanation could not be made, or not be written' "$work/errors" || fail "$what" "$(cat "$work/errors")"
    else
        judge_program
    fi
}

program() {
    what=$1
    shift
    right=0
    "$top/crates/smtcheck/out/smtcheck" "$@" >"$work/right" 2>"$work/errors" || right=$?
    each_request "$what" "$top/crates/smtcheck/out/smtcheck" "$@"
}

# The same of a run with many requests, each of which is refused in a copy of the program. At least so many are said to be refused.
copies() {
    what=$1
    least=$2
    number=any
    shift 2
    right=0
    "$top/crates/smtcheck/out/smtcheck" "$@" >"$work/right" 2>"$work/errors" || right=$?
    status=0
    rm -f "$work/outcomes"
    OUTCOMES=$work/outcomes LD_PRELOAD=$work/each.so "$top/crates/smtcheck/out/smtcheck" "$@" >"$work/output" || status=$?
    [ "$status" = "$right" ] || fail "$what" "status $status of the program that was copied"
    cmp -s "$work/output" "$work/right" || fail "$what" 'another report of the program that was copied'
    # (a copy prints the lines behind those that the program had put when it was copied)
    awk -v right="$right" '{ line[NR] = $0 }
        END { for (from = 0; from <= NR; from++) {
            text = ""
            for (to = from; to <= NR; to++) {
                if (to > from) text = text line[to] "|"
                print "status 4, output: " text ", errors: smtcheck: memory|"
                print "status 4, output: " text ", errors: smtcheck: script|"
                print "status 4, output: " text ", errors: smtcheck: answers|" }
            print "status " right ", output: " text ", errors: " } }' "$work/right" >"$work/rightly"
    # (where a file can't be opened, a second line says which)
    sed -i 's/\(errors: smtcheck: [a-z]*|\)[^|]*|$/\1/' "$work/outcomes"
    if grep -vxF -f "$work/rightly" "$work/outcomes" >"$work/wrong"; then fail "$what" "$(head -n 1 "$work/wrong")"; fi
    refused=$(grep -c 'smtcheck: memory' "$work/outcomes")
    [ "$refused" -ge "$least" ] || fail "$what" "only $refused were met"
}

# each_copy WHAT LEAST PROGRAM WORD: the same of a program of rows on a file of rows, which prints little. Each copy has the status 0
# and the whole that is right; or 1, a beginning of that, and a line that says that memory was refused, of which there are at least so
# many; or the line `=> out of memory`, behind which the session answers the same to all that it is told, has no new line, and hands out
# those that were decided.
each_copy() {
    what=$1
    least=$2
    number=any
    rm -f "$work/outcomes"
    "$3" "$4" >"$work/right" || fail "$what" 'no right answer'
    OUTCOMES=$work/outcomes LD_PRELOAD=$work/each.so "$3" "$4" >"$work/output" || fail "$what" 'no answer of the program that was copied'
    cmp -s "$work/output" "$work/right" || fail "$what" 'another answer of the program that was copied'
    RIGHT=$(tr '\n' '|' <"$work/right") awk -v least="$least" '
        function begins(whole, part) {
            return substr(whole, 1, length(part)) == part
        }
        # The lines that were handed out.
        function handed(text,    lines, count, i, found) {
            count = split(text, lines, "|")
            found = ""
            for (i = 1; i <= count; i++) if (lines[i] ~ /^=> (check|fault|verdict)/) found = found lines[i] "|"
            return found
        }
        # Whether a session answers nothing else behind its first failure.
        function stays(text,    lines, count, i, failed) {
            count = split(text, lines, "|")
            failed = 0
            for (i = 1; i < count; i++) {
                if (lines[i] == "=> out of memory") failed = 1
                else if (failed && lines[i] ~ /^(script|answers|end) / && lines[i + 1] != "=> out of memory") return 0
            }
            return 1
        }
        BEGIN { right = ENVIRON["RIGHT"]; refused = 0 }
        {
            status = substr($0, 1, 8)
            comma = index($0, ", errors: ")
            output = substr($0, 19, comma - 19)
            errors = substr($0, comma + 10)
            if (status == "status 0" && errors == "" && output == right) next
            refused++
            if (status == "status 1" && begins(right, output) && errors ~ /(out of memory|memory allocation failed)\|$/) next
            if (status == "status 0" && errors == "" && index(output, "|=> out of memory|") && begins(handed(right), handed(output)) &&
                stays(output)) next
            print "wrong: " $0
            exit
        }
        END { if (refused < least) print "only " refused " were met" }' "$work/outcomes" >"$work/wrong"
    [ ! -s "$work/wrong" ] || fail "$what" "$(head -n 1 "$work/wrong")"
}

script=$(cat tests/every_command.smt2)
answers=$(cat tests/every_command.txt)
models=${script#*'(check-sat)'}
cat >"$work/terms.txt" <<'END'
terms: names and terms
declare: x Int
declare: f (Int) Int
define: g ((y Int)) Int (+ y 1)
declare: v (_ BitVec 8)
assert: (! (= (f x) (g x)) :named a)
assert: (let ((t (bvadd v #x01))) (= t #x03))
term: (and a (= (f x) (g x)))
term: (let ((t (f x)) (u v)) (ite a (= t 1) (bvult u v)))
END
cat >"$work/models.txt" <<'END'
models: a model, and one that lacks a name
declare: x Int
declare: f (Int) Int
declare: v (_ BitVec 8)
model: ((define-fun x () Int 2) (define-fun f ((y Int)) Int (+ y 1)) (define-fun v () (_ BitVec 8) #x02))
model: ((define-fun h () Int 2) (define-fun x () Int h))
END
# (what is in force behind the first check, and behind all commands)
{
    printf 'commands: before the check\n'
    printf '%s\n' "${script%%'(check-sat)'*}" | sed 's/)(/)\ncommand: (/g; s/^(/command: (/'
    printf '\ncommands: all\n'
    printf '%s\n' "$script" | sed 's/)(/)\ncommand: (/g; s/^(/command: (/'
} >"$work/commands.txt"
{
    printf 'session: in pieces\nstart: on\nscript: %s\n' "${script%%'(check-sat)'*}"
    printf 'answers: %s\nlines:\nscript: (check-sat)%s\n' "$answers" "${models%%'(pop 1)'*}"
    printf 'lines:\nscript: (pop 1)%s\nlines:\nend: answers\nend: script\nlines:\n' "${models#*'(pop 1)'}"
} >"$work/session.txt"
printf 'run: whole\nscript: %s\nanswers: %s\nstart: on\nfails: script\nfails: answers\n' "$script" "$answers" >"$work/run.txt"

rows=$top/crates/rows/out/rows
each_copy 'names and terms' 50 "$rows" "$work/terms.txt"
each_copy 'models' 50 "$rows" "$work/models.txt"
each_copy 'commands' 50 "$rows" "$work/commands.txt"
rows=$top/crates/dialogue_rows/out/dialogue_rows
each_copy 'a session' 100 "$rows" "$work/session.txt"
each_copy 'validate, and runs' 500 "$rows" "$work/run.txt"

judge=judge_program
data=$top/crates/smtcheck/data
program 'a valid dialogue' "$data/script.smt2" "$data/answers.txt"
program 'checks of every kind' "$top/tests/every_kind.smt2" "$top/tests/every_kind.txt"
program 'functions and variables' "$top/tests/functions.smt2" "$top/tests/functions.txt"
program 'levels, abbreviations and labels' "$top/tests/levels.smt2" "$top/tests/levels.txt"
program 'answers of every form' --print-success off "$top/tests/pairing.smt2" "$top/tests/pairing.txt"
program 'the texts swapped' "$data/answers.txt" "$data/script.smt2"
program 'a missing file' "$data/script.smt2" "$work/none"
program 'a word too many' "$data/script.smt2" "$data/answers.txt" "$data/script.smt2"
program 'help' --help
judge=judge_explained
for form in text json sarif; do
    : >"$work/report"
    [ "$form" != text ] || "$top/crates/smtcheck/out/smtcheck" "$top/tests/every_kind.smt2" "$top/tests/every_kind.txt" >"$work/report" || [ $? = 3 ]
    program "an explanation as $form" "--explain=$form" "$top/tests/every_kind.smt2" "$top/tests/every_kind.txt"
done
judge=judge_program
tests/chain.sh 1000 1 >"$work/script"
echo 'sat ()' >"$work/answers"
copies 'every command' 150 "$top/tests/every_command.smt2" "$top/tests/every_command.txt"
copies 'a chain of 1,000 functions' 5000 --print-success off "$work/script" "$work/answers"
# (names that were chosen to meet are kept by their order from some hundreds on)
if command -v python3 >"$work/python"; then
    PYTHONDONTWRITEBYTECODE=1 python3 tests/colliding_names.py --script 500 >"$work/script"
    : >"$work/answers"
    copies '500 names that meet' 1000 --print-success off "$work/script" "$work/answers"
else
    echo 'refused memory: names that meet skipped, no python3' >&2
fi
wait "$reader"
