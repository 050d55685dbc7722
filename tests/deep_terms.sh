#!/bin/sh
# Runs the program on terms that are evaluated deep, and on lists 1,000,000 deep, with a small machine's stack, and on definitions that no
# term uses: reading, checking and evaluating take memory for what waits, no stack, and nothing for what isn't used. And on the deepest
# terms where the heap has taken nearly all addresses. Needs what `rt ci` has built. Says nothing where all is well.
set -e
cd "$(dirname "$0")/.."
program=${SMTCHECK:-$PWD/crates/smtcheck/out/smtcheck}
work=$(mktemp -d)
trap 'rm -rf "$work"' EXIT

# report WHAT LINE [ANSWERS]: the report on the script on standard input and the answers, `sat ()` where none are given, begins with this
# line.
report() {
    cat >"$work/script"
    echo "${3:-sat ()}" >"$work/answers"
    timeout 120 "$program" --print-success off "$work/script" "$work/answers" >"$work/report" || [ $? -lt 4 ] ||
        { echo "deep terms: $1: no report"; exit 1; }
    [ "$(head -n 1 "$work/report")" = "$2" ] || { echo "deep terms: $1: $(head -n 1 "$work/report")"; exit 1; }
}

tests/chain.sh 1000000 1 | report 'a chain of 1,000,000 functions' 'check 1 at command 1000002: sat, confirmed'
tests/chain.sh 1000000 2 | report 'a chain with a wrong value' \
    'check 1 at command 1000002: sat, model of command 1000003: refuted by the assertion of command 1000001'

# Four functions nested 884 deep, each calling the one before.
awk 'BEGIN { for (i = 0; i < 4; i++) {
        printf "(define-fun f%d ((x Int)) Int ", i; for (k = 0; k < 884; k++) printf "(- "
        if (i) printf "(f%d x)", i - 1; else printf "x"
        for (k = 0; k < 884; k++) printf ")"; print ")" }
    print "(assert (= 0 (f3 0)))(check-sat)(get-model)" }' |
    report 'four functions nested deep' 'check 1 at command 6: sat, confirmed'

# Constants that take no time, since no assertion names them: each function calls the one before twice.
doubling() {
    awk 'BEGIN { print "(define-fun f0 ((x Int)) Int x)"
        for (i = 1; i < 64; i++) printf "(define-fun f%d ((x Int)) Int (+ (f%d x) (f%d x)))\n", i, i - 1, i - 1 }'
}
{ doubling; echo '(define-fun c () Int (f63 0))(assert true)(check-sat)(get-model)'; } |
    report 'an unused constant of the script' 'check 1 at command 67: sat, confirmed'
echo '(assert true)(check-sat)(get-model)' | report 'an unused constant of the model' 'check 1 at command 2: sat, confirmed' \
    "sat ($(doubling)(define-fun c () Int (f63 0)))"

# Lists that nest 1,000,000 deep, with 256 KB of stack, explained too.
deep() {
    cat >"$work/script"
    status=0
    (ulimit -s 256 &&
        exec timeout 120 "$program" --profile wide --steps 100000000 --explain --print-success off "$work/script" "$work/answers") \
        >"$work/report" 2>"$work/errors" || status=$?
    [ "$(head -n 1 "$work/report")" = "$2" ] || { echo "deep terms: $1: status $status, $(cat "$work/errors" "$work/report")"; exit 1; }
}

# nested COUNT HEAD OPEN MIDDLE CLOSE TAIL: a text with OPEN and CLOSE so often around a middle. In OPEN the first %d is the number of the list,
# from 1, and the others are the number before it.
nested() {
    awk -v count="$1" -v head="$2" -v open="$3" -v middle="$4" -v close_="$5" -v tail="$6" 'BEGIN {
        printf "%s", head
        for (k = 1; k <= count; k++) printf open, k, k - 1, k - 1
        printf "%s", middle
        for (k = 0; k < count; k++) printf "%s", close_
        print tail }'
}

head='(declare-const x0 Bool)(assert '
tail=')(check-sat)(get-model)'
confirmed='check 1 at command 3: sat, confirmed'
echo 'sat ((define-fun x0 () Bool true))' >"$work/answers"
nested 999998 "$head" '(not ' true ')' "$tail" | deep not "$confirmed"
nested 999999 "$head" '(! ' x0 ' :a)' "$tail" | deep annotations "$confirmed"
nested 999999 "$head" '(and true ' x0 ')' "$tail" | deep 'last arguments' "$confirmed"
nested 999999 "$head" '(= ' x0 ' true)' "$tail" | deep 'first arguments' "$confirmed"
nested 999996 "$head" '(let ((x%d (and x%d x%d))) ' x999996 ')' "$tail" | deep lets "$confirmed"
nested 333332 "$head" '(let ((y true) (x ' x0 ')) (and x y))' "$tail" | deep "lets' values" "$confirmed"
refuted='check 1 at command 3: sat, model of command 4: refuted by the assertion of command 2'
nested 999997 "$head" '(not ' true ')' "$tail" | deep 'not, false' "$refuted"
nested 999999 "$head" '(and ' false ' x0)' "$tail" | deep 'conjunctions, false' "$refuted"
nested 333332 "$head" '(let ((y true) (x ' '(not x0)' ')) (and x y))' "$tail" | deep "lets' values, false" "$refuted"
nested 142856 "$head" '(let ((x (= (! (ite true (and true ' x0 ' x0) false) :a) true))) x)' "$tail" | deep 'all mixed' "$confirmed"
nested 999998 "$head" '(and true ' '(and 1 true)' ')' "$tail" | deep 'a fault inside' 'fault C7 F4 at command 2'
nested 999999 "$head" '(and (' true ') nobody)' "$tail" | deep 'lists beyond the limit' 'fault X2 in the script at byte 3000030'
nested 999990 'sat ((define-fun f ((i Int)) Int ' '(ite (= i %d) %d ' 0 ')' '))' >"$work/answers"
echo '(declare-fun f (Int) Int)(assert (= (f 500000) 499999))(check-sat)(get-model)' | deep "a model's choices" "$confirmed"
nested 1000001 '' '(' '' ')' '' >"$work/answers"
echo '(check-sat)' | deep 'answers beyond the limit' 'fault X2 in the answers at byte 1000000'

# Under limits that leave too little for the stack of the deepest term it says so, and opens no file.
refused() {
    status=0
    (ulimit "$1" "$2" && shift 2 && exec "$program" "$@" "$work/none" "$work/none") >"$work/report" 2>"$work/errors" || status=$?
    [ "$status" = 4 ] && [ ! -s "$work/report" ] && [ "$(cat "$work/errors")" = 'smtcheck: memory' ] ||
        { echo "deep terms: ulimit $1 $2: status $status, $(cat "$work/errors")"; exit 1; }
}

refused -s 255
refused -v 8191
refused -s 255 --explain
refused -v 8191 --explain

# Within them the deepest term has its report.
echo 'sat ()' >"$work/answers"
awk 'BEGIN { printf "(assert "; for (k = 0; k < 998; k++) printf "(not "; printf "true"; for (k = 0; k < 998; k++) printf ")"
    print ")(check-sat)(get-model)" }' >"$work/script"
for limit in '-s 256' '-v 8192'; do
    status=0
    # (two words)
    (ulimit $limit && exec "$program" --print-success off "$work/script" "$work/answers") >"$work/report" 2>"$work/errors" || status=$?
    [ "$status" = 0 ] && [ "$(head -n 1 "$work/report")" = 'check 1 at command 2: sat, confirmed' ] ||
        { echo "deep terms: ulimit $limit: status $status, $(cat "$work/errors" "$work/report")"; exit 1; }
done

# A stack that can't grow any more would end it by a signal: the heap takes what the limit leaves, before the deepest term comes or with it.
# At each limit it gives the report, or says that memory was refused.
lets='for (k = 0; k < 990; k++) printf "(let ((x true)) "'
awk "BEGIN { print \"(declare-const p Bool)\"
    for (i = 0; i < 1500; i++) { printf \"(assert (and\"; for (k = 0; k < 100; k++) printf \" p\"; print \"))\" }
    printf \"(assert \"; $lets; printf \"x\"; for (k = 0; k < 991; k++) printf \")\"; print \"(check-sat)\" }" >"$work/before"
awk "BEGIN { printf \"(assert \"; $lets; printf \"(and\"; for (k = 0; k < 40000; k++) printf \" x\"
    for (k = 0; k < 992; k++) printf \")\"; print \"(check-sat)\" }" >"$work/within"
echo unsat >"$work/answers"
reports=0
for limit in $(seq 8192 200 16400); do
    for script in before within; do
        status=0
        (ulimit -c 0 && ulimit -v "$limit" && exec "$program" --print-success off "$work/$script" "$work/answers") >"$work/report" \
            2>"$work/errors" || status=$?
        if [ "$status" = 0 ]; then
            reports=$((reports + 1))
        else
            [ "$status" = 4 ] && [ ! -s "$work/report" ] && [ "$(cat "$work/errors")" = 'smtcheck: memory' ] ||
                { echo "deep terms: ulimit -v $limit: status $status, $(cat "$work/errors")"; exit 1; }
        fi
    done
done
[ "$reports" -gt 0 ] || { echo "deep terms: no limit is enough"; exit 1; }
