#!/bin/sh
# Every fault that a report may show has a row in the last table of docs/LANGUAGE.md, and each is shown by a dialogue of its kind.
# SMTCHECK names the program; without it, that which `rt ci` has built. Says nothing where all is well.
set -e
cd "$(dirname "$0")/.."
program=${SMTCHECK:-$PWD/crates/smtcheck/out/smtcheck}
work=$(mktemp -d)
trap 'rm -rf "$work"' EXIT

# the faults that the definitions of the report's text name
cat crates/smt_faults/specs/FlawText.antt crates/smt_report/specs/LineText.antt |
    grep -o 'codes "[A-Z fault]*[XCPF][0-9]' | grep -o '[XCPF][0-9]$' | sort -u >"$work/named"
sed -n '/^| fault | meaning | likely cause | what to do |$/,/^$/p' docs/LANGUAGE.md | grep -o '^| `[XCPF][0-9]' | grep -o '[XCPF][0-9]' |
    sort -u >"$work/explained"
grep -q . "$work/named"
cmp -s "$work/named" "$work/explained" || {
    echo "docs/LANGUAGE.md explains other faults than there are: $(diff "$work/named" "$work/explained")"
    exit 1
}

# shows SUCCESS TEXT SCRIPT ANSWERS: the report on these has this text in a line, in the profile that `profile` names.
profile=base
shows() {
    printf '%s' "$3" >"$work/script"
    printf '%s' "$4" >"$work/answers"
    "$program" --profile "$profile" --print-success "$1" "$work/script" "$work/answers" >"$work/report" || [ $? -lt 4 ]
    grep -qF "$2" "$work/report" || { echo "faults: $2, $3, $4: $(cat "$work/report")"; exit 1; }
}

asked='(declare-const p Bool)(assert p)(check-sat)(get-model)'
model='sat ((define-fun p () Bool true))'
shows off 'fault X1 in the script at byte 32' '(declare-const p Bool)(assert p))' ''
shows off 'fault X1 in the script at byte 10' '(echo "a\"b")' '"a"'
shows off 'fault X1 in the answers at byte 7' "$asked" "WARNING: $model"
shows off 'fault X2 in the script at byte 1000' "$(printf '%01001d' 0 | tr 0 '(')" ''
shows off 'fault X3 in the script at byte 9' '(assert p' ''
shows off 'fault X3 in the answers at byte 29' "$asked" 'sat ((define-fun p () Bool tr'
shows off 'fault C1 at command 1' '(push)' ''
shows off 'fault C1 at command 1' '(minimize x)' ''
shows off 'fault C2 at command 1' '(define-sort S (x) Int)' ''
shows off 'fault C2 at command 1' '(declare-sort U 0)' ''
shows off 'fault C3 at command 1' '(push 10001)' ''
shows off 'fault C4 at command 1' '(pop 1)' ''
shows on 'fault C4 at command 2' '(push 1)(pop 1)' '(error "no") success'
shows off 'fault C5 at command 1' '(set-logic QF_LRA)' ''
shows off 'fault C5 at command 2' '(declare-const p Bool)(set-logic QF_BV)' ''
shows off 'fault C6 at command 2' '(exit)(check-sat)' ''
shows off 'fault C1 at command 1' '(declare-const let Int)' ''
shows off 'fault C7 F1 at command 1' '(assert ())' ''
shows off 'fault C7 F1 at command 1' '(assert let)' ''
shows off 'item 1 F1' "$asked" 'sat ((declare-fun p () Bool))'
shows off 'fault C7 F2 at command 1' '(declare-const x Real)' ''
shows off 'fault C7 F2 at command 1' '(assert (forall ((x Int)) true))' ''
shows off 'item 1 F2' "$asked" 'sat ((define-fun-rec p () Bool true))'
shows off 'fault C7 F3 at command 1' '(assert q)' ''
shows off 'fault C7 F3 at command 2' '(set-logic QF_BV)(declare-const x Int)' ''
shows off 'item 1 F3' "$asked" 'sat ((define-fun p () Bool q) (define-fun q () Bool true))'
shows off 'fault C7 F4 at command 1' '(assert (and true))' ''
shows off 'item 1 F4' "$asked" 'sat ((define-fun p () Int 1))'
shows off 'fault C7 F5 at command 1' '(declare-const x (_ BitVec 256))' ''
shows off 'fault C7 F5 at command 2' '(declare-const x (_ BitVec 8))(assert (= ((_ extract 0 7) x) #x00))' ''
shows off 'fault C7 F6 at command 1' '(assert (let ((x true) (x true)) x))' ''
shows off 'item 2 F6' "$asked" 'sat ((define-fun p () Bool true) (define-fun p () Bool true))'
shows off 'fault C7 F7 at command 2' '(declare-const p Bool)(declare-const p Bool)' ''
shows off 'item 1 F7' '(define-fun c () Int 1)(check-sat)(get-model)' 'sat ((define-fun c () Int 1))'
shows off 'fault C7 F8 at command 1' '(define-fun c () Bool (! true :named a))' ''
shows off 'fault C7 F8 at command 1' '(assert (let ((x true)) (! x :named a)))' ''
shows on 'fault P1 at command 1' '(set-logic QF_UF)' ''
shows off 'fault P1 at command 4' "$asked" 'sat'
shows on 'fault P2 at command 1, answer 1' "$asked" "$model"
shows off 'check 1 at command 3: sat, confirmed' "$asked" "$model"
shows off 'fault P2 at command 3, answer 1' "$asked" "success success $model"
shows on 'check 1 at command 3: sat, confirmed' "$asked" "success success $model"
shows off 'fault P2 at command 3, answer 1' "$asked" 'timeout'
shows off 'fault P2 at command 1, answer 1' '(echo "a")' 'a'
shows off 'fault P3 at answer 3' "$asked" "$model $model"
shows off 'fault P3 at answer 1' '(set-logic QF_UF)' 'success'
profile=wide
shows off 'fault C1 at command 1' "$(printf '%01001d' 0 | tr 0 '(')$(printf '%01001d' 0 | tr 0 ')')" ''
shows off 'fault X2 in the script at byte 1000000' "$(printf '%01000001d' 0 | tr 0 '(')" ''
shows off 'fault C7 F7 at command 1' '(declare-sort Real 0)' ''
shows off 'fault C7 F7 at command 1' '(define-sort Array () Int)' ''
shows off 'item 1 F7' '(declare-sort U 0)(assert (! true :named U!val!0))(check-sat)(get-model)' 'sat ((define-fun U!val!0 () Bool true))'
shows off 'item 1 F7' '(declare-sort U 0)(declare-const @a U)(check-sat)(get-model)' 'sat ((define-fun @a () U (as @a U)))'
shows off 'item 1 F3' '(declare-sort U 0)(declare-const U!val!0 U)(declare-const a U)(check-sat)(get-model)' 'sat ((define-fun a () U U!val!0))'
