#!/bin/sh
# Runs `--explain` on each fault of docs/LANGUAGE.md, compares its forms on those dialogues (tests/explain_forms.py), and runs those of
# tests/explain.py, whose places and values are compared with a scanner and an evaluator of their own. SMTCHECK names the program; without
# it, that which `rt ci` has built. Says nothing where all is well.
set -e
cd "$(dirname "$0")/.."
program=${SMTCHECK:-$PWD/crates/smtcheck/out/smtcheck}
work=$(mktemp -d)
trap 'rm -rf "$work"' EXIT

fail() {
    echo "explain: $1: $(cat "$work/told")"
    exit 1
}

# explains ROW SUCCESS SCRIPT ANSWERS TEXT..: the explanation of this dialogue is these lines. ROW is the row of the table of faults in
# docs/LANGUAGE.md that it is of, or `-`. The dialogue stays for the comparison of forms.
: >"$work/rows"
count=100
explains() {
    printf '%s\n' "$1" >>"$work/rows"
    count=$((count + 1))
    kept=$work/dialogues/$count
    mkdir -p "$kept"
    words="--profile ${profile:-base} --steps ${steps:-10000000} --print-success $2"
    echo "$words" >"$kept/words"
    printf '%s' "$3" >"$kept/s"
    printf '%s' "$4" >"$kept/a"
    name=$3
    shift 4
    for line; do printf '%s\n' "$line"; done >"$work/wanted"
    # (the words stand between spaces)
    (cd "$kept" && "$program" --explain $words s a 2>"$work/said" >"$work/all") || [ $? -lt 4 ]
    sed '1,/^verdict: /d' "$work/all" >"$work/told"
    cmp -s "$work/told" "$work/wanted" || fail "$name"
}

asked='(declare-const p Bool)(assert p)(check-sat)(get-model)'
model='sat ((define-fun p () Bool true))'

# ---- texts
explains 'X1 in the script' off '(declare-const p Bool)(assert p))' '' 's:1:33: fault: no text goes on like this: )'
explains 'X1 in the answers' off "$asked" "WARNING: $model" 'a:1:8: fault: no text goes on like this: : sat ((define-fun p () Bool true))'
explains X2 off "$(printf '%01001d' 0 | tr 0 '(')" '' 's:1:1001: fault: a list at a depth over 1,000'
explains X3 off '(assert
 (and p' '' 's:2:8: fault: the text ends here' 's:2:2: open list: (and p' 's:1:1: outermost open list: (assert'
explains X3 off '(echo "a' '' 's:1:9: fault: the text ends here' 's:1:7: string or quoted symbol that does not end: "a' 's:1:1: open list: (echo "a'
explains X3 off "$asked" 'sat (
  (define-fun p' 's:1:33: check 1, command 3: (check-sat)' '    no model: no (get-model) was answered by a model before the next check or change' \
    'a:2:16: fault: the text ends here' 'a:2:3: open list: (define-fun p' 'a:1:5: outermost open list: ('

# ---- commands
explains C1 off '(push)' '' 's:1:1: fault, command 1: (push)' '    C1: no command of the standard, or not in its form'
explains C1 off '(check-sat)
  (minimize x)' 'unsat' 's:1:1: check 1, command 1: (check-sat)' 'a:1:1: answer: unsat' 's:2:3: fault, command 2: (minimize x)' \
    '    C1: no command of the standard, or not in its form'
explains C2 off '(declare-sort U 0)' '' 's:1:1: fault, command 1: (declare-sort U 0)' '    C2: a command that is not supported'
explains C3 off '(push 10001)' '' 's:1:1: fault, command 1: (push 10001)' '    C3: it makes more than 10,000 levels'
explains C4 off '(push 1)
(pop 2)' '' 's:2:1: fault, command 2: (pop 2)' '    C4: it pops more levels than there are'
late='    C5: the logic or option is not supported, or is set behind a declaration or a check'
explains C5 off '(set-logic QF_LRA)' '' 's:1:1: fault, command 1: (set-logic QF_LRA)' "$late"
explains C5 off '(declare-const p Bool)(set-logic QF_UF)' '' 's:1:23: fault, command 2: (set-logic QF_UF)' "$late"
explains C6 off '(exit)(check-sat)' '' 's:1:7: fault, command 2: (check-sat)' '    C6: it stands behind an exit that took effect'
explains C7 off '(declare-const x Int)(check-sat-assuming (x))' 'sat' 's:1:22: fault, command 2: (check-sat-assuming (x))' \
    '    C7: F4: arguments that the head does not take, or another sort than is needed' '    a literal is of sort Int, and Bool is needed'
explains C7 off '(declare-const p Bool)(check-sat-assuming (p (not q)))' 'sat' 's:1:23: fault, command 2: (check-sat-assuming (p (not q)))' \
    '    C7: F3: a name, a sort or a literal is unknown there' '    unknown: q'

# ---- terms, sorts and names of commands
explains F1 off '(assert ())' '' 's:1:1: fault, command 1: (assert ())' '    C7: F1: a sort, a term or an item is not in form'
explains F2 off '(declare-const x Real)' '' 's:1:1: fault, command 1: (declare-const x Real)' \
    '    C7: F2: a quantifier, a decimal, a string or a sort that is not supported'
explains F3 off '(declare-const p Bool)(assert (let ((a p)) (and a q)))' '' 's:1:23: fault, command 2: (assert (let ((a p)) (and a q)))' \
    '    C7: F3: a name, a sort or a literal is unknown there' '    unknown: q'
explains F3 off '(assert (or (let ((a true)) a) a (f true)))' '' 's:1:1: fault, command 1: (assert (or (let ((a true)) a) a (f true)))' \
    '    C7: F3: a name, a sort or a literal is unknown there' '    unknown: a'
explains F3 off '(define-sort S () Bool)(define-fun f ((x S)) T x)' '' 's:1:24: fault, command 2: (define-fun f ((x S)) T x)' \
    '    C7: F3: a name, a sort or a literal is unknown there' '    unknown: T'
ill='    C7: F4: arguments that the head does not take, or another sort than is needed'
explains F4 off '(assert (and true))' '' 's:1:1: fault, command 1: (assert (and true))' "$ill" '    ill sorted: (and true)' \
    '    arguments needed: 2, and there are 1'
explains F4 off '(declare-const x Int)(assert (! x :named a))' '' 's:1:22: fault, command 2: (assert (! x :named a))' "$ill" \
    '    its term is of sort Int, and Bool is needed'
explains F4 off '(declare-const x Int)(declare-const p Bool)
(assert (let ((y x) (x true)) (and (! p :named a) x (= (+ y 1) (ite p y x)))))' '' \
    's:2:1: fault, command 3: (assert (let ((y x) (x true)) (and (! p :named a) x (= (+ y 1) (ite p y x)))))' "$ill" '    ill sorted: (ite p y x)' \
    '    argument 3: x is of sort Bool, and Int is needed'
explains F4 off '(define-sort B () (_ BitVec 8))(declare-const v B)(assert (= #b000 (bvadd v ((_ extract 2 0) v))))' '' \
    's:1:51: fault, command 3: (assert (= #b000 (bvadd v ((_ extract 2 0) v))))' "$ill" '    ill sorted: (bvadd v ((_ extract 2 0) v))' \
    '    argument 2: ((_ extract 2 0) v) is of sort (_ BitVec 3), and (_ BitVec 8) is needed'
explains F4 off '(declare-fun f (Int Bool) Int)(assert (= 1 (f true true)))' '' 's:1:31: fault, command 2: (assert (= 1 (f true true)))' "$ill" \
    '    ill sorted: (f true true)' '    argument 1: true is of sort Bool, and Int is needed'
explains F4 off '(declare-fun f (Int Bool) Int)(assert (= 1 (f 1)))' '' 's:1:31: fault, command 2: (assert (= 1 (f 1)))' "$ill" \
    '    ill sorted: (f 1)' '    arguments needed: 2, and there are 1'
explains F4 off '(assert (! true :named a))(assert (=> a (= a 1)))' '' 's:1:27: fault, command 2: (assert (=> a (= a 1)))' "$ill" \
    '    ill sorted: (= a 1)' '    argument 2: 1 is of sort Int, and Bool is needed'
explains F4 off '(assert (let ((x 1)) (x 2)))' '' 's:1:1: fault, command 1: (assert (let ((x 1)) (x 2)))' "$ill" '    ill sorted: (x 2)' \
    '    its head is a variable, which takes no arguments'
explains F4 off '(define-fun f ((x Int) (y (_ BitVec 8))) Int y)' '' 's:1:1: fault, command 1: (define-fun f ((x Int) (y (_ BitVec 8))) Int y)' "$ill" \
    '    its body is of sort (_ BitVec 8), and Int is needed'
explains F4 off '(set-logic QF_BV)(push 1)(declare-const x Bool)(pop 1)(declare-const x (_ BitVec 2))(assert (bvult x #b1))' '' \
    's:1:85: fault, command 6: (assert (bvult x #b1))' "$ill" '    ill sorted: (bvult x #b1)' \
    '    argument 2: #b1 is of sort (_ BitVec 1), and (_ BitVec 2) is needed'
explains F4 off '(declare-const v (_ BitVec 100))(assert (= v (concat v v)))' '' 's:1:33: fault, command 2: (assert (= v (concat v v)))' "$ill" \
    '    ill sorted: (concat v v)' '    sorts of its arguments: (_ BitVec 100) (_ BitVec 100)'
explains F5 off '(declare-const x (_ BitVec 256))' '' 's:1:1: fault, command 1: (declare-const x (_ BitVec 256))' \
    '    C7: F5: an index or a width is wrong; widths go from 1 to 128'
explains F6 off '(assert (let ((x true) (x true)) x))' '' 's:1:1: fault, command 1: (assert (let ((x true) (x true)) x))' \
    '    C7: F6: a name is bound twice' '    bound twice: x'
used="    C7: F7: the name is in use, or is an operator's"
explains F7 off '(declare-const p Bool)
(declare-const |p| Int)' '' 's:2:1: fault, command 2: (declare-const p Int)' "$used" 's:1:1: in use, command 1: (declare-const p Bool)'
explains F7 off '(assert (! true :named a))
(declare-const a Bool)' '' 's:2:1: fault, command 2: (declare-const a Bool)' "$used" 's:1:1: in use, command 1: (assert (! true :named a))'
explains F7 off '(assert (! true :named a)) (assert (or true
 (! false :named |a|)))' '' 's:1:28: fault, command 2: (assert (or true (! false :named a)))' "$used" 's:2:18: label: |a|' \
    's:1:1: in use, command 1: (assert (! true :named a))'
explains F7 off '(assert (and (! true :named a) (! false :named a)))' '' \
    's:1:1: fault, command 1: (assert (and (! true :named a) (! false :named a)))' "$used" 's:1:48: label: a' 's:1:29: in use: this label'
explains F7 off '(assert (! true :named and))' '' 's:1:1: fault, command 1: (assert (! true :named and))' "$used" 's:1:24: label: and' \
    "    it is an operator's name"
explains F7 off '(declare-const p Bool)(define-sort p () Bool)(define-sort p () Int)' '' 's:1:46: fault, command 3: (define-sort p () Int)' "$used" \
    's:1:23: in use, command 2: (define-sort p () Bool)'
explains F7 off '(define-sort Int () Bool)' '' 's:1:1: fault, command 1: (define-sort Int () Bool)' "$used" '    it is a sort of a theory'
explains F8 off '(define-fun c () Bool (! true :named a))' '' 's:1:1: fault, command 1: (define-fun c () Bool (! true :named a))' \
    '    C7: F8: a label outside an assertion, or at a term that uses a variable from outside'

# ---- the same in items of a model
check='s:1:33: check 1, command 3: (check-sat)'
explains F1 off "$asked" 'sat (foo)' "$check" 'a:1:6: item 1: foo' '    F1: a sort, a term or an item is not in form'
explains F2 off "$asked" 'sat ((define-fun q () Real 1.5))' "$check" 'a:1:6: item 1: (define-fun q () Real 1.5)' \
    '    F2: a quantifier, a decimal, a string or a sort that is not supported'
explains F3 off "$asked" 'sat ((define-fun p () Bool q))' "$check" 'a:1:6: item 1: (define-fun p () Bool q)' \
    '    F3: a name, a sort or a literal is unknown there' '    unknown: q'
explains F4 off "$asked" 'sat ((define-fun p () Int 1))' "$check" 'a:1:6: item 1: (define-fun p () Int 1)' \
    '    F4: arguments that the head does not take, or another sort than is needed' 's:1:1: declared, command 1: (declare-const p Bool)' \
    '    its result is of sort Int, and Bool is needed'
explains F4 off "$asked" 'sat ((define-fun p () Bool 1))' "$check" 'a:1:6: item 1: (define-fun p () Bool 1)' \
    '    F4: arguments that the head does not take, or another sort than is needed' 's:1:1: declared, command 1: (declare-const p Bool)' \
    '    its body is of sort Int, and Bool is needed'
asked_f='(declare-fun f (Int Int) Bool)(check-sat)(get-model)'
check_f='s:1:31: check 1, command 2: (check-sat)'
explains F4 off "$asked_f" 'sat ((define-fun g ((a Int)) Bool (< a 2)) (define-fun f ((x Int) (y Int)) Bool (g (g x))))' "$check_f" \
    'a:1:44: item 2: (define-fun f ((x Int) (y Int)) Bool (g (g x)))' '    F4: arguments that the head does not take, or another sort than is needed' \
    's:1:1: declared, command 1: (declare-fun f (Int Int) Bool)' '    ill sorted: (g (g x))' \
    '    argument 1: (g x) is of sort Bool, and Int is needed'
explains F4 off "$asked_f" 'sat ((define-fun f ((x Int) (y Bool)) Bool true))' "$check_f" 'a:1:6: item 1: (define-fun f ((x Int) (y Bool)) Bool true)' \
    '    F4: arguments that the head does not take, or another sort than is needed' 's:1:1: declared, command 1: (declare-fun f (Int Int) Bool)' \
    '    parameter 2: it is of sort Bool, and Int is needed'
explains F4 off "$asked_f" 'sat ((define-fun f ((x Int)) Bool true))' "$check_f" 'a:1:6: item 1: (define-fun f ((x Int)) Bool true)' \
    '    F4: arguments that the head does not take, or another sort than is needed' 's:1:1: declared, command 1: (declare-fun f (Int Int) Bool)' \
    '    parameters declared: 2, and there are 1'
explains F5 off "$asked" 'sat ((define-fun x () (_ BitVec 0) #b0))' "$check" 'a:1:6: item 1: (define-fun x () (_ BitVec 0) #b0)' \
    '    F5: an index or a width is wrong; widths go from 1 to 128'
explains F6 off "$asked" 'sat (model
(define-fun p () Bool true) (define-fun p () Bool true))' "$check" 'a:2:29: item 2: (define-fun p () Bool true)' '    F6: a name is bound twice' \
    'a:2:1: bound before: (define-fun p () Bool true)'
explains F6 off "$asked" 'sat ((define-fun f ((x Int) (x Int)) Int 1))' "$check" 'a:1:6: item 1: (define-fun f ((x Int) (x Int)) Int 1)' \
    '    F6: a name is bound twice' '    bound twice: x'
used="    F7: the name is in use, or is an operator's"
explains F7 off '(assert (! true :named a))(check-sat)(get-model)' 'sat ((define-fun a () Bool true))' 's:1:27: check 1, command 2: (check-sat)' \
    'a:1:6: item 1: (define-fun a () Bool true)' "$used" 's:1:1: in use, command 1: (assert (! true :named a))'
explains F7 off '(define-fun c () Int 1)(check-sat)(get-model)' 'sat ((define-fun c () Int 1))' 's:1:24: check 1, command 2: (check-sat)' \
    'a:1:6: item 1: (define-fun c () Int 1)' "$used" 's:1:1: in use, command 1: (define-fun c () Int 1)'
explains F7 off "$asked" 'sat ((define-fun and () Int 1))' "$check" 'a:1:6: item 1: (define-fun and () Int 1)' "$used" "    it is an operator's name"
explains F8 off "$asked" 'sat ((define-fun p () Bool (! true :named b)))' "$check" 'a:1:6: item 1: (define-fun p () Bool (! true :named b))' \
    '    F8: a label outside an assertion, or at a term that uses a variable from outside'

# ---- pairing
general='    it needs success, unsupported or an error, since success is printed there'
explains P1 on '(set-logic QF_UF)' '' 's:1:1: fault, command 1: (set-logic QF_UF)' "$general" 'a:1:1: the answers end'
explains P1 off "$asked" 'sat
' "$check" '    no model: no (get-model) was answered by a model before the next check or change' 's:1:44: fault, command 4: (get-model)' \
    '    it needs a list, a model or an error, or unsupported' 'a:2:1: the answers end'
explains 'P2 at command 1, answer 1' on "$asked" "$model" 's:1:1: fault, command 1: (declare-const p Bool)' "$general" 'a:1:1: next answer: sat'
explains 'P2 at the first check-sat, answer 1' off "$asked" 'success' 's:1:33: fault, command 3: (check-sat)' \
    '    it needs sat, unsat, unknown, unsupported or an error' 'a:1:1: next answer: success'
explains 'P2 elsewhere' off '(check-sat)(echo "a")' 'unsat
a' 's:1:1: check 1, command 1: (check-sat)' 'a:1:1: answer: unsat' 's:1:12: fault, command 2: (echo "..")' \
    '    it needs a string, unsupported or an error' 'a:2:1: next answer: a'
explains 'P2 elsewhere' off '(get-info :name)' 'success' 's:1:1: fault, command 1: (get-info :name)' '    it needs an answer other than success' \
    'a:1:1: next answer: success'
explains P3 off "$asked" "$model sat" 'a:1:35: fault: sat' '    every command has its answer: this one, and all behind it, are left over'

# ---- checks
explains - off "$asked" 'unsat (error "")' "$check" 'a:1:1: answer: unsat'
explains - off '(declare-const p Bool)(assert p)(check-sat)' 'sat' "$check" \
    '    no model: no (get-model) was answered by a model before the next check or change'
explains - off "$asked" 'sat ()' "$check" 's:1:1: lacks, command 1: (declare-const p Bool)' 'a:1:5: model'
explains - off '(declare-const x Int)(assert (or (= x 1) (< (div 1 x) 5)))(check-sat)(get-model)' 'sat ((define-fun x () Int 0))' \
    's:1:59: check 1, command 3: (check-sat)' 's:1:22: claim, command 2: (assert (or (= x 1) (< (div 1 x) 5)))' 's:1:22: open: (div 1 x)' \
    '    a division by zero' '    x = 0' 'a:1:6: item x' 'a:1:5: model'
explains - off '(declare-const p Bool)(check-sat-assuming ((not p) p (not p)))(get-model)' "$model" \
    's:1:23: check 1, command 2: (check-sat-assuming ((not p) p (not p)))' 's:1:23: claim: assumption 1 of the check' 's:1:23: true: p' '    p = true' \
    'a:1:6: item p' 's:1:23: also false: assumption 3 (not p)' 'a:1:5: model'
explains - off '(declare-const p Bool)(assert p)(assert (or p p))(assert (not p))(check-sat-assuming (p))(get-model)' \
    'sat ((define-fun p () Bool false))' 's:1:66: check 1, command 5: (check-sat-assuming (p))' 's:1:23: claim, command 2: (assert p)' \
    's:1:23: false: p' '    p = false' 'a:1:6: item p' 's:1:33: also false, command 3: (assert (or p p))' 's:1:66: also false: assumption 1 p' \
    'a:1:5: model'
explains - off '(declare-const x Int)(assert (= 4 (* x x)))(check-sat)(get-model)' \
    'sat ((define-fun x () Int 170141183460469231731687303715884105727))' 's:1:44: check 1, command 3: (check-sat)' \
    's:1:22: claim, command 2: (assert (= 4 (* x x)))' 's:1:22: open: (* x x)' '    an integer below -2^127 or over 2^127 - 1' \
    '    x = 170141183460469231731687303715884105727' 'a:1:6: item x' 'a:1:5: model'
# of an ite the branch is told, and the condition unless it is a literal
explains - off '(declare-const x Int)(define-fun small ((y Int)) Bool (and (< y 3) true))(assert (ite false true (ite (small x) (= 9 x) true)))
(check-sat)(get-model)' 'sat ((define-fun x () Int 2))' 's:2:1: check 1, command 4: (check-sat)' \
    's:1:74: claim, command 3: (assert (ite false true (ite (small x) (= 9 x) true)))' 's:1:74: false: (= 9 x)' '    x = 2' 'a:1:6: item x' \
    's:1:22: true, in small: (< y 3)' '    it decides which branch of an ite is taken' '    y = x = 2' 'a:1:6: item x' 'a:1:5: model'
explains - off '(declare-const x Int)(assert (ite (! true :named z) (= x 3) true))(check-sat)(get-model)' 'sat ((define-fun x () Int 2))' \
    's:1:67: check 1, command 3: (check-sat)' 's:1:22: claim, command 2: (assert (ite (! true :named z) (= x 3) true))' 's:1:22: false: (= x 3)' \
    '    x = 2' 'a:1:6: item x' 'a:1:5: model'
# a leading symbol is no item, with bars too
explains - off '(declare-const p Bool)(declare-const q Bool)(assert q)(check-sat)(get-model)' \
    'sat (|model| (define-fun p () Bool true) (define-fun q () Bool false))' 's:1:55: check 1, command 4: (check-sat)' \
    's:1:45: claim, command 3: (assert q)' 's:1:45: false: q' '    q = false' 'a:1:42: item q' 'a:1:5: model'
# a label outlives its assertion where declarations are global
explains - off '(set-option :global-declarations true)(push 1)(declare-const p Bool)(assert (! p :named a))(pop 1)
(assert a)(check-sat)(get-model)' 'sat ((define-fun p () Bool false))' 's:2:11: check 1, command 7: (check-sat)' 's:2:1: claim, command 6: (assert a)' \
    's:1:69: false, in a: p' '    p = false' 'a:1:6: item p' 'a:1:5: model'
# a label in an argument may be used in a later one
explains - off '(declare-const p Bool)(assert (and (! (or p p) :named a) (! (not p) :named b)))(assert (or b (not a)))(check-sat)(get-model)' "$model" \
    's:1:103: check 1, command 4: (check-sat)' 's:1:23: claim, command 2: (assert (and (! (or p p) :named a) (! (not p) :named b)))' 's:1:23: true: p' \
    '    p = true' 'a:1:6: item p' 's:1:80: also false, command 3: (assert (or b (not a)))' 'a:1:5: model'

# each row of the table of faults has a dialogue here
sed -n '/^| fault | meaning | likely cause/,/^$/p' docs/LANGUAGE.md | sed -n '3,$s/^| \([^|]*\) |.*/\1/p' | tr -d '`' | LC_ALL=C sort -u >"$work/wanted"
grep -v '^-$' "$work/rows" | LC_ALL=C sort -u >"$work/told"
cmp -s "$work/wanted" "$work/told" || fail 'the rows of the table of faults'

# The parts of a check that are told cost no more than --steps, and the place of the claim is told however few these are. Here the conclusion of
# each implication is evaluated anew, in some 3,600 steps, and the claim costs 122.
many=$(printf '%040d' 0 | sed 's/0/ p/g')
printf '%s' "(declare-const p Bool)(assert (and$many))(check-sat)(get-model)" >"$work/s"
printf '%s' 'sat ((define-fun p () Bool false))' >"$work/a"
"$program" --explain --steps 90 --print-success off "$work/s" "$work/a" >"$work/told" || [ $? = 1 ]
grep -q ':1:23: false: p$' "$work/told" || fail '90 steps'
deep="$(printf '%060d' 0 | sed 's/0/(=> p /g')p$(printf '%060d' 0 | tr 0 ')')"
printf '%s' "(declare-const p Bool)(assert (not $deep))(check-sat)(get-model)" >"$work/s"
printf '%s' 'sat ((define-fun p () Bool true))' >"$work/a"
"$program" --explain --steps 200 --print-success off "$work/s" "$work/a" >"$work/told" || [ $? = 1 ]
grep -q '^    (no more was looked at: the steps are used up, ' "$work/told" || fail 'few steps'
"$program" --explain --print-success off "$work/s" "$work/a" >"$work/told" || [ $? = 1 ]
grep -q ':1:23: true: p$' "$work/told" || fail 'enough steps'

# Values are told however deep a term is with its definitions: p is 5,000 deep, with the items behind it. What leaves a value open is told where it
# is, in the body of an item too.
chain() { awk -v n="$1" -v last="$2" 'BEGIN { for (i = 0; i < n; i++) printf "(define-fun h%d () Bool %s)", i, i ? "h" i - 1 : last }'; }
items() { printf 'sat (%s(define-fun p () Bool h%d)(define-fun q () Bool false))' "$(chain "$1" "${2-false}")" "$(($1 - 1))"; }
column() { items "$1" "${2-false}" | awk -v name="(define-fun $3 " '{ print index($0, name) }'; }
p=$(column 5000 false p)
q=$(column 5000 false q)
open='(= 0 (div 1 0))'
# deep ANSWERS CLAIM TEXT..: the explanation of a claim of p and q.
deep() {
    deep_answers=$1
    deep_claim="(assert $2)"
    shift 2
    explains - off "(declare-const p Bool)(declare-const q Bool)$deep_claim(check-sat)(get-model)" "$deep_answers" \
        "s:1:$((45 + ${#deep_claim})): check 1, command 4: (check-sat)" "s:1:45: claim, command 3: $deep_claim" "$@" 'a:1:5: model'
}
deep "$(items 5000)" p 's:1:45: false: p' '    p = false' "a:1:$p: item p"
deep "$(items 5000)" '(or (not (not p)) q)' 's:1:45: false: p' '    p = false' "a:1:$p: item p" 's:1:45: false: q' '    q = false' "a:1:$q: item q"
deep "$(items 5000)" '(let ((x p)) (= x (not q)))' 's:1:45: false: (= x (not q))' '    x = p = false, (not q) = true, q = false' "a:1:$p: item p" \
    "a:1:$q: item q"
deep "$(items 5000)" '(ite p q q)' 's:1:45: false: q' '    q = false' "a:1:$q: item q" 's:1:45: false: p' \
    '    it decides which branch of an ite is taken' '    p = false' "a:1:$p: item p"
deep "$(items 5000 "$open")" '(= p q)' 'a:1:6: open, in h0: (div 1 0)' '    a division by zero'

# A tree in the value of an attribute labels nothing.
explains - off '(declare-const p Bool)(declare-const z Bool)(assert (! p :a ((! false :named z))))(assert (distinct p z))(check-sat)(get-model)' \
    'sat ((define-fun p () Bool true)(define-fun z () Bool true))' 's:1:106: check 1, command 5: (check-sat)' \
    's:1:83: claim, command 4: (assert (distinct p z))' 's:1:83: false: (distinct p z)' '    p = true, z = true' 'a:1:6: item p' 'a:1:33: item z' \
    'a:1:5: model'

# Of many arguments the first is told that does not fit.
arguments() { awk -v n="$1" -v at="$2" 'BEGIN { printf "(and"; for (i = 1; i <= n; i++) printf i == at ? " 1" : " p"; printf ")" }'; }
for place in 1 60 100000; do
    printf '%s' "(declare-const p Bool)(assert $(arguments 100000 "$place"))" >"$work/s"
    : >"$work/a"
    "$program" --explain --print-success off "$work/s" "$work/a" >"$work/told" || [ $? = 3 ]
    grep -qx "    argument $place: 1 is of sort Int, and Bool is needed" "$work/told" || fail "argument $place"
done

# What a model costs that is too long is what the limit has to be.
long='(declare-const x Int)(define-fun f () Int (+ x x))(assert (< (+ f f) 9))(check-sat)(get-model)'
steps=14
explains - off "$long" 'sat ((define-fun x () Int 2))' 's:1:73: check 1, command 4: (check-sat)' \
    '    too long: the claims of this check cost 15 steps; --steps sets the limit' 's:1:51: most of it 15, command 3: (assert (< (+ f f) 9))' 'a:1:5: model'
steps=15
explains - off "$long" 'sat ((define-fun x () Int 2))'
unset steps

# ---- what explanations have told wrongly before
explains - off '(declare-const a Int)(assert (= a 0))(check-sat)(get-model)' 'sat ((define-fun a () Int (+ 1000000000000000000000000000000000000 4)))' \
    's:1:38: check 1, command 3: (check-sat)' 's:1:22: claim, command 2: (assert (= a 0))' 's:1:22: false: (= a 0)' \
    '    a = 1000000000000000000000000000000000004' 'a:1:6: item a' 'a:1:5: model'
unknown='    C7: F3: a name, a sort or a literal is unknown there'
explains C7 off '(declare-const p Bool)(assert (and (! p :pattern ((k 1)(k 2))) (let ((z p)(z p)) z)))' '' \
    's:1:23: fault, command 2: (assert (and (! p :pattern ((k 1) (k 2))) (let ((z p) (z p)) z)))' '    C7: F6: a name is bound twice' \
    '    bound twice: z'
explains C7 off '(set-logic QF_UF)(declare-const p Bool)(declare-const q Bool)(assert (and (! p :named bvadd) (! q :named q)))' '' \
    's:1:62: fault, command 4: (assert (and (! p :named bvadd) (! q :named q)))' "    C7: F7: the name is in use, or is an operator's" \
    's:1:106: label: q' 's:1:40: in use, command 3: (declare-const q Bool)'
explains C7 off '(set-logic QF_UF)(declare-const p Bool)(assert (and (bvult p p) zz))' '' 's:1:40: fault, command 3: (assert (and (bvult p p) zz))' \
    "$unknown" '    lacking: bvult needs bit vectors, which the logic lacks'
explains C7 off '(set-logic QF_BV)(assert (and (= 1 2) zz))' '' 's:1:18: fault, command 2: (assert (and (= 1 2) zz))' "$unknown" \
    '    lacking: 1 needs integers, which the logic lacks'
explains C7 off '(set-logic QF_UF)(declare-const x Int)' '' 's:1:18: fault, command 2: (declare-const x Int)' "$unknown" \
    '    lacking: Int needs integers, which the logic lacks'
explains - off '(declare-const |a  b| Bool)(declare-const |let| Bool)(declare-const |a b| Bool)(assert (or |a  b| |a b| |let|))
(check-sat)(get-model)' 'sat ((define-fun |a  b| () Bool false)(define-fun |a b| () Bool false)(define-fun |let| () Bool false))' \
    's:2:1: check 1, command 5: (check-sat)' 's:1:80: claim, command 4: (assert (or |a  b| |a b| |let|))' 's:1:80: false: |a  b|' '    |a  b| = false' \
    'a:1:6: item |a  b|' 's:1:80: false: |a b|' '    |a b| = false' 'a:1:39: item |a b|' 's:1:80: false: |let|' '    |let| = false' \
    'a:1:71: item |let|' 'a:1:5: model'
explains - off '(assert (let ((x 5)) (let ((y (+ x 1)) (x 2)) (= y x))))(check-sat)(get-model)' 'sat ()' 's:1:57: check 1, command 2: (check-sat)' \
    's:1:1: claim, command 1: (assert (let ((x 5)) (let ((y (+ x 1)) (x 2)) (= y x))))' 's:1:1: false: (= y x)' '    y = 6, x = 2' 'a:1:5: model'
explains - off '(declare-const x Int)(declare-const y Int)(assert (= y x))(check-sat)(get-model)' \
    'sat ((define-fun x () Int 1)(define-fun y () Int (div 1 0)))' 's:1:59: check 1, command 4: (check-sat)' \
    's:1:43: claim, command 3: (assert (= y x))' 'a:1:29: open, in y: (div 1 0)' '    a division by zero' 'a:1:5: model'

# ---- names with two meanings, in the profile wide
profile=wide
used="    F7: the name is in use, or is an operator's"
explains - off '(declare-const x Real)(assert (< (* x x) 4))(check-sat)(get-model)' \
    'sat ((define-fun x () Real (/ 1 1000000000000000000000000000)))' 's:1:45: check 1, command 3: (check-sat)' \
    's:1:23: claim, command 2: (assert (< (* x x) 4))' 's:1:23: open: (* x x)' \
    '    a fraction too large, or a step to it below -2^127 or over 2^127 - 1' \
    '    x = (/ 1 1000000000000000000000000000)' 'a:1:6: item x' 'a:1:5: model'
explains - off '(declare-const x Real)(declare-const i Int)(assert (< (+ x i) (/ i (- 3)) (- x) (- 4.0)))(check-sat)(get-model)' \
    'sat ((define-fun x () Real 3.0)(define-fun i () Int 2))' 's:1:90: check 1, command 4: (check-sat)' \
    's:1:44: claim, command 3: (assert (< (+ x i) (/ i (- 3)) (- x) (- 4.0)))' 's:1:44: false: (< (+ x i) (/ i (- 3)) (- x) (- 4.0))' \
    '    (+ x i) = 5.0, (/ i (- 3)) = (- (/ 2 3)), (- x) = (- 3.0), x = 3.0, i = 2' 'a:1:6: item x' 'a:1:32: item i' 'a:1:5: model'
explains - off '(declare-const x (_ BitVec 128))(assert (> (bv2nat x) 5))(check-sat)(get-model)' \
    'sat ((define-fun x () (_ BitVec 128) #xffffffffffffffffffffffffffffffff))' 's:1:58: check 1, command 3: (check-sat)' \
    's:1:33: claim, command 2: (assert (> (bv2nat x) 5))' 's:1:33: open: (bv2nat x)' \
    '    an integer below -2^127 or over 2^127 - 1' '    x = #xffffffffffffffffffffffffffffffff' 'a:1:6: item x' 'a:1:5: model'
explains - off '(declare-const y (_ BitVec 8))(assert (and (bvsmulo y y) (= ((_ int2bv 8) (sbv_to_int y)) (bvneg y))))(check-sat)(get-model)' \
    'sat ((define-fun y () (_ BitVec 8) #x85))' 's:1:103: check 1, command 3: (check-sat)' \
    's:1:31: claim, command 2: (assert (and (bvsmulo y y) (= ((_ int2bv 8) (sbv_to_int y)) (bvneg y))))' \
    's:1:31: false: (= ((_ int2bv 8) (sbv_to_int y)) (bvneg y))' \
    '    ((_ int2bv 8) (sbv_to_int y)) = #x85, (bvneg y) = #x7b, y = #x85' 'a:1:6: item y' 'a:1:5: model'
explains F4 off '(declare-const y (_ BitVec 8))(assert (bvuaddo y y y))' '' 's:1:31: fault, command 2: (assert (bvuaddo y y y))' "$ill" \
    '    ill sorted: (bvuaddo y y y)' '    arguments needed: 2, and there are 3'
explains F3 off '(set-logic QF_BV)(declare-const y (_ BitVec 8))(assert (= ((_ int2bv 8) y) y))' '' \
    's:1:48: fault, command 3: (assert (= ((_ int2bv 8) y) y))' '    C7: F3: a name, a sort or a literal is unknown there' \
    '    lacking: (_ int2bv 8) needs integers, which the logic lacks'
explains F3 off '(set-logic QF_LIA)(declare-const a Int)(assert (= (select a 1) 1))' '' 's:1:40: fault, command 3: (assert (= (select a 1) 1))' \
    '    C7: F3: a name, a sort or a literal is unknown there' '    lacking: select needs arrays, which the logic lacks'
explains F3 off '(set-logic QF_BV)(declare-const a (Array (_ BitVec 2) (_ BitVec 2)))' '' \
    's:1:18: fault, command 2: (declare-const a (Array (_ BitVec 2) (_ BitVec 2)))' '    C7: F3: a name, a sort or a literal is unknown there' \
    '    lacking: (Array (_ BitVec 2) (_ BitVec 2)) needs arrays, which the logic lacks'
explains F7 off '(declare-sort U 0)(declare-const d U)(define-fun @a () U d)(check-sat)(get-model)' 'sat ((define-fun d () U (as @a U)))' \
    's:1:60: check 1, command 4: (check-sat)' 'a:1:6: item 1: (define-fun d () U (as @a U))' "$used" \
    's:1:38: in use, command 3: (define-fun @a () U d)'
explains F7 off '(declare-sort U 0)(declare-const d U)(define-fun U!val!0 () U d)(check-sat)(get-model)' 'sat ((define-fun U!val!0 () U d))' \
    's:1:65: check 1, command 4: (check-sat)' 'a:1:6: item 1: (define-fun U!val!0 () U d)' "$used" \
    's:1:1: it is also the name of an element, command 1: (declare-sort U 0)'
explains F3 off '(declare-sort U 0)(declare-const d U)(define-fun U!val!0 () U d)(check-sat)(get-model)' 'sat ((define-fun d () U U!val!0))' \
    's:1:65: check 1, command 4: (check-sat)' 'a:1:6: item 1: (define-fun d () U U!val!0)' '    F3: a name, a sort or a literal is unknown there' \
    '    unknown: U!val!0'
explains F3 off '(declare-sort U 0)(define-sort V () U)(declare-const c U)(check-sat)(get-model)' 'sat ((define-fun c () U V!val!0))' \
    's:1:58: check 1, command 4: (check-sat)' 'a:1:6: item 1: (define-fun c () U V!val!0)' '    F3: a name, a sort or a literal is unknown there' \
    '    unknown: V!val!0'

# A term that names an element costs a step, and a name may be long.
explains - off '(declare-sort U 0)(declare-const c U)(declare-const d U)(assert (= c d))(check-sat)(get-model)' \
    'sat ((define-fun c () U (as @aaaaaaaaaaaaaaaaaaaaaaaaaaaaaaaaaaaaaaaaaa U))(define-fun d () U (as @b U)))' \
    's:1:73: check 1, command 5: (check-sat)' 's:1:57: claim, command 4: (assert (= c d))' 's:1:57: false: (= c d)' \
    '    c = @aaaaaaaaaaaaaaaaaaaaaaaaaaaaaaaaaaaaaaaaaa, d = @b' 'a:1:6: item c' 'a:1:76: item d' 'a:1:5: model'
printf '%s' '(declare-sort U 0)(declare-const c U)(assert (= c c))(check-sat)(get-model)' >"$work/s"
printf '%s' 'sat ((define-fun c () U (as @a U)))' >"$work/a"
"$program" --explain --profile wide --steps 4 --print-success off "$work/s" "$work/a" >"$work/told" || [ $? = 2 ]
grep -qx '    too long: the claims of this check cost 5 steps; --steps sets the limit' "$work/told" || fail 'the cost of an element'
"$program" --profile wide --steps 5 --print-success off "$work/s" "$work/a" >"$work/told" || fail 'the cost of an element'

# Conditions that stand in one another: each has its own value.
branch='    it decides which branch of an ite is taken'
explains - off "$(printf '%s' '(declare-const p Bool)(declare-const q Bool)(declare-const r Bool)' \
    '(assert (ite (ite (ite (ite p q r) r q) p r) (not r) p))(check-sat)(get-model)')" \
    'sat ((define-fun p () Bool true)(define-fun q () Bool false)(define-fun r () Bool true))' \
    's:1:123: check 1, command 5: (check-sat)' \
    's:1:67: claim, command 4: (assert (ite (ite (ite (ite p q r) r q) p r) (not r) p))' \
    's:1:67: true: r' '    r = true' 'a:1:61: item r' \
    's:1:67: true: r' "$branch" '    r = true' 'a:1:61: item r' \
    's:1:67: false: q' "$branch" '    q = false' 'a:1:33: item q' \
    's:1:67: false: q' "$branch" '    q = false' 'a:1:33: item q' \
    's:1:67: true: p' "$branch" '    p = true' 'a:1:6: item p' \
    'a:1:5: model'

# ---- lists that nest deep, in the profile wide
explains X2 off "$(printf '%01000001d' 0 | tr 0 '(')" '' 's:1:1000001: fault: a list at a depth over 1,000,000'
# Their parts are told too.
deep="$(printf '%01500d' 0 | sed 's/0/(not /g')p$(printf '%01500d' 0 | tr 0 ')')"
printf '%s' "(declare-const p Bool)(assert $deep)(check-sat)(get-model)" >"$work/s"
printf '%s' 'sat ((define-fun p () Bool false))' >"$work/a"
"$program" --explain --profile wide --print-success off "$work/s" "$work/a" >"$work/told" || [ $? = 1 ]
[ "$(sed '1,/^verdict: /d; s|^/.*:[0-9]*:[0-9]*: ||; s/:.*//' "$work/told" | tr '\n' ' ')" = 'check 1, command 3 claim, command 2 false     p = false item p model ' ] ||
    fail 'a deep claim'
profile=base

# Pipes are explained as files are, and nothing is told of a dialogue that is confirmed.
printf '%s' "$asked" >"$work/s"
printf '%s' 'sat ((define-fun p () Bool false))' | "$program" --explain --print-success off "$work/s" /dev/stdin >"$work/told" || [ $? = 1 ]
grep -q ':1:23: false: p$' "$work/told" || fail 'a pipe'
explains - off "$asked" "$model"

if command -v python3 >"$work/found"; then
    export PYTHONDONTWRITEBYTECODE=1
    python3 tests/explain_forms.py "$program" "$work/dialogues"
    python3 tests/explain.py "$program"
else
    echo 'explain: a part is skipped, since there is no python3'
fi
