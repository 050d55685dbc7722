"""Faulty sorts, terms, commands and items of models, by their fault; and terms with faults of which only the first may be told.

Templates are texts. In them SOME and OTHER stand for right terms of some sorts, VECTOR for a bit vector, TAKEN for a name in force, and BAD
for a term with any fault.
"""
from sorts import BITS, BOOL
from text import read
from trees import copied, keyword, listed, symbol

LETTERS = ["F%d" % number for number in range(1, 9)]
SORT_LETTERS = ["F1", "F2", "F3", "F5"]


def templates(text):
    """The trees of a text."""
    reading = read(text.encode("latin-1"))
    assert reading.flaw is None
    return reading.trees


def by_letter(table):
    """The trees of each text in a table."""
    return {letter: templates(text) for letter, text in table.items()}


SORTS = by_letter(
    {
        "F1": """
            () 3 "Int" let (Int) (Array2) (_ BitVec) (_ BitVec 1 2) ((_ BitVec 8)) (_ BitVec n) (_ BitVec "8") (_ BitVec (8)) (_ foo "a")
            (_ foo ()) (_ foo :a) (_ foo 1 let) (_) (_ 3 4) (_ let 1) :a (! Int) 1.5 (((Int)) Int) (let Int) _ #b1 (Real) (Bool)
        """,
        "F2": """
            String (Array (Array Bool Bool) Bool) String (Array Bool (Array Bool (Array Bool Bool))) Real (|Array| (Array Bool Bool) String)
            (Array Int Int) (Array) (Array let) (Array (Array)) (|Array| Foo)
        """,
        "F3": """
            Foo (List Int) (List ()) (_ foo) (_ foo 1 x) (_ Array 1) Array (Bool Int) (Int Int) (Real Int) int (_ Real) RegLan BitVec
            (BitVec 8) (_ Int 0) || |let|
        """,
        "F5": "(_ BitVec 0) (_ BitVec 129) (_ BitVec 256) (_ BitVec 18446744073709551617) (_ BitVec %d)" % 10**40,
    }
)

TERMS = by_letter(
    {
        "F1": """
            () (p) ((not true) true) (1 true) :a assert _ par let (let () true) (let (x) true) (let ((x true))) (let ((x true)) true true)
            (let ((let true)) true) (let ((x true true)) true) (let ((x)) true) (let x true) (let) (! true) (!) (! true 5) (! true x :a)
            (! true :named) (! true :named let) (! true :named 5) (! SOME :named (x)) (! true :named :named x) (! true :a 1 2) (_) (_ bv1)
            (_ bv1 "x") (_ bv1 (8)) (_ 1 bv1) (_ let 8) ((_ and) SOME) ((let) SOME) ((_ extract 0 0)) (par true) ("a" SOME) (true)
            ((_ extract "0" 0) VECTOR) (:a SOME) ((and) SOME) ((! and :a) true) (#b1)
        """,
        "F2": """
            1.5 0.0 "" "a" (forall ((x Int)) true) (exists) (forall) (as x Int) (as) ((as f Int) SOME) ((as)) (match) (match x ())
            ((as f) () ()) (exists () BAD)
        """,
        "F3": """
            unknown (unknown SOME) (_ foo 1) ((_ and 1) SOME SOME) (_ bv01 8) (_ bv 8) (_ bv1x 8) (unknown SOME OTHER) (_ extract0 x)
            extract ((_ bvadd 1) SOME) bv1 (divisible 3) (_ BitVec 8) (_ bv-1 8) ((_ Extract 0 0) VECTOR) (bvnego VECTOR) (repeat VECTOR)
            || |let| (! x9 :named x9) ((_ + 1) SOME) (_ true 1) sat (_ bvx 8) ((_ rotate_left_ 1) VECTOR)
        """,
        "F4": """
            and = ite bvadd concat (and true) (true true) (not SOME OTHER) (= SOME) (= SOME OTHER) (= SOME SOME OTHER) (ite true SOME)
            (ite SOME OTHER true) (ite true SOME OTHER) (ite 1 SOME SOME) (_ extract 3 1) (_ divisible 3) (_ rotate_left 0)
            ((_ extract 9 0) #b1) ((_ extract 4 0) #x3) ((_ extract 128 0) VECTOR) ((_ zero_extend 128) #b1) ((_ sign_extend 127) #b11)
            ((_ zero_extend 18446744073709551615) #b1) (concat #b1) (bvsub #b1 #b1 #b1) (bvnand #b1 #b1 #b1) (bvnor #b1 #b1 #b1)
            (bvxnor #b1 #b1 #b1) (bvudiv #b1 #b1 #b1) (bvcomp #b1 #b1 #b1) (bvult #b1 #b1 #b1) (bvneg #b1 #b1) (bvand #b1)
            (bvadd #b1 #b11) ((_ repeat 9223372036854775808) #b11) ((_ repeat 129) #b1) ((_ repeat 2) #b1 #b1) (mod 5) (mod 5 2 2) (div 5)
            (abs 5 5) (+ 5) (< 5) (* 5 true) (- true) (-) (+ 1 #b1) ((_ bv1 8) SOME) (let ((not true)) (not not)) (distinct SOME)
            (xor true) (=> true) (distinct SOME OTHER) (let ((x SOME)) (x SOME)) (bvcomp #b1 #b11) (bvshl #b1 #b10)
            ((_ divisible 2) SOME OTHER) ((_ divisible 2) #b1) ((_ rotate_left 1) 1) (concat #b1 1) (concat #x%s #b1) (not 1)
            (or true SOME 1) (TAKEN SOME SOME SOME SOME)
        """
        % ("0" * 32),
        "F5": """
            (_ bv16 4) (_ bv2 1) (_ bv0 0) (_ bv1 129) (_ bv1 8 8) (_ bv1 x) (_ bv1 18446744073709551616) #x%s #b%s
            ((_ extract 0 1) VECTOR) ((_ extract 1) VECTOR) ((_ extract 1 0 0) VECTOR) ((_ extract x 0) VECTOR) ((_ repeat 0) VECTOR)
            ((_ repeat 1 1) VECTOR) ((_ rotate_left 18446744073709551616) VECTOR) ((_ rotate_right x) VECTOR) ((_ divisible 0) 3)
            ((_ divisible x) 3) ((_ divisible 18446744073709551616) 3) ((_ zero_extend 1 1) VECTOR) ((_ sign_extend %d) VECTOR)
            (_ bv%d 128) (_ extract 1 2) ((_ divisible 1 2) SOME) ((_ extract 18446744073709551616 0) VECTOR) ((_ bv16 4) true)
            (_ repeat 0) (= SOME (_ bv16 4))
        """
        % ("0" * 33, "1" * 129, 10**30, 2**128),
        "F6": """
            (let ((x SOME) (y OTHER) (x true)) true) (let ((x SOME) (|x| SOME)) true) (let ((and true) (and true)) (and true))
            (let ((y true)) (let ((x y) (x y)) true))
        """,
        "F7": """
            (! true :named l :named l) (! (! true :named l) :named l) (and (! true :named l) (! false :named l)) (! SOME :named TAKEN)
            (! true :named not) (! true :named true) (! true :named |and|) (let ((x (! true :named l))) (! x :named l2 :named l))
            (let ((x (! true :named l))) (! true :named l)) (! (let ((v (! true :named l))) v) :a :named l)
        """,
        "F8": """
            (let ((v SOME)) (! (= v v) :named l)) (let ((v true)) (let ((w v)) (! w :named l)))
            (let ((v true)) (! (let ((w v)) true) :named and)) (let ((v true)) (! (and true (! v :a)) :named z))
            (let ((v true)) (let ((v v)) (! (let ((w v)) w) :named l))) (let ((v true)) (let ((w (! v :named l))) true))
            (let ((v 1)) (! (let ((v v)) true) :named TAKEN))
        """,
    }
)

# Terms with two faults or more.
CONTESTS = templates(
    """
    (unknown BAD) (and BAD) (and BAD BAD) (BAD BAD) ((_ extract 0 1) BAD) ((_ foo 1) BAD) ((_ and) BAD) ((_ x "a") BAD)
    ((_ divisible 0) BAD) (not BAD true) (let ((v SOME)) (v BAD)) (let ((v SOME) (w OTHER)) (w BAD v)) (let ((v SOME)) (and (v BAD) BAD))
    (let ((v SOME) (v BAD)) BAD) (let ((v BAD) (v BAD)) BAD) (let ((v SOME) (w BAD)) BAD) (let ((v SOME)) BAD) (let ((v BAD) x) SOME)
    (let ((v BAD)) BAD) (let ((v BAD) (let SOME)) SOME) (! BAD :named) (! BAD 5) (! BAD :named and) (! BAD :a 1 2) (! BAD :named let)
    (! SOME :named not :named) (let ((v true)) (! v :named and)) (! (! BAD :named l) :named l) (let ((v true)) (! (and v BAD) :named z))
    (! BAD :a :named l :named l) (let ((v true)) (and (! true :named l) (! v :named l))) (BAD) (forall BAD) ((as BAD) BAD) (as BAD)
    (match BAD BAD) (ite BAD SOME BAD) (ite true BAD BAD) (= SOME OTHER BAD) (= BAD BAD) (true BAD) (TAKEN BAD) (TAKEN BAD BAD)
    (concat BAD VECTOR) ((_ extract 200 0) BAD) (let ((unknown BAD)) (unknown unknown)) (let () BAD) (! (= SOME OTHER) :named l :named l)
    (let ((x true) (x OTHER)) (! x :named l)) (and (! true :named l) (! true :named l) BAD) (and (! BAD :named l) (! true :named l))
    ((_ bv16 4) BAD) ((let) BAD) (+ BAD) (_ bv16 BAD) ((_ repeat 0) BAD BAD)
    """
)

COMMANDS = by_letter(
    {
        "C1": """
            (push) (push 1 1) (push x) (push #b1) (push 1.0) (push "1") (push -1) (pop) (pop x) (pop (1)) (minimize x) (|assert| true)
            (assert) (assert true true) () ((assert) true) (declare-const let Int) (declare-const x) (declare-const x Int Int)
            (declare-const "x" Int) (declare-const (x) Int) (declare-fun f Int Int) (declare-fun f () Int Int) (declare-fun f ())
            (declare-fun let () Int) (declare-fun f () ) (define-fun f (x) Int 1) (define-fun f () Int) (define-fun f () Int 1 1)
            (define-fun f ((let Int)) Int 1) (define-fun f ((x Int Int)) Int 1) (define-fun f ((x)) Int 1) (define-fun f x Int 1)
            (define-fun 1 () Int 1) (define-fun f (()) Int 1) (check-sat 1) (check-sat ()) exit |exit| 3 "a" :a (! true) (exit ())
            (reset x) (reset-assertions 1) (get-model x) (echo a) (echo) (echo "a" "b") (set-logic let) (set-logic) (set-logic QF_UF ALL)
            (set-logic "QF_UF") (set-option x) (set-option) (set-option :print-success) (set-option :print-success 1)
            (set-option :print-success yes) (set-option :print-success true true) (set-option :global-declarations maybe)
            (set-option :global-declarations) (set-option :a 1 2) (set-option :print-success (true)) (set-info) (set-info x)
            (set-info :a 1 2) (set-info "a") (get-value ()) (get-value x) (get-value) (get-value (x) (x)) (get-info x) (get-info)
            (get-info :a :b) (get-option) (get-option true) (get-proof x) (get-assertions ()) (get-assignment 1) (get-unsat-core x)
            (get-unsat-assumptions x) (define-sort s x Int) (define-sort let (x) Int) (define-sort 1 (x) Int) (define-sort "s" (x y) Int) (define-sort s () Int Int) (define-sort s (x))
            (define-sort s ()) (define-sort (s) () Int) (define-sort let () Int) (eval 1) (define-const x Int 1) (sat) (|check-sat|)
            (|declare-sort| U 0) (|define-fun-rec|) (par) (_ push 1) (let) (assert . true) (check-sat-using x) (simplify 1)
            (set-option :global-declarations 1) (set-option :global-declarations true false) (set-option :global-declarations (true))
            (set-option |:global-declarations| true) (check-sat-assuming) (check-sat-assuming true) (|check-sat-assuming| ())
            (check-sat-assuming (not true))
        """,
        "C2": """
            (declare-sort U 0) (declare-sort) (declare-datatypes) (declare-datatype x)
            (define-fun-rec) (define-fun-rec f () Int 1) (define-funs-rec ()) (define-sort s (x) ()) (define-sort Int (()) let)
            (define-sort s (x y) Int) (define-sort s (1) "a")
        """,
    }
)

# Checks that are out of form; NAME stands for a name in force that is a formula.
ASSUMING = templates(
    """
    (check-sat-assuming) (check-sat-assuming NAME) (check-sat-assuming (NAME) (NAME)) (check-sat-assuming (not NAME) NAME)
    (check-sat-assuming ((not (not NAME)))) (check-sat-assuming ((and NAME NAME))) (check-sat-assuming ((not)))
    (check-sat-assuming ((not NAME NAME))) (check-sat-assuming ((NAME))) (check-sat-assuming (())) (check-sat-assuming (1))
    (check-sat-assuming (NAME "a")) (check-sat-assuming (:a)) (check-sat-assuming (NAME let)) (check-sat-assuming ((not let)))
    (check-sat-assuming ((! NAME :named l))) (check-sat-assuming (NAME ((not) NAME))) (check-sat-assuming (#b1))
    (check-sat-assuming ((not (NAME)))) (check-sat-assuming NAME NAME) (check-sat-assuming () ()) (check-sat-assuming ((= NAME true)))
    (check-sat-assuming (unknown (not 1))) (check-sat-assuming ((=> NAME false))) (check-sat-assuming (NAME (|Not| NAME)))
    (check-sat-assuming ((not (not true)))) (check-sat-assuming (NAME (not (not (not NAME))))) (check-sat-assuming ((not (true))))
    (check-sat-assuming "NAME") (check-sat-assuming :a) (check-sat-assuming let) (check-sat-assuming ((let ((x NAME)) x)))
    (check-sat-assuming (((not NAME)))) (check-sat-assuming ((not . NAME))) (check-sat-assuming ((not true) (not not true)))
    (check-sat-assuming ((and NAME))) (check-sat-assuming ((xor NAME))) (check-sat-assuming (assert)) (check-sat-assuming ((_ not NAME)))
    """
)
# Names that are no formulas in any theory; and names of none.
NO_FORMULAS = templates("and not = distinct ite =>")
UNKNOWN_NAMES = templates("unknown || |let| extract divisible p! |a  b| bv1 repeat |not | |True|")

UNKNOWN_LOGICS = ("QF_LRA", "QF_ABV", "all", "", "QF_AUFLIA", "LIA", "QF_S", "HORN", "QF_UFLRA", "UF", "NIA", "let")

# What may or may not stand before `set-logic`, with the answer of a question.
BEFORE_LOGICS = [
    (templates(command)[0], templates(answer)[0] if answer else None)
    for command, answer in (
        ("(set-logic QF_UF)", ""), ("(declare-const c9 Bool)", ""), ("(declare-fun f9 () Bool)", ""), ("(define-fun d9 () Bool true)", ""),
        ("(define-sort s9 () Bool)", ""), ("(assert true)", ""), ("(push 0)", ""), ("(push 1)", ""), ("(pop 0)", ""),
        ("(reset-assertions)", ""),
        ("(check-sat)", "sat"), ("(check-sat)", "unsat"), ("(check-sat)", "unknown"), ("(check-sat)", "unsupported"),
        ("(check-sat)", '(error "")'), ("(check-sat-assuming ())", "unsat"), ("(check-sat-assuming (true))", "sat"),
        ("(check-sat-assuming (unknown))", '(error "")'), ("(check-sat-assuming (and))", "unsupported"), ("(get-model)", "()"),
        ("(set-option :a)", ""), ("(set-option :print-success true)", "success"), ("(set-option :global-declarations true)", ""),
        ("(set-option :global-declarations false)", ""), ("(exit)", ""), ("(get-unsat-assumptions)", "()"),
        ("(set-info :a)", ""), ('(echo "")', '""'), ("(get-value (x))", "x"), ("(get-info :a)", '(error "")'), ("(reset)", ""),
    )
]

ITEMS = by_letter(
    {
        "F1": """
            () x 1 "a" let (NAME) (declare-fun NAME () RESULT) (define-fun NAME () RESULT) (define-fun NAME () RESULT BODY x)
            (|define-fun| NAME () RESULT BODY) (define-fun let () RESULT BODY) (define-fun NAME x RESULT BODY)
            (define-fun NAME ((x)) RESULT BODY) (define-fun NAME (x) RESULT BODY) (define-fun NAME ((let Int)) RESULT BODY)
            (define-fun NAME ((x Int Int)) RESULT BODY) (define-fun (NAME) () RESULT BODY) (define-fun) (define-const NAME RESULT BODY)
            (define-sort NAME () RESULT) ((define-fun)) (define-fun NAME RESULT BODY) (NAME BODY) (forall ((x Int)) true)
            (|define-fun-rec|) (assert BODY)
        """,
        "F2": """
            (define-fun-rec NAME () RESULT BODY) (define-funs-rec) (define-fun-rec) (define-fun-rec let) (define-funs-rec () ())
            (define-fun-rec and) (define-fun NAME ((x Real)) RESULT BODY) (define-fun NAME () (Array Int Int) BODY)
        """,
    }
)


class Flaws:
    """Makes what is faulty, with an inventor of what is right.

    With a turn, which is a number, the kinds of a fault are taken one after another; without it by chance.
    """

    def __init__(self, rng, inventor, turn=None):
        self.rng = rng
        self.inventor = inventor
        self.turn = turn

    def pick(self, choices):
        """One of some choices."""
        if self.turn is None:
            return self.rng.choice(choices)
        return choices[self.turn % len(choices)]

    def letter(self):
        """Any fault of a term."""
        return self.rng.choice(LETTERS)

    def sort(self, letter=None):
        """A tree for a sort with this fault, or with any."""
        return copied(self.pick(SORTS[letter or self.rng.choice(SORT_LETTERS)]))

    def filled(self, template, scope):
        """A template with terms in it."""
        if type(template) is list:
            return [self.filled(part, scope) for part in template]
        text = template.text
        if not text.isupper() or text not in ("SOME", "OTHER", "VECTOR", "TAKEN", "BAD"):
            return template
        inventor = self.inventor
        if text == "TAKEN":
            return symbol(self.rng.choice(list(inventor.context.ranks) or ["or"]))
        if text == "BAD":
            return Flaws(self.rng, inventor).term(self.letter(), scope)
        sort = inventor.sort()
        if text == "VECTOR" and BITS in inventor.context.theories:
            sort = self.rng.choice(inventor.widths)
        return inventor.term(sort, 2, scope)

    def term(self, letter, scope):
        """A term with this fault, mostly: it is of another where the scope or the theories make it so."""
        term = self.filled(self.pick(TERMS[letter]), scope)
        # A term of another sort than is needed would have F4 too, whatever its own fault is.
        return listed("=", term, copied(term)) if letter == "F4" and self.rng.random() < 0.6 else term

    def contest(self, scope):
        """A term with faults of which one comes first."""
        return self.filled(self.pick(CONTESTS), scope)

    def literal(self, letter):
        """A literal of a check with F3 or F4."""
        names = UNKNOWN_NAMES
        if letter == "F4":
            ranks = self.inventor.context.ranks.items()
            names = NO_FORMULAS[:3] + [symbol(name) for name, rank in ranks if rank.parameters or rank.result != BOOL] * 3
        tree = self.pick(names)
        return listed("not", tree) if self.rng.random() < 0.5 else tree

    def assuming(self, name):
        """A check that is out of form."""
        return self.named(self.pick(ASSUMING), {"NAME": symbol(name)})

    def command(self, letter, force):
        """A command with this fault, where these things are in force."""
        rng = self.rng
        if letter in COMMANDS:
            return copied(self.pick(COMMANDS[letter]))
        if letter == "C3":
            return listed("push", rng.choice((10001, 10001 - force.levels, 10001 - force.levels, 2**64, 2**64 - force.levels, 10**40)))
        if letter == "C4":
            return listed("pop", force.levels + rng.choice((1, 1, 2, 2**64, 10001)))
        if force.settled and rng.random() < 0.3:
            return listed("set-option", keyword(":global-declarations"), "false" if force.global_declarations else "true")
        if (force.settled or force.with_logic) and rng.random() < 0.7:
            return listed("set-logic", rng.choice(("QF_UF", "ALL", "QF_BV", "QF_LIA")))
        return listed("set-logic", symbol(self.pick(UNKNOWN_LOGICS)))

    def definition(self, tree, names, stages=None):
        """Puts faults into `(define-fun s (p ..) o t)`, of a script or a model: some of all that are looked for one after another.

        The names are such as a fault of the name has.
        """
        rng = self.rng
        by_chance = Flaws(rng, self.inventor)
        if stages is None:
            stages = rng.sample(("name", "parameter", "twice", "result", "rank", "body", "body", "other"), rng.choice((1, 2, 2, 3, 4)))
        if "name" in stages:
            tree[1] = symbol(rng.choice(names))
        if "twice" in stages or "parameter" in stages and not tree[2]:
            tree[2] = tree[2] or [[symbol("x"), symbol("Bool")]]
            tree[2].insert(rng.randint(0, len(tree[2])), copied(rng.choice(tree[2])))
        if "parameter" in stages:
            rng.choice(tree[2])[1] = by_chance.sort()
        if "rank" in stages:
            sort = self.inventor.sort_tree(self.inventor.sort())
            if rng.random() < 0.5:
                tree[3] = sort
            else:
                tree[2] = tree[2] + [[symbol("extra"), sort]]
        if "result" in stages:
            tree[3] = by_chance.sort()
        if "other" in stages:
            tree[4] = self.inventor.term(self.inventor.sort(), 2, {})
        if "body" in stages:
            tree[4] = self.inventor.spoiled(tree[4], by_chance.term(self.letter(), {}))

    def declaration(self, tree, names):
        """Puts faults into a declaration or an abbreviation."""
        rng = self.rng
        if rng.random() < 0.6:
            tree[1] = symbol(rng.choice(names))
        if rng.random() < 0.7:
            tree[-1] = self.sort()
        if type(tree[2]) is list and len(tree) == 4 and tree[0].text == "declare-fun":
            tree[2] = [self.sort() if rng.random() < 0.4 else symbol("Bool") for _ in range(rng.choice((1, 2, 3)))]

    def item(self, item, letter, names):
        """An item of a model with this fault, made of a right one; the names are some that models may not define."""
        rng = self.rng
        choice = rng.random()
        name, parameters, result, body = item[1:]
        if letter in ITEMS and choice < 0.6:
            return self.named(self.pick(ITEMS[letter]), {"NAME": name, "RESULT": result, "BODY": body})
        if letter == "F7" and choice < 0.8:
            return [item[0], symbol(rng.choice(names))] + item[2:]
        if letter == "F6" and parameters and choice < 0.6:
            return [item[0], name, parameters + [copied(rng.choice(parameters))], result, body]
        if letter == "F3" and choice < 0.4:
            return [item[0], name, parameters, result, self.inventor.spoiled(body, symbol(rng.choice(names + [name.text] * 2)))]
        if letter == "F4" and choice < 0.6:
            sort = self.inventor.sort()
            tree = self.inventor.sort_tree(sort)
            return [item[0], name] + rng.choice(
                (
                    [parameters + [[symbol("extra"), tree]], result, body], [parameters[:-1], result, body],
                    [parameters, tree, self.inventor.literal(sort)], [parameters, result, self.inventor.literal(sort)],
                )
            )
        if letter in SORT_LETTERS and choice > 0.75:
            if parameters and rng.random() < 0.6:
                parameters = copied(parameters)
                rng.choice(parameters)[1] = self.sort(letter)
                return [item[0], name, parameters, result, body]
            return [item[0], name, parameters, self.sort(letter), body]
        if letter == "F8":
            labelled, label = (copied(body), "label") if choice < 0.4 else ("true", "true")
            labelled = listed("!", labelled, keyword(":named"), label)
            return [item[0], name, parameters, result, self.inventor.spoiled(body, labelled)]
        return [item[0], name, parameters, result, self.inventor.spoiled(body, self.term(letter, {}))]

    def named(self, template, parts):
        """A template with the parts of an item in it."""
        if type(template) is list:
            return [self.named(part, parts) for part in template]
        return copied(parts.get(template.text, template))
