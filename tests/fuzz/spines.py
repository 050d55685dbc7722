"""Invents dialogues with a term that nests deep: a spine of frames of all kinds, one in another, with a fault planted anywhere, or with none.

The spine stands in an assertion, a definition, an assumption or an item of the model. It is made from outside, so that a frame knows which
variables are bound around it; each frame has one hole, of a sort that it says.
"""
import random

from dialogues import Dialogue
from sorts import WIDE
from text import read
from trees import copied, keyword, listed, numeral, symbol, word, written

BOOL, INT, BITS, REAL = "Bool", "Int", "(_ BitVec 8)", "Real"
SORTS = (BOOL, BOOL, INT, BITS)
# The hole of a frame: a list of its own, which no term has.
HOLE = ["hole"]

SCRIPT = """(declare-const p Bool)(declare-const q Bool)(declare-const i Int)(declare-const j Int)(declare-const b (_ BitVec 8))
(define-fun f ((x Bool) (y Int)) Bool (and x (< y 1000)))(define-fun g ((x Int)) Int (- x))(define-fun h ((x (_ BitVec 8)) (y Bool)) (_ BitVec 8) x)
"""
# What scripts with reals have besides, and their models.
REAL_SCRIPT = "(declare-const a Real)(declare-const e Real)(define-fun k ((x Real)) Real (/ x 2))\n"
REAL_MODEL = "(define-fun a () Real (/ 1 3)) (define-fun e () Real (- 2.5))"
MODEL = """(define-fun p () Bool %s) (define-fun q () Bool %s) (define-fun i () Int %d) (define-fun j () Int (- %d)) (define-fun b () (_ BitVec 8) #x%02x)"""

# Terms without variables, by sort; and what is wrong in any place, or nearly.
PLAIN = {BOOL: ("p", "q", "true", "false"), INT: ("i", "j", "0", "7"), BITS: ("b", "#x0f", "#b10000001"), REAL: ("a", "e", "0.5", "2.0")}
WRONG = (
    "()", "nobody", "(nobody p)", "(p q)", "(f p)", "(and p 1)", "(f p true)", "1.5", '"a"', ":a", "let", "(let () p)", "(let ((v p)) v v)",
    "(let ((v p) (v q)) v)", "(let ((v)) v)", "(let ((v p) (v nobody)) v)", "(let ((v nobody) (v p)) v)", "(let (v p) v)", "(! p)", "(! p q)",
    "(! p :named)", "(! p :named 1)", "(! nobody :named l)", "(! p :named p)", "(! p :named f :named f)", "(forall ((x Int)) true)",
    "(exists let true)", "((_ bad 1) p)", "(_ bv1 129)", "(_ bv256 8)", "((_ extract 9 0) b)", "(_ extract)", "((_ repeat 0) b)", "(as p Bool)",
    "((as p Bool) q)", "((p))", "(1 p)", "#x" + "0" * 33, "(ite p 1 b)", "(- b)", "(bvadd b 1)", "(+ p)", "(distinct p 1)", "(=)", "(not p q)",
    "(match p ((x q)))",
)


def trees_of(text):
    """The trees of a text without faults."""
    return read(text.encode("latin-1")).trees


class Spine:
    """Makes one spine."""

    def __init__(self, rng, labels, reals=False):
        self.rng = rng
        # Whether there are reals in it, which are mixed with integers.
        self.reals = reals
        self.sorts = SORTS + (REAL, REAL) * reals
        # Whether labels may stand in it.
        self.labels = labels
        self.bound = []
        self.fresh = 0
        # The frames from outside: each a list, in which the next stands.
        self.frames = []

    def leaf(self, sort):
        """A term of a sort, which has no lists: a variable that is bound around it, where there is one, or another."""
        bound = [name for name, of in self.bound if of == sort]
        name = self.rng.choice(bound[-3:]) if bound and self.rng.random() < 0.5 else self.rng.choice(PLAIN[sort])
        return trees_of(name)[0]

    def variable(self):
        """A name for a variable: mostly one that others have too."""
        self.fresh += 1
        return self.rng.choice(("v", "w", "v", "x%d" % self.fresh, "i", "p"))

    def among(self, head, *sorts, at=None):
        """An application: the hole is one of its arguments, of their sorts; its sort."""
        at = self.rng.randrange(len(sorts)) if at is None else at
        arguments = [HOLE if place == at else self.leaf(sort) for place, sort in enumerate(sorts)]
        return [copied(head) if type(head) is list else word(head)] + arguments, sorts[at]

    def binding(self, sort):
        """A `let` whose hole is one of the terms that it binds, or its body."""
        rng = self.rng
        names = list(dict.fromkeys(self.variable() for _ in range(rng.choice((1, 1, 2, 3)))))
        sorts = [rng.choice(self.sorts) for _ in names]
        bindings = [[symbol(name), self.leaf(of)] for name, of in zip(names, sorts)]
        if rng.random() < 0.5:
            self.bound += list(zip(names, sorts))
            return [word("let"), bindings, HOLE], sort
        place = rng.randrange(len(names))
        bindings[place][1] = HOLE
        body = symbol(names[sorts.index(sort)]) if sort in sorts else self.leaf(sort)
        return [word("let"), bindings, body], sorts[place]

    def note(self, sort):
        """An annotation, with a label or without one."""
        self.fresh += 1
        notes = [keyword(":note"), *self.rng.choice(([], trees_of("(a b)"), trees_of("let")))]
        if self.labels and self.rng.random() < (0.05 if self.bound else 0.3):
            notes = notes * self.rng.randrange(2) + [keyword(":named"), symbol("l%d" % self.fresh)]
        return [word("!"), HOLE, *notes], sort

    def frame(self, sort):
        """A frame of a sort, and the sort of its hole."""
        rng = self.rng
        kind = rng.random()
        if kind < 0.25:
            return self.binding(sort)
        if kind < 0.35:
            return self.note(sort)
        if kind < 0.45:
            return self.among("ite", BOOL, sort, sort)
        if self.reals and (sort == REAL or sort != BITS and rng.random() < 0.3):
            return self.on_reals(sort)
        if sort == BOOL:
            other = rng.choice(self.sorts)
            return self.among(*rng.choice((
                ("not", BOOL), ("and",) + (BOOL,) * rng.choice((2, 3, 5)), ("or", BOOL, BOOL), ("=>", BOOL, BOOL, BOOL), ("xor", BOOL, BOOL),
                ("=", other, other), ("distinct", other, other, other), ("<", INT, INT), ("bvult", BITS, BITS), ("f", BOOL, INT),
            )))
        if sort == INT:
            return self.among(*rng.choice((
                ("-", INT), ("+", INT, INT), ("+", INT, INT, INT), ("-", INT, INT), ("abs", INT), ("g", INT), ("mod", INT, INT), ("*", INT, INT),
            )))
        indexed = rng.choice(("((_ extract 7 0) b)", "((_ rotate_left 3) b)", "((_ zero_extend 0) b)"))
        return self.among(*rng.choice((
            ("bvnot", BITS), ("bvadd", BITS, BITS), ("bvand", BITS, BITS, BITS), ("h", BITS, BOOL), ("bvneg", BITS), ("bvshl", BITS, BITS),
            (trees_of(indexed)[0][0], BITS),
        )))

    def on_reals(self, sort):
        """A frame of numbers, mixed mostly, and the sort of its hole."""
        frames = {
            BOOL: (("<", INT, REAL), ("=", REAL, INT), ("distinct", REAL, INT, REAL), ("is_int", REAL), (">=", REAL, REAL)),
            INT: (("to_int", REAL), ("to_int", INT)),
            REAL: (
                ("-", REAL), ("+", REAL, INT, REAL), ("-", INT, REAL), ("*", REAL, INT), ("/", REAL, INT), ("/", INT, INT), ("to_real", INT), ("k", REAL),
                ("ite", BOOL, INT, REAL), ("ite", BOOL, REAL, REAL),
            ),
        }
        return self.among(*self.rng.choice(frames[sort]))

    def make(self, size):
        """A truth value of so many frames."""
        root = [HOLE]
        around, sort = root, BOOL
        for _ in range(size):
            frame, sort = self.frame(sort)
            self.put(around, frame)
            self.frames.append(frame)
            around = frame
        self.put(around, self.leaf(sort))
        return root

    @staticmethod
    def put(around, tree):
        """Puts a tree into the hole of a frame."""
        if around[0:1] == [word("let")] and around[-1] is not HOLE:
            binding = [binding for binding in around[1] if binding[1] is HOLE][0]
            binding[1] = tree
        else:
            around[[part is HOLE for part in around].index(True)] = tree

    def plant(self):
        """Plants a fault, mostly: something wrong in the place of a part of a frame, beside one, or of its head."""
        rng = self.rng
        frame = rng.choice(self.frames)
        wrong = trees_of(rng.choice(WRONG))[0]
        kind = rng.random()
        if kind < 0.15:
            frame[0] = rng.choice((word("let"), word("!"), symbol("nobody"), symbol("p"), numeral(1), word("_"), [], [symbol("and")], wrong))
        elif kind < 0.25 and len(frame) > 1:
            del frame[rng.randrange(1, len(frame))]
        elif kind < 0.4:
            frame.insert(rng.randint(1, len(frame)), wrong)
        elif frame[0:1] == [word("let")] and len(frame) > 1 and type(frame[1]) is list and frame[1] and kind < 0.75:
            choice = rng.random()
            if choice < 0.4:
                frame[1].insert(rng.randint(0, len(frame[1])), [copied(rng.choice(frame[1])[0]), wrong])
            elif choice < 0.7:
                frame[1].insert(rng.randint(0, len(frame[1])), wrong)
            else:
                frame[1].append([symbol("v%d" % rng.randrange(3)), wrong])
        else:
            # Beside the spine, where the frame has such a part.
            places = [place for place in range(1, len(frame)) if all(frame[place] is not inner for inner in self.frames)]
            if places:
                frame[rng.choice(places)] = wrong


def size_of(rng, profile):
    """How many frames a spine has: in `base` mostly as many as fit into the limit on lists."""
    if profile == WIDE:
        return rng.choice((1, 5, 50, 300, 700, 1000, 2000, 2000))
    return rng.choice((1, 5, 50, 200, 330, 500, 700, 1100))


def invent_spine(seed, profile):
    """The dialogue of a seed."""
    rng = random.Random(seed)
    place = rng.choice(("assertion", "assertion", "assertion", "definition", "item", "assumption" if profile == WIDE else "assertion"))
    reals = profile == WIDE and rng.random() < 0.4
    spine = Spine(rng, place == "assertion", reals)
    root = spine.make(size_of(rng, profile))
    for _ in range(rng.choice((0, 1, 1, 2))):
        spine.plant()
    truths = [rng.choice(("true", "false")) for _ in range(2)]
    items = trees_of(MODEL % (*truths, rng.choice((0, 1, 5, 2**127 - 1)), rng.choice((1, 3)), rng.randrange(256)))
    script = trees_of(SCRIPT + REAL_SCRIPT * reals)
    items += trees_of(REAL_MODEL * reals)
    asked = listed("check-sat")
    if place == "item":
        script.append(listed("declare-const", "r", "Bool"))
        items.append([word("define-fun"), symbol("r"), [], symbol("Bool"), root[0]])
        script.append(listed("assert", "r"))
    elif place == "definition":
        script.append([word("define-fun"), symbol("d"), [], symbol("Bool"), root[0]])
        script.append(listed("assert", "d"))
    elif place == "assumption":
        asked = [word("check-sat-assuming"), [symbol("p"), root[0]]]
    else:
        script.append([word("assert"), root[0]])
    # What comes behind shows that what is kept between terms is as it was.
    script += [[word("assert"), trees_of(rng.choice(("(or p true)", "(! (not false) :named last)", "(let ((v 1)) (= v 1))", "(= i i)")))[0]]]
    script += [asked, listed("get-model")]
    answers = [symbol("sat"), items]
    return Dialogue(written(script), written(answers), False, None)
