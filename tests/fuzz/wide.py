"""Invents dialogues of the profile `wide`: the stories of `base`, in which the new forms are used often, and aims of their own."""
import random

from dialogues import AIMS, Dialogue, Story, aims, is_right_form, soup_of
from flaws import LETTERS, SORT_LETTERS, templates
import array_aims
import conversions
import reals
from array_aims import ArrayAims
from conversions import ConversionAims
from inventor import BEHIND_AS, ELEMENT_NAMES, NAMES
from script import Definition
from sorts import BOOL, INT, INTS, LOGICS, REAL, REALS, WIDE, WIDE_LOGICS, WIDE_SORTS, Faulty, Free, element_sort
from text import NUMERAL, begins_with, is_kind, is_symbol, is_word, read
from trees import copied, keyword, listed, lists_in, numeral, symbol, word, written
from values import OPEN

REAL_AIMS = aims(
    "wide",
    {
        "real operator": 14, "printed real": 4, "edge": 16, "by zero": 8, "mixed": 13, "lacking": 12, "real fault": 26, "real command": 13,
        "real name": 12, "real item": 8,
    },
)
ARRAY_AIMS = aims("array", array_aims.COUNTS)
CONVERSION_AIMS = aims("conversion", conversions.COUNTS)
WIDE_AIMS = AIMS + REAL_AIMS + ARRAY_AIMS + CONVERSION_AIMS + aims("answers", {"X2": 2}) + aims("global", {"late": 6, "twice": 6}) + aims(
    "wide",
    {
        "repeated": 8, "rank": 32, "gone": 4, "inner": 4, "logic": 14, "assumed": 12, "const": 20, "bare": 10, "declared": 3, "twice": 2,
        "body": 3, "sort": 8, "element": 24, "universe": 16, "two meanings": 94, "gone sort": 6,
        "new sort": 22, "long element": 6,
    },
)

NO_LOGICS = ("HORN", "QF_S", "all", "", "QF_", "QF_QF_BV", "QF_ALL_", "BVQF_", "QF_FP", "qf_bv", "QF_AUFBVFP", "SMT", "let", "QFBV")

# Bodies that no item of the model may have; a repeated item may.
NONSENSE = templates(
    """
    () (p) let :a "a" 1.5 (unknown 1) (_ bad) (as x Int) (forall ((x Int)) true) (! true) (let () true) (_ as-array k!1) ((as const U) 1)
    (lambda ((x Int)) x) (! true :named l) (= 1 true) #b1 ((((let)))) |declare-fun| (root-obj (+ (^ x 2) (- 2)) 2) U!val!0 (+) 12 assert
    """
)
# Commands about `define-const`, most of them out of form. NAME stands for a free name, TAKEN for one that is none.
CONSTANTS = templates(
    """
    (define-const) (define-const NAME) (define-const NAME Bool) (define-const NAME Bool true true) (define-const let Bool true)
    (define-const 1 Bool true) (define-const (NAME) Bool true) (define-const NAME () Bool true) (define-const "a" Bool true)
    (|define-const| NAME Bool true) (|define-const| NAME Bool) (define-consts NAME Bool true) (|Define-const| NAME Bool true)
    ((define-const) NAME Bool true) (define-const NAME Bool 1) (define-const NAME Real 1) (define-const NAME Foo true)
    (define-const NAME (_ BitVec 0) true) (define-const NAME Bool NAME) (define-const TAKEN Bool true) (define-const NAME () true)
    (define-const NAME Bool (! true :named l)) (define-const NAME Bool (and true)) (define-const NAME Bool (= true false))
    (define-const and Bool true) (define-const define-const Bool true) (define-const NAME Bool 1.5) (define-const :a Bool true) define-const
    (define-const NAME Bool ()) (define-const NAME (Int) true) (define-const NAME Bool (TAKEN)) (define-const NAME (_ BitVec) true)
    (define-const NAME Bool (let ((x true)) x)) (define-const NAME Bool (let ((x true) (x true)) x)) (define-fun NAME Bool true)
    """
)
# What a body may have in the place of an element. SORT stands for the name of a declared sort, OTHER for that of another.
ELEMENTS = templates(
    """
    (as @x SORT) (as @x OTHER) (as @x Int) (as x SORT) (as @x) (as @x SORT SORT) (as (_ @x 1) SORT) (as @x Foo) (as 1 SORT) (as |@x| SORT)
    (as @x (_ BitVec 8)) (as @x ()) (as) ((as @x SORT)) ((as @x SORT) 1) (as || SORT) (as "@x" SORT) (as @x (SORT)) (as let SORT) (as :x SORT)
    (= (as @x SORT) (as @y SORT)) (= (as @x SORT) (as @x SORT)) (= (as @x SORT) (as @x OTHER)) (ite true (as @x SORT) (as @y SORT))
    """
)
# Symbols that are elements of the sort that % stands for, or nearly.
SYMBOLS = (
    "%!val!0", "%!val!12", "%!val!00", "%!val!", "%!val!0x", "%!val!-1", "!val!0", "%val!0", "%!val0", "%!val!0!val!1", "%!Val!0",
    "@uc_%_0", "@uc_%_7", "@uc_%_", "@uc_%_01", "@uc_%0", "@uc__0", "uc_%_0", "@Uc_%_0", "@uc_%_0_1", "%_0", "@%_0", "@uc_%!val!0",
    "%!val!123456789012345678901234567890",
)
# Items that tell of the elements of declared sorts, or nearly.
UNIVERSES = templates(
    """
    (declare-fun ELEMENT () SORT) (declare-fun ELEMENT () OTHER) (declare-fun ELEMENT () Int) (declare-fun ELEMENT (SORT) SORT)
    (declare-fun other () SORT) (declare-fun ELEMENT () Foo) (declare-fun ELEMENT ()) (declare-fun 1 () SORT) (declare-fun) (forall)
    (forall ((x SORT)) (or (= x ELEMENT))) (forall let "a" 1.5) (declare-sort SORT 0) (declare-sort) (declare-sort (x) let)
    (declare-const ELEMENT SORT) (exists ((x SORT)) true) (declare-fun |ELEMENT| () |SORT|) (declare-fun ELEMENT () SORT SORT) (forall ())
    """
)
# What has a name in the form of an element, and where a model has that name.
TWO_MEANINGS = [
    (whose, where)
    for where in ("body", "item", "as", "told", "applied")
    for whose in ("constant", "label", "declared", "function", "gone", "abbreviation")
]
TWO_MEANINGS += [("item", "as"), ("abbreviation", "body"), ("abbreviation", "item"), ("none", "item"), ("none", "told")] * 2
TWO_MEANINGS += [("label", "told"), ("declared", "told"), ("none", "told"), ("abbreviation", "item"), ("item", "as"), ("item", "as")]
TWO_MEANINGS += [("variable", where) for where in ("body", "as", "applied")]
SORT_NAMES = ("U", "V", "S", "my sort", "U!val", "x", "uc_U", "Elem", "", "let", "!val!0", "_")
# Sorts whose elements have names of 31 bytes, and of 32.
LONG_SORTS = ("a_sort_of_just_25_letters", "one_sort_of_all_26_letters")


def filled(tree, names):
    """A tree in which these symbols stand for others."""
    if type(tree) is list:
        return [filled(part, names) for part in tree]
    return symbol(names[tree.text]) if is_symbol(tree) and tree.text in names else tree


# Lists of levels, for scripts that have some levels or none.
LEVELS = templates(
    "((push) (pop)) ((push) (push) (pop 2)) ((push 2) (pop) (pop)) ((pop)) ((push) (pop) (pop)) ((push 0) (pop)) ((push) (pop 1)) "
    "((push 9999) (push) (push)) ((push ()) (pop)) ((push) (pop ())) ((push) (reset-assertions) (pop)) ((push) (reset) (pop)) "
    "((push 10000) (push)) ((push 10000) (push)) ((push) (push 9999) (push) (push)) ((|push|)) ((push let)) ((push) (push 1) (pop) (pop 1))"
)


def reformed(tree):
    """A command in its form of this profile, if it has one."""
    if begins_with(tree, "push") or begins_with(tree, "pop"):
        if len(tree) == 2 and is_kind(tree[1], NUMERAL) and tree[1].text == "1":
            return tree[:1]
    if begins_with(tree, "define-fun") and len(tree) == 5 and tree[2] == [] and is_symbol(tree[1]):
        return [symbol("define-const"), tree[1], tree[3], tree[4]]
    return tree


class WideStory(ArrayAims, ConversionAims, Story):
    """A story in the profile `wide`."""

    PROFILE = WIDE
    LOGIC_NAMES = sorted(LOGICS[WIDE]) + ["ALL", "QF_BV", "QF_LIA", "QF_UFBV", "ALL_SUPPORTED"] * 8 + ["AX", "QF_AX"] * 3 + reals.USUAL * 2
    SHORT_SORTS = ("word", "S", "String", "BitVec", "x", "let", "T", "U", "V", "V", "W")

    def __init__(self, rng, aim, turn, with_steps, sorts=False, logics=None):
        super().__init__(rng, aim, turn, with_steps)
        # The sorts that were declared, also those that are gone: what was ever their name.
        self.sorts_met = []
        # How many definitions a model repeats, and which names were defined or were labels.
        self.repeats = rng.choice((0, 0.3, 0.7, 1, 1))
        self.defined = set()
        self.sorted = 0.2 if sorts else rng.choice((0, 0, 0.05, 0.2))
        self.begins_with_sort = sorts
        if logics:
            self.LOGIC_NAMES = logics

    # Commands and answers

    def do(self, tree, answer=None):
        """A command, in one of its forms."""
        done = super().do(reformed(tree) if self.rng.random() < 0.5 else tree, answer)
        self.defined.update(thing.name for thing in self.force.of_kind(Definition))
        for name, sort in self.force.abbreviations.items():
            if type(sort) is Free and name not in self.sorts_met:
                self.sorts_met.append(name)
        return done

    def answer_to(self, command, need):
        """What the solver answers: it may not know a logic."""
        if command.word == "set-logic":
            left = not self.force.print_success and command.parts[0].text in LOGICS[WIDE]
            if self.rng.random() < (0.03 if left else 0.25):
                return symbol("unsupported") if not self.force.print_success else self.no_effect()
        return super().answer_to(command, need)

    # Names that are elements', or nearly

    def element_name(self):
        """A name in the form of an element: of a sort in force, of what abbreviates one, of a sort that is gone or that never was."""
        rng = self.rng
        names = [name for name, sort in self.force.abbreviations.items() if type(sort) is Free]
        own = rng.choice(names or ["U"]) if rng.random() < 0.8 else rng.choice(self.sorts_met + ["U", "V", "Int"])
        return rng.choice(ELEMENT_NAMES + BEHIND_AS).replace("%", own)

    def free_name(self):
        """A name for something new: now and then such a one."""
        if self.sorts_met and self.rng.random() < 0.2:
            name = self.element_name()
            # A declared name that no item can have leaves no model whole.
            own = element_sort(name, self.force.abbreviations) is not None
            if not self.force.context().is_taken(name) and (not own or self.rng.random() < 0.3):
                return name
        return super().free_name()

    def label_names(self):
        """Different names for labels."""
        found = super().label_names()
        if self.sorts_met and self.rng.random() < 0.5:
            found = list(dict.fromkeys(found[:2] + [self.element_name() for _ in range(3)]))
        return found

    def helper_name(self):
        """A name for a helper."""
        if self.sorts_met and self.rng.random() < 0.5:
            name = self.element_name()
            if element_sort(name, self.force.abbreviations) is None or self.chance(0.1):
                return name
        return super().helper_name()

    def settle_items(self):
        """Gives up the items that have no right name or body any more."""
        if self.sorts_met:
            for name in list(self.helpers):
                if element_sort(name, self.force.abbreviations) is not None and self.rng.random() < 0.9:
                    del self.helpers[name]
            if self.rng.random() < 0.8:
                self.helpers = {name: item for name, item in self.helpers.items() if self.is_right(item)}
                self.secret = {name: item for name, item in self.secret.items() if self.is_right(item)}
        super().settle_items()

    # Declared sorts

    def step(self):
        """A command more; now and then it declares a sort."""
        if self.begins_with_sort or self.rng.random() < self.sorted:
            self.begins_with_sort = False
            self.declare_sort()
            if not self.over and self.rng.random() < 0.4:
                self.make_helper()
        else:
            super().step()

    def declare_sort(self):
        """A sort, whose name is free mostly, and perhaps a constant of it."""
        rng = self.rng
        name = rng.choice(SORT_NAMES if rng.random() < 0.93 else LONG_SORTS)
        if name in self.force.abbreviations and not self.chance(0.2):
            name += str(rng.randrange(10))
        if self.chance(0.05):
            name = rng.choice(("Int", "Bool", "Real", "Array"))
        arity = numeral(0) if not self.chance(0.05) else rng.choice((numeral(1), numeral(10**20), symbol("x"), []))
        self.do([word("declare-sort"), symbol(name), arity])
        if not self.over and rng.random() < 0.8 and name in self.force.abbreviations:
            for _ in range(rng.choice((1, 2, 2, 3))):
                if not self.over:
                    self.do(listed("declare-const", symbol(self.free_name()), symbol(name)))

    def sort_names(self):
        """The names of declared sorts in force; two of them, the second perhaps the first."""
        names = [name for name, sort in self.force.abbreviations.items() if type(sort) is Free]
        if not names:
            return None
        return self.rng.choice(names), self.rng.choice(names)

    def universe(self, sort, other):
        """Items that a solver prints for the elements of a sort."""
        rng = self.rng
        names = {"SORT": sort, "OTHER": other, "ELEMENT": rng.choice(SYMBOLS[:2] + SYMBOLS[11:13]).replace("%", sort)}
        return [filled(copied(tree), names) for tree in (UNIVERSES[0], UNIVERSES[10], UNIVERSES[12]) if rng.random() < 0.5]

    # Terms that are assumed

    def literals(self):
        """What a check assumes: terms too, mostly such as are true in the secret model."""
        rng = self.rng
        found = super().literals()
        if self.sorts_met and self.chance(0.03):
            name = symbol(self.element_name())
            found.append(name if rng.random() < 0.5 else listed("=", name, copied(name)))
        for _ in range(rng.choice((0, 0, 1, 1, 2, 3))):
            term = self.true_term(rng.choice((2, 3, 5, 8)))
            if self.chance(0.05):
                term = self.inventor().spoiled(term, self.flaws(self.inventor()).term(rng.choice(LETTERS), {}))
            found.insert(rng.randint(0, len(found)), term)
        return found

    def true_term(self, size):
        """A term that is true in the secret model, mostly."""
        inventor = self.inventor()
        term = inventor.term(BOOL, size, {})
        if self.rng.random() < 0.4:
            term = self.exact(inventor.term(inventor.sort(), size, {}))
        try:
            value = self.value_of(term)
        except Faulty:
            return term
        if value is False and not self.chance(0.06):
            return listed("not", term)
        return listed("or", term, "true") if value is OPEN and self.rng.random() < 0.7 else term

    # Items that repeat definitions

    def model(self, flaws=None):
        """A model, that repeats labels and definitions of the script."""
        items = super().model(flaws)
        self.repeat_in(items, self.repeats)
        if self.chance(0.1):
            self.add_gone(items)
        names = self.sort_names()
        if names and self.rng.random() < 0.5:
            for item in self.universe(*names):
                self.put(items, item)
        return items

    def repeat_in(self, items, part):
        """Puts items for a part of the labels and definitions in force among others, in any order."""
        rng = self.rng
        for thing in self.force.of_kind(Definition):
            if rng.random() < part:
                item = self.repeated(thing)
                if self.chance(0.04):
                    self.spoil_rank(item, rng.randrange(20))
                self.put(items, item)
                if self.chance(0.04):
                    self.put(items, copied(item))

    def put(self, items, item):
        """Puts an item into a model, behind the word `model` mostly."""
        least = 1 if items and is_symbol(items[0], "model") and not self.chance(0.02) else 0
        items.insert(self.rng.randint(least, len(items)), item)

    def repeated(self, thing):
        """An item of the rank of a definition, whose body may be anything."""
        rng = self.rng
        inventor = self.inventor()
        names = inventor.variable_names(len(thing.rank.parameters))
        if len(names) < len(thing.rank.parameters):
            names = ["x!%d" % number for number in range(len(thing.rank.parameters))]
        parameters = [[symbol(name), inventor.sort_tree(sort)] for name, sort in zip(names, thing.rank.parameters)]
        result = thing.rank.result
        choice = rng.random()
        if choice < 0.35:
            body = inventor.term(result, rng.choice((1, 2, 4)), dict(zip(names, thing.rank.parameters)))
        elif choice < 0.5:
            body = symbol(rng.choice(list(self.force.ranks) + NAMES))
        elif choice < 0.7:
            body = inventor.term(inventor.sort(), rng.choice((1, 3)), {})
        else:
            body = copied(rng.choice(NONSENSE))
        return [word("define-fun"), symbol(thing.name), parameters, inventor.sort_tree(result), body]

    def spoil_rank(self, item, turn):
        """A fault in the form, the parameters, the sort or the rank of an item."""
        rng = self.rng
        inventor = self.inventor()
        sort = inventor.sort_tree(inventor.sort())
        kind = turn % 10
        if kind == 0:
            item[2] = item[2] + [listed("extra", sort)]
        elif kind == 1:
            item[2] = item[2][:-1]
        elif kind == 2:
            item[3] = sort
        elif kind == 3:
            item[3] = self.flaws(inventor, turn // 10).sort(rng.choice([*SORT_LETTERS, "F5"]))
        elif kind == 4:
            item[2] = [listed("extra", self.flaws(inventor, turn // 10).sort(rng.choice([*SORT_LETTERS, "F5"])))] + item[2]
        elif kind == 5:
            item[2] = item[2] + [listed("twice", sort), listed("twice", sort)]
        elif kind == 6:
            item[0] = word(rng.choice(("define-fun-rec", "define-funs-rec", "declare-fun", "define-const")))
        elif kind == 7:
            item[2:3] = rng.choice(([], [[listed("x")]], [symbol("x")], [[symbol("x")]], [[listed("let", sort)]], [[], []]))
        elif kind == 8:
            item[:] = item[:-1] if rng.random() < 0.5 else item + [symbol("x")]
        else:
            item[2] = [listed("extra", sort), listed("extra", self.flaws(inventor).sort())]
            item[3] = self.flaws(inventor).sort()

    def add_gone(self, items):
        """An item for a name that was defined or a label and is neither any more: a helper like others."""
        gone = sorted(self.defined - set(self.force.ranks))
        if not gone:
            return None
        inventor = self.inventor()
        name = self.rng.choice(gone)
        sort = inventor.sort()
        body = inventor.literal(sort) if self.rng.random() < 0.6 else copied(self.rng.choice(NONSENSE))
        self.put(items, [word("define-fun"), symbol(name), [], inventor.sort_tree(sort), body])
        return name

    # Aims

    def aim_now(self):
        """What the seed aims at."""
        if self.aim == "wide":
            getattr(self, "aim_at_" + self.what.replace(" ", "_"))()
        else:
            super().aim_now()

    def a_definition(self):
        """A new label, constant or function that the script defines, or None."""
        rng = self.rng
        kind = rng.choice(("defined", "label", "function"))
        if kind != "function":
            return self.new_formula(kind)
        self.fresh += 1
        name = "d%d" % self.fresh
        inventor = self.inventor()
        sorts = [inventor.sort() for _ in range(rng.choice((0, 1, 1, 2)))]
        parameters = self.plain_parameters(inventor, sorts)
        result = inventor.sort()
        scope = {parameter[0].text: sort for parameter, sort in zip(parameters, sorts)}
        if not self.over and not self.force.context().is_taken(name):
            self.do([word("define-fun"), symbol(name), parameters, inventor.sort_tree(result), inventor.term(result, 4, scope)])
        return name if name in self.force.ranks else None

    def thing_named(self, name):
        """The definition of this name in force, or None."""
        return next((thing for thing in self.force.of_kind(Definition) if thing.name == name), None)

    def sat_with(self, change):
        """A check that is answered `sat`, with a model that is changed."""
        tree = self.check_tree()
        if not self.over:
            self.do(tree, symbol("sat"))
        if not self.over:
            items = self.model([])
            change(items)
            self.do(listed("get-model"), items)

    def aim_at_repeated(self):
        """A model that repeats all."""
        self.a_definition()
        self.sat_with(lambda items: self.repeat_in(items, 1))

    def aim_at_rank(self):
        """A repeated item with a fault, in front of others or behind them."""
        self.repeats = 0
        thing = self.thing_named(self.a_definition())

        def change(items):
            if thing is not None:
                item = self.repeated(thing)
                self.spoil_rank(item, self.turn)
                self.put(items, item)

        self.sat_with(change)

    def aim_at_twice(self):
        """An item that repeats a definition twice; a second one may have another rank."""
        self.repeats = 0
        thing = self.thing_named(self.a_definition())

        def change(items):
            if thing is not None:
                for place in range(2):
                    item = self.repeated(thing)
                    if place and self.rng.random() < 0.3:
                        self.spoil_rank(item, self.turn)
                    self.put(items, item)

        self.sat_with(change)

    def aim_at_gone(self):
        """A label or a definition whose level is gone."""
        self.do(listed("push", 1))
        if not self.over:
            self.a_definition()
        if not self.over:
            self.do(self.rng.choice((listed("pop", 1), listed("pop", 1), listed("reset-assertions"))))
        self.sat_with(self.add_gone)

    def aim_at_inner(self):
        """Labels inside terms, and items for them."""
        self.fresh += 1
        names = ["in%d.%d" % (self.fresh, number) for number in range(3)]
        inventor = self.inventor()
        if self.over or any(self.force.context().is_taken(name) for name in names):
            return
        parts = [listed("!", inventor.term(BOOL, 3, {}), keyword(":named"), name) for name in names[:2]]
        parts[1] = listed("!", listed("or", parts[1], "true"), keyword(":named"), names[2])
        self.assert_tree(listed("=>", listed("and", "false", *parts), "true"))
        self.sat_with(lambda items: self.repeat_in(items, 1))

    def aim_at_body(self):
        """A repeated item whose name another body uses."""
        self.repeats = 0
        name = self.a_definition()
        thing = self.thing_named(name)

        def change(items):
            if thing is not None:
                items.insert(1 if items and is_symbol(items[0]) else 0, self.repeated(thing))
                if thing.rank.parameters == ():
                    sort = self.inventor().sort_tree(thing.rank.result)
                    items.append([word("define-fun"), symbol("user"), [], sort, symbol(name)])

        self.sat_with(change)

    def aim_at_declared(self):
        """An item of a declared name, which is never set aside."""
        name = self.new_formula("declared")

        def change(items):
            for item in items:
                if is_right_form(item) and item[1].text == name:
                    if self.rng.random() < 0.5:
                        item[4] = copied(self.rng.choice(NONSENSE))
                    else:
                        self.spoil_rank(item, self.turn)

        self.sat_with(change)

    def aim_at_sort(self):
        """A sort, with constants and functions of it, and equalities between them."""
        self.declare_sort()
        for _ in range(3):
            if not self.over:
                self.declare()
        for _ in range(2):
            if not self.over:
                self.assertion()
        self.sat_with(lambda items: None)

    def body_with(self, body):
        """A model with one more item, of this body and of a sort that fits, or of another."""
        rng = self.rng
        names = self.sort_names()
        sort = rng.choice([symbol(names[0])] * 4 + [symbol(names[1]), symbol("Bool")]) if names else symbol("Bool")
        item = [word("define-fun"), symbol("extra.item"), [], sort, body]
        if rng.random() < 0.3:
            item[2:5] = [[[symbol("y"), sort]], symbol("Bool"), listed("=", "y", body)]
        self.sat_with(lambda items: self.put(items, item))

    def with_sorts(self):
        """Two sorts, if the script goes on; their names, or None."""
        for _ in range(2):
            if not self.over:
                self.declare_sort()
        return None if self.over else self.sort_names()

    def aim_at_element(self):
        """An element, or what is none, in the body of an item."""
        names = self.with_sorts()
        if names is None:
            return
        turn = self.turn % (len(ELEMENTS) + len(SYMBOLS))
        if turn < len(ELEMENTS):
            self.body_with(filled(copied(ELEMENTS[turn]), {"SORT": names[0], "OTHER": names[1]}))
        else:
            name = symbol(SYMBOLS[turn - len(ELEMENTS)].replace("%", names[0]))
            if self.rng.random() < 0.15 and not self.over:
                # No term of a script names an element.
                self.do(listed("assert", listed("=", name, copied(name))))
            self.body_with(name if self.rng.random() < 0.9 else [name, symbol("true")])

    def aim_at_universe(self):
        """An item that tells of a sort's elements, or nearly."""
        names = self.with_sorts()
        if names is None:
            return
        element = self.rng.choice(SYMBOLS if self.rng.random() < 0.5 else ELEMENT_NAMES).replace("%", names[0])
        item = filled(copied(UNIVERSES[self.turn % len(UNIVERSES)]), {"SORT": names[0], "OTHER": names[1], "ELEMENT": element})
        self.sat_with(lambda items: self.put(items, item))

    def aim_at_two_meanings(self):
        """A name of the script, of an item or of a variable that is an element's too; and a model that has it somewhere."""
        rng = self.rng
        names = self.with_sorts()
        if names is None:
            return
        whose, where = TWO_MEANINGS[self.turn % len(TWO_MEANINGS)]
        own = names[0]
        if whose == "abbreviation":
            self.fresh += 1
            own = "A%d" % self.fresh
            self.do([word("define-sort"), symbol(own), [], symbol(names[0])])
        name = rng.choice(BEHIND_AS if where == "as" else ELEMENT_NAMES).replace("%", own)
        if whose == "gone" and not self.over:
            self.do(listed("push", 1))
        if not self.over and not self.force.context().is_taken(name):
            self.bring(whose, name, names[0])
        if whose == "gone" and not self.over:
            self.do(rng.choice((listed("pop", 1), listed("pop", 1), listed("reset-assertions"))))
        if not self.over:
            self.sat_with(lambda items: self.put_meaning(items, whose, where, name, names[0]))

    def bring(self, whose, name, sort):
        """A command by which the script has a name."""
        rng = self.rng
        kind = rng.choice(("constant", "function", "label")) if whose == "gone" else whose
        result = symbol(sort if rng.random() < 0.5 else "Bool")
        if kind == "declared":
            self.do([word("declare-fun"), symbol(name), [symbol(sort)] * rng.choice((0, 0, 1)), result])
        elif kind == "constant":
            body = self.inventor().leaf(self.force.abbreviations.get(sort, BOOL), {}) if result.text == sort else symbol("true")
            self.do([word("define-fun"), symbol(name), [], result, body])
        elif kind == "function":
            self.do([word("define-fun"), symbol(name), [listed("y", symbol(sort))], symbol(sort), symbol("y")])
        elif kind == "label":
            self.assert_tree(listed("!", self.inventor().term(BOOL, 2, {}), keyword(":named"), symbol(name)))

    def put_meaning(self, items, whose, where, name, sort):
        """Puts an item with a name that has two meanings into a model, or nearly."""
        rng = self.rng
        if whose == "declared" and where != "item":
            # Its own item would have the first fault.
            items[:] = [item for item in items if not is_right_form(item) or item[1].text != name]
        tree = symbol(name) if where != "as" else [word("as"), symbol(name), symbol(sort)]
        if rng.random() < 0.3 and where == "as":
            tree[2] = self.flaws(self.inventor()).sort()
        result = symbol(sort)
        parameters = []
        if whose == "variable":
            parameters = [listed(symbol(name), symbol(sort))]
            if rng.random() < 0.5:
                parameters, tree = [], [word("let"), [[symbol(name), listed("as", "@o", symbol(sort))]], tree]
        if where == "applied":
            tree = [tree, listed("as", "@o", symbol(sort))]
        if rng.random() < 0.3:
            tree, result = listed("=", tree, copied(tree)), symbol("Bool")
        item = [word("define-fun"), symbol("extra.item"), parameters, result, tree]
        if where == "item":
            thing = self.thing_named(name)
            item = self.repeated(thing) if thing is not None else [word("define-fun"), symbol(name), [], result, listed("as", "@o", symbol(sort))]
            if thing is not None and rng.random() < 0.3:
                self.spoil_rank(item, rng.randrange(20))
        elif where == "told":
            told = symbol(sort if rng.random() < 0.6 else "Bool") if rng.random() < 0.7 else self.flaws(self.inventor()).sort()
            item = [word("declare-fun"), symbol(name), [], told]
        if whose == "item":
            items.insert(0, [word("define-fun"), symbol(name), [], symbol("Bool"), symbol("true")])
            items.append(item)
        else:
            self.put(items, item)

    def aim_at_new_sort(self):
        """A new sort of a name that the profile keeps."""
        name = WIDE_SORTS[self.turn % 2]
        sort = self.inventor().sort_tree(BOOL) if self.rng.random() < 0.7 else self.flaws(self.inventor()).sort()
        abbreviated = [word("define-sort"), symbol(name), [], sort]
        self.do(abbreviated if self.turn // 2 % 2 else [word("declare-sort"), symbol(name), numeral(0)])

    def aim_at_long_element(self):
        """A constant whose value has a name of 31 bytes, or of 32."""
        size = (31, 32)[self.turn % 2]
        self.fresh += 1
        constant = "long%d" % self.fresh
        name = "@%d".ljust(size + 1, "_") % (self.fresh % 10)
        sort, body = "L%d" % self.fresh, [word("as"), symbol(name)]
        if self.turn // 2 % 3 < 2:
            sort = sort.ljust(size - 6, "-")
            body = symbol(("%s!val!0", "@uc_%s_0")[self.turn // 2 % 3] % sort)
        else:
            body.append(symbol(sort))
        for tree in ([word("declare-sort"), symbol(sort), numeral(0)], listed("declare-const", constant, symbol(sort))):
            if not self.over:
                self.do(tree)
        if not self.over:
            self.do(listed("assert", listed("=", constant, constant)))

        def change(items):
            for item in items:
                if is_right_form(item) and item[1].text == constant:
                    item[4] = body

        self.sat_with(change)

    def aim_at_gone_sort(self):
        """A sort whose level is gone, or another of its name; and an element of it."""
        rng = self.rng
        self.do(listed("push", 1))
        names = self.with_sorts()
        if names is None:
            return
        self.do(rng.choice((listed("pop", 1), listed("reset-assertions"))))
        kind = rng.random()
        others = [name for name, sort in self.force.abbreviations.items() if type(sort) is Free]
        if not self.over and names[0] not in self.force.abbreviations:
            if kind < 0.4:
                self.do([word("declare-sort"), symbol(names[0]), numeral(0)])
            elif kind < 0.7:
                self.do([word("define-sort"), symbol(names[0]), [], symbol(rng.choice(others + ["Bool"]))])
        name = symbol(rng.choice(ELEMENT_NAMES).replace("%", names[0]))
        if rng.random() < 0.5:
            self.body_with(name)
        else:
            item = [word("define-fun"), name, [], symbol("Bool"), symbol("true")]
            self.sat_with(lambda items: self.put(items, item))

    def aim_at_logic(self):
        """A logic, that the solver knows or not."""
        rng = self.rng
        self.do(listed("reset"))
        if rng.random() < 0.2 and not self.over:
            self.option()
        known = rng.random() < 0.6
        names = WIDE_LOGICS[self.turn % len(WIDE_LOGICS)][1].split()
        name = rng.choice(("", "QF_")) + rng.choice(names) if known else rng.choice(NO_LOGICS)
        answer = symbol("unsupported") if rng.random() < (0.4 if known else 0.8) else None
        left = answer is not None and known and not self.force.print_success
        if not self.over:
            self.do(listed("set-logic", symbol(name)), None if left else answer)
        if left and not self.over:
            # That answer is left for the next command.
            self.do(rng.choice((listed("get-info", keyword(":foo")), listed("check-sat"), listed("get-assertions"))), answer)
        for _ in range(rng.choice((1, 2))):
            if not self.over:
                self.declare(rng.random() < 0.5)
        if not self.over:
            self.do(rng.choice((listed("set-logic", "ALL"), listed("assert", listed("=", 1, 1)), listed("check-sat"))))
        self.sat_with(lambda items: None)

    def aim_at_assumed(self):
        """Terms as assumptions: true, false, open, faulty, or of another sort."""
        rng = self.rng
        inventor = self.inventor()
        kind = self.turn % 12
        terms = [self.true_term(rng.choice((2, 4))) for _ in range(rng.choice((0, 1, 1, 2)))]
        if kind < 8:
            term = self.flaws(inventor, self.turn // 12).term(LETTERS[kind], {})
            if rng.random() < 0.4:
                term = inventor.spoiled(inventor.term(BOOL, 4, {}), term)
        elif kind == 8:
            term = inventor.term(rng.choice((INT, BOOL) if INTS in self.force.theories else (BOOL,)), 3, {})
        elif kind == 9:
            term = self.false_term()
        elif kind == 10:
            term = listed("=", listed("div", 1, 0), 1) if INTS in self.force.theories else symbol("true")
        else:
            term = listed("!", self.true_term(3), *rng.choice(([keyword(":named"), symbol("l9")], [keyword(":note")], [])))
        terms.insert(rng.randint(0, len(terms)), term)
        if not self.over:
            self.right_check([], self.check_of(terms))

    def false_term(self):
        """A term that is false in the secret model, mostly."""
        term = self.inventor().term(BOOL, 4, {})
        try:
            return listed("not", term) if self.value_of(term) is True else term
        except Faulty:
            return symbol("false")

    # Reals

    def a_real(self):
        """A constant of the sort Real and a function of a real, by their names, or None."""
        constant, function = self.new_name(), self.new_name()
        result = self.rng.choice(("Real", "Real", "Bool")) if INTS not in self.force.theories else self.rng.choice(("Real", "Int", "Bool"))
        self.do(listed("declare-const", constant, "Real"))
        if not self.over:
            self.do(listed("declare-fun", function, [symbol("Real")], result))
        return None if self.over else (constant, function)

    def aim_at_real_operator(self):
        """An operator on numbers; then one argument more or less."""
        if self.begin_with(reals.USUAL):
            self.a_real()
        name = reals.ON_NUMBERS[self.turn % len(reals.ON_NUMBERS)]
        if self.over or REALS not in self.force.theories or INTS not in self.force.theories and name in reals.OPERATORS[1:]:
            return
        tree = self.inventor().aimed(name, self.rng.choice((3, 5)), {})
        self.assert_and_check(tree)
        if type(tree) is list and not self.over and self.rng.random() < 0.3:
            more = copied(tree) + [copied(tree[-1])] if self.rng.random() < 0.6 else copied(tree[:-1])
            self.assert_tree(listed("=", more, copied(more)))

    def aim_at_printed_real(self):
        """Constants and functions whose items have numbers as solvers print them."""
        if self.begin_with(reals.USUAL):
            for _ in range(3):
                if not self.over:
                    self.a_real()
        for _ in range(2):
            if not self.over:
                self.assert_tree(self.exact(self.inventor().term(REAL if REALS in self.force.theories else BOOL, 6, {})))
        self.check_numbers()

    def aim_at_edge(self):
        """A term over numbers at the bounds of what is known."""
        if self.turn % 3 == 0:
            self.begin_with(reals.USUAL)
        if self.over or REALS not in self.force.theories:
            return
        tree, is_formula = reals.edge_term(self.rng, INTS in self.force.theories)
        if is_formula and self.rng.random() < 0.5:
            tree = listed("not", tree)
        self.assert_and_check(tree, self.rng.random() < 0.7)

    def aim_at_by_zero(self):
        """A division by zero, which decides or not."""
        if self.begin_with(reals.USUAL) and REALS in self.force.theories:
            self.assert_and_check(copied(reals.BY_ZERO[self.turn % len(reals.BY_ZERO)]), self.rng.random() < 0.8)

    def aim_at_mixed(self):
        """A term that mixes the sorts of numbers, or may not."""
        logics = reals.USUAL if self.rng.random() < 0.3 else ("ALL", "QF_LIRA", "QF_UFLIRA")
        names = self.a_real() if self.begin_with(logics) and REALS in self.force.theories else None
        if names is not None:
            tree = reals.filled(copied(reals.MIXES[self.turn % len(reals.MIXES)]), {"CONSTANT": names[0], "NAME": names[1]})
            if self.rng.random() < 0.2:
                tree = self.inventor().spoiled(self.inventor().term(BOOL, 4, {}), tree)
            self.assert_tree(tree)
            if not self.over and self.rng.random() < 0.3:
                self.assert_tree(reals.filled(copied(reals.MIXES[self.turn % 4]), {"CONSTANT": names[0], "NAME": names[1]}))
            self.check_numbers()

    def aim_at_lacking(self):
        """What reals bring, where they or integers are not there."""
        rng = self.rng
        if not self.begin_with(rng.choice((reals.LACKING, reals.LACKING, reals.PURE))):
            return
        if self.turn % 4 == 0:
            self.do(rng.choice((listed("declare-const", "lacked", "Real"), listed("define-sort", "lacked", [], "Real"))))
        elif self.turn % 4 == 1:
            self.do(listed("assert", rng.choice((listed("=", reals.decimal("1.5"), reals.decimal("1.5")), reals.decimal("0.0"), listed("=", 1, 1)))))
        elif self.turn % 4 == 2:
            self.do(listed("assert", copied(rng.choice(reals.FAULTS + reals.BY_ZERO + reals.MIXES))))
        else:
            body = copied(rng.choice((reals.decimal("1.5"), listed("/", 1, 2), numeral(1), listed("to_real", 1))))
            item = [word("define-fun"), symbol("extra.item"), [], symbol(rng.choice(("Real", "Bool", "Int"))), body]
            self.sat_with(lambda items: self.put(items, item))

    def aim_at_real_fault(self):
        """A term with a wrong sort, or nearly."""
        if self.rng.random() < 0.7:
            self.begin_with(reals.USUAL)
        tree = copied(reals.FAULTS[self.turn % len(reals.FAULTS)])
        if not self.over and self.rng.random() < 0.3:
            tree = self.inventor().spoiled(self.inventor().term(BOOL, 4, {}), tree)
        if not self.over:
            self.assert_tree(tree)
        self.check_numbers()

    def aim_at_real_command(self):
        """A command that names the sort."""
        if self.rng.random() < 0.8:
            self.begin_with(reals.USUAL)
        names = {"NAME": self.new_name()}
        if not self.over:
            self.do(reals.filled(copied(reals.COMMANDS[self.turn % len(reals.COMMANDS)]), names))
        self.check_numbers()

    def aim_at_real_name(self):
        """A new name that is an operator's, or is not where the logic lacks a theory."""
        rng = self.rng
        name = symbol(reals.OPERATORS[self.turn % 4])
        if not self.begin_with(rng.choice((reals.USUAL, reals.PURE, reals.LACKING))):
            return
        kind = self.turn // 4 % 6
        self.take(name, kind)
        if kind == 4:
            self.do(listed("assert", [word("let"), [[name, symbol("true")]], rng.choice((name, [name, numeral(1), numeral(2)]))]))
        if kind < 5:
            self.check_numbers()
        else:
            item = [word("define-fun"), name, [], symbol("Bool"), symbol("true")]
            self.sat_with(lambda items: self.put(items, item))

    def aim_at_real_item(self):
        """An item of the sort Real whose body is of another sort, or has another fault, or none."""
        rng = self.rng
        names = self.a_real() if self.begin_with(reals.USUAL) and REALS in self.force.theories else None
        if names is None:
            return
        ints = INTS in self.force.theories
        bodies = [numeral(2), listed("-", 7), listed("/", 1, 3), reals.printed(rng, reals.usual(rng), ints), reals.edge(rng), listed("+", 1, 1)]
        bodies += [listed("root-obj", listed("+", listed("^", "x", 2), listed("-", 2)), 2), listed("to_real", 2), listed("to_int", 2), symbol("true")]
        body = bodies[self.turn % len(bodies)]
        self.assert_tree(listed("=", names[0], copied(body)) if rng.random() < 0.3 else listed("<", names[0], reals.edge(rng)), True)

        def change(items):
            for item in items:
                if is_right_form(item) and item[1].text == names[0]:
                    item[4] = body
                    if rng.random() < 0.5:
                        item[3] = symbol("Int")

        self.sat_with(change)

    def aim_at_const(self):
        """A `define-const`, out of form or with a fault, or right."""
        self.fresh += 1
        names = {"NAME": symbol("c%d" % self.fresh), "TAKEN": symbol(self.rng.choice(list(self.force.ranks) or ["or"]))}
        tree = self.flaws(self.inventor()).named(copied(CONSTANTS[self.turn % len(CONSTANTS)]), names)
        self.do(tree, self.no_effect() if self.force.print_success and self.rng.random() < 0.1 else None)
        if not self.over:
            self.sat_with(lambda items: self.repeat_in(items, 1))

    def aim_at_bare(self):
        """Levels without their number."""
        for tree in copied(LEVELS[self.turn % len(LEVELS)]):
            if not self.over:
                super().do(tree)
        if not self.over:
            self.sat_with(lambda items: None)


def items_for(rng, commands):
    """Items that a solver might print for the labels and definitions of a script."""
    found = []
    for tree in commands:
        if begins_with(tree, "define-fun"):
            found.append(copied(tree))
        if begins_with(tree, "assert"):
            for part in lists_in([tree]):
                if begins_with(part, "!") and len(part) == 4 and is_symbol(part[3]):
                    found.append([word("define-fun"), part[3], [], symbol("Bool"), copied(rng.choice(NONSENSE + [part[1]] * 9))])
    return found


def widened(seed, dialogue):
    """A dialogue in which some commands have their form of this profile, and models repeat labels and definitions."""
    rng = random.Random(~seed)
    readings = read(dialogue.script), read(dialogue.answers)
    if rng.random() < 0.3 or any(reading.flaw for reading in readings):
        return dialogue
    commands, answers = readings[0].trees, readings[1].trees
    items = items_for(rng, commands)
    commands = [reformed(tree) if rng.random() < 0.5 else tree for tree in commands]
    for answer in answers:
        if type(answer) is list and answer and (type(answer[0]) is list or is_symbol(answer[0], "model")):
            for item in items:
                if rng.random() < 0.6:
                    answer.insert(rng.randint(1, len(answer)), copied(item))
    return Dialogue(written(commands), written(answers), dialogue.print_success, dialogue.steps)


class PlainStory(ConversionAims, Story):
    """A story in the profile `base`, where the names of conversions and overflow predicates are free."""


def invent_wide(seed, with_steps=False, sorts=False, with_reals=False, with_arrays=False):
    """The dialogue of a seed in the profile `wide`; with limits on steps, beginning with a declared sort, or aiming at reals or arrays, if so."""
    if with_reals or with_arrays:
        rng = random.Random(seed)
        found = (REAL_AIMS if with_reals else ARRAY_AIMS) + [(None, None, 0, 1)] * 40
        logics = reals.USUAL if with_reals else array_aims.USUAL
        return WideStory(rng, found[seed % len(found)], seed // len(found), with_steps, sorts, logics).tell()
    if seed % 29 == 11 and not sorts:
        return soup_of(random.Random(seed))
    return WideStory(random.Random(seed), WIDE_AIMS[seed % len(WIDE_AIMS)], seed // len(WIDE_AIMS), with_steps, sorts).tell()


def invent_conversions(seed, with_steps, profile):
    """The dialogue of a seed that aims at conversions and overflow predicates, or at their names."""
    rng = random.Random(seed)
    found = CONVERSION_AIMS if profile == WIDE else aims("conversion", conversions.COUNTS_IN_BASE)
    found = found + [(None, None, 0, 1)] * 30
    aim, turn = found[seed % len(found)], seed // len(found)
    if profile == WIDE:
        return WideStory(rng, aim, turn, with_steps, logics=conversions.USUAL).tell()
    return PlainStory(rng, aim, turn, with_steps).tell()
