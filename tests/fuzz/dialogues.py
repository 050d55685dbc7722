"""Invents dialogues by seed: a script, and what a solver might print for it.

A story is told command by command. It keeps what is in force, and a secret model, in which its assertions are mostly true: so the solver in
it knows right models, and spoils some. Then answers are dropped, doubled, swapped and replaced, and bytes of both texts changed. Each seed
has an aim, by its remainder, such as an operator or a fault, so that many seeds in a row reach every kind there is.
"""
import random
from collections import namedtuple

from flaws import BEFORE_LOGICS, LETTERS, Flaws
from inventor import ALL_OPERATORS, NAMES, OPERATOR_NAMES, Inventor, whole_sort, width_names
from models import Structure
from script import CHECKS, Assertion, Declaration, Definition, Force, Refused, command_of, is_define_fun
from sorts import BASE, BITS, BOOL, INT, INTS, LOGICS, REAL, THEORIES, WIDE, Array, Faulty, has_declared
from terms import Checker, Context, Rank, Use, check_assertion, check_definition, check_literal
from text import BINARY, DEEPEST, Atom, is_symbol
from trees import copied, depth_of, keyword, listed, lists_in, numeral, string, symbol, word, written
from validator import IF_FITS, NEEDED, QUESTIONS, takes
from values import OPEN

# Two texts, whether print-success is on at the start, and the limit on steps, None for the program's own.
Dialogue = namedtuple("Dialogue", "script answers print_success steps")



def aims(kind, counts):
    """Aims of a kind, each as often as its count says, with its number among the same and their count."""
    return [(kind, what, number, count) for what, count in counts.items() for number in range(count)]


AIMS = (
    aims("operator", dict.fromkeys(ALL_OPERATORS, 1))
    + aims("term", {"F1": 6, "F2": 2, "F3": 3, "F4": 8, "F5": 3, "F6": 1, "F7": 2, "F8": 2})
    + aims("sort", {"F1": 3, "F2": 1, "F3": 3, "F5": 1})
    + aims("item", {"F1": 3, "F2": 2, "F3": 2, "F4": 2, "F5": 1, "F6": 2, "F7": 2, "F8": 1})
    + aims("command", {"C1": 11, "C2": 2, "C3": 1, "C4": 1, "C5": 2, "C6": 1})
    + aims("contest", {"term": 8, "definition": 3, "declaration": 2, "item": 6})
    + aims("before logic", {None: 4})
    + aims("script", {"X1": 3, "X2": 1, "X3": 2})
    + aims("answers", {"X1": 3, "X2": 1, "X3": 2})
    + aims("pairing", {"P1": 1, "P2": 3, "P3": 1})
    + aims(
        "assuming",
        {
            "form": 4, "fault": 6, "false": 9, "open": 6, "several": 3, "next": 2, "levels": 2, "model": 2, "answer": 2, "pairing": 3,
            "exit": 2, "long": 3,
        },
    )
    + aims(
        "global",
        {"late": 6, "kept": 6, "twice": 9, "label": 3, "lacks": 2, "reset": 2, "assumed": 2, "item": 3, "back": 3, "no effect": 4},
    )
    + aims("outcome", {"lacks": 1, "refuted": 1, "open": 2, "no model": 1, "several": 1, "outside": 1, "long": 2})
    + [(None, None, 0, 1)] * 40
)

KINDS = {
    "declare": 12, "define": 5, "abbreviate": 2, "assert": 14, "push": 3, "pop": 3, "check": 5, "model": 1, "option": 1.5, "info": 1,
    "echo": 0.7,
    "question": 1.5, "reset": 0.4, "reset-assertions": 0.5, "logic": 0.25, "faulty": 0.7, "exit": 0.1, "chain": 0.3,
}
# The largest limit that the program takes.
MOST_STEPS = 2**64 - 2
KIND_NAMES, KIND_WEIGHTS = list(KINDS), list(KINDS.values())


def is_right_form(item):
    """Whether an item of a model has its form."""
    return type(item) is list and is_define_fun(item[1:])


class Story:
    """A dialogue as it is told."""

    PROFILE = BASE
    LOGIC_NAMES = sorted(LOGICS[BASE]) + ["ALL", "ALL", "QF_BV", "QF_LIA", "QF_UFBV"]
    SHORT_SORTS = ("word", "S", "Real", "Array", "String", "BitVec", "x", "let", "T")

    def __init__(self, rng, aim, turn, with_steps):
        self.rng = rng
        self.aim, self.what, number, count = aim
        # What the aim has several kinds of is taken one after another.
        self.turn = turn * count + number
        # How much goes wrong besides the aim.
        self.wild = rng.choice((0.15, 0.15, 0.4)) if self.aim else rng.choice((0.1, 0.5, 1.0, 2.0))
        self.with_steps = with_steps
        self.force = Force(rng.random() < 0.5, self.PROFILE)
        self.start = self.force.print_success
        self.commands, self.answers = [], []
        self.widths = width_names(rng)
        self.secret = {}
        self.helpers = {}
        self.window = False
        self.over = False
        # What the last check assumed, as nodes.
        self.assumed = []
        self.costs = []
        self.fresh = 0

    def chance(self, probability):
        """Whether something of this probability happens that may go wrong."""
        return self.rng.random() < probability * self.wild

    # Commands and answers

    def take(self, name, kind):
        """Makes a name a declared one, a function's, a label or an abbreviation, by the kinds from 0 to 3."""
        if kind == 0:
            self.do(listed("declare-const", name, "Bool"))
        elif kind == 1:
            self.do(listed("define-fun", name, [listed("x", "Bool")], "Bool", "x"))
        elif kind == 2:
            self.do(listed("assert", listed("!", "true", keyword(":named"), name)))
        elif kind == 3:
            self.do(listed("define-sort", name, [], "Bool"))

    def do(self, tree, answer=None):
        """Puts a command, and its answer if it takes one. Whether it took effect without a fault."""
        number = len(self.commands) + 1
        self.commands.append(tree)
        try:
            command = command_of(tree, self.PROFILE)
        except Refused:
            self.over = True
            return False
        need, fits = takes(command, self.force.print_success, self.PROFILE)
        if answer is None:
            answer = self.answer_to(command, need)
        if answer is not None:
            self.answers.append(answer)
        taken = answer is not None and need in (NEEDED, IF_FITS) and fits(answer)
        if taken and (is_symbol(answer, "unsupported") or self.is_error(answer)):
            return False
        try:
            assumed = self.force.take(number, command)
        except Refused:
            if taken and self.rng.random() < (0.2 if self.aim in ("assuming", "global") else 0.6):
                self.answers[-1] = self.error()
                return False
            self.over = True
            return False
        self.settle_items()
        if command.word in CHECKS:
            self.window = is_symbol(answer, "sat")
            self.assumed = assumed
        elif command.word not in ("get-model", "echo", "set-option", "set-info", "exit") and command.word not in QUESTIONS:
            self.window = False
        elif command.word == "exit":
            self.over = True
        return True

    def error(self):
        """An error."""
        return listed("error", string(self.rng.choice(("", "line 1: no", 'a ""quote', "unsupported", "(\n"))))

    @staticmethod
    def is_error(answer):
        """Whether an answer is an error."""
        return type(answer) is list and len(answer) == 2 and is_symbol(answer[0], "error")

    def no_effect(self):
        """An answer by which a command takes no effect."""
        return symbol("unsupported") if self.rng.random() < 0.4 else self.error()

    def answer_to(self, command, need):
        """What the solver answers."""
        rng = self.rng
        name = command.word
        if name in CHECKS:
            found = rng.choices(("sat", "unsat", "unknown", "none"), (16, 2, 1, 1))[0]
            return self.no_effect() if found == "none" else symbol(found)
        if name == "get-model":
            return self.model() if self.window or rng.random() < 0.5 else rng.choice((self.no_effect(), [], [symbol("model")]))
        if name == "echo":
            return copied(command.parts[0]) if not self.chance(0.1) else rng.choice((self.no_effect(), symbol("a")))
        if name in QUESTIONS:
            return rng.choice(
                ([[symbol("x"), numeral(1)]], [], string("z3"), symbol("sat"), keyword(":a"), word("let"), self.no_effect(), numeral(7))
            )
        if need is NEEDED:
            return self.no_effect() if self.chance(0.05) else symbol("success")
        if name == "exit":
            choice = rng.random()
            return symbol("success") if choice < 0.3 else self.no_effect() if choice < 0.35 or self.chance(0.05) else None
        if need is IF_FITS:
            if self.force.print_success or self.chance(0.2):
                quiet = name in ("set-option", "set-info") and not self.force.print_success
                return symbol("unsupported") if quiet or self.chance(0.2) else symbol("success")
        return None

    # Names and terms

    def inventor(self, labels=None):
        """Invents terms over what is in force."""
        return Inventor(self.rng, self.force.context(), self.widths, labels)

    def flaws(self, inventor, turn=None):
        """Makes what is faulty over what is in force."""
        return Flaws(self.rng, inventor, turn)

    def taken_names(self):
        """Names that a definition may not have, and an operator's in any case."""
        return ["and", "=", "true", "bvadd", "+"] + list(self.force.ranks) + list(self.force.abbreviations) + ["Int", "Bool"]

    def free_name(self):
        """A name for something new, which is free, mostly."""
        rng = self.rng
        context = self.force.context()
        if rng.random() < 0.1:
            pool = OPERATOR_NAMES
        else:
            pool = NAMES
        for _ in range(4):
            name = rng.choice(pool)
            if not context.is_taken(name) or self.chance(0.03):
                return name
        self.fresh += 1
        return "n%d" % self.fresh

    def model_context(self):
        """What items of the secret model are checked in."""
        ranks = {name: item[1] for name, item in self.known_items().items()}
        return Context(self.force.theories, self.force.abbreviations, ranks, self.PROFILE == WIDE, self.force.ranks)

    def known_items(self):
        """The items of the secret model for what is declared, behind the helpers, by name: tree, rank and body."""
        items = dict(self.helpers)
        for thing in self.force.of_kind(Declaration):
            # One that was declared just now has none yet.
            if thing.name in self.secret:
                items[thing.name] = self.secret[thing.name]
        return items

    def settle_items(self):
        """Gives each declared name an item that fits, and drops the helpers whose names the script took."""
        declared = self.force.of_kind(Declaration)
        self.secret = {thing.name: self.secret[thing.name] for thing in declared if thing.name in self.secret}
        if len(self.secret) == len(declared) and not any(name in self.force.ranks for name in self.helpers):
            return
        helpers, secret = self.helpers, self.secret
        self.helpers, self.secret = {}, {}
        for name, item in helpers.items():
            if name not in self.force.ranks and self.is_right(item):
                self.helpers[name] = item
        for thing in declared:
            item = secret.get(thing.name)
            if item is None or not self.is_right(item):
                item = self.make_item(thing.name, thing.rank.parameters, thing.rank.result)
            self.secret[thing.name] = item

    def is_right(self, item):
        """Whether an item has no fault behind the others."""
        try:
            return check_definition(self.model_context(), *item[0][2:])[0] == item[1]
        except Faulty:
            return False

    def structure(self):
        """The secret model, and the definitions in force."""
        bodies = {name: item[2] for name, item in self.known_items().items()}
        bodies.update((thing.name, thing.body) for thing in self.force.of_kind(Definition))
        return Structure(bodies)

    def parameters(self, inventor, sorts):
        """Parameters of these sorts, and their scope."""
        names = inventor.variable_names(len(sorts))
        trees = [[symbol(name), inventor.sort_tree(sort)] for name, sort in zip(names, sorts)]
        return trees, dict(zip(names, sorts))

    def make_item(self, name, sorts, result):
        """An item of the secret model: its tree, rank and body."""
        rng = self.rng
        context = self.model_context()
        inventor = Inventor(rng, context, self.widths)
        parameters, scope = self.parameters(inventor, sorts)
        if not sorts:
            body = inventor.literal(result) if rng.random() < 0.75 else inventor.term(result, rng.choice((1, 2, 4)), {})
        elif rng.random() < 0.5:
            body = inventor.term(result, rng.choice((1, 3, 6)), scope)
        else:
            body = inventor.literal(result)
            for _ in range(rng.choice((0, 1, 2))):
                variable, sort = rng.choice(list(scope.items()))
                if "=" not in scope and "ite" not in scope and "-" not in scope:
                    body = [symbol("ite"), listed("=", symbol(variable), inventor.literal(sort)), inventor.literal(result), body]
        tree = [word("define-fun"), symbol(name), parameters, inventor.sort_tree(result), body]
        for _ in range(20):
            try:
                rank, checked = check_definition(context, *tree[2:])
                return tree, rank, checked
            except Faulty:
                plain = self.plain_parameters(inventor, sorts)
                tree = [word("define-fun"), symbol(name), plain, inventor.sort_tree(result), inventor.literal(result)]
        raise ValueError("no right item of this rank: " + str(tree))

    @staticmethod
    def plain_parameters(inventor, sorts):
        """Parameters that hide nothing."""
        return [[symbol("x!%d" % number), inventor.sort_tree(sort)] for number, sort in enumerate(sorts)]

    # What a script does

    def header(self):
        """What scripts begin with."""
        rng = self.rng
        if rng.random() < 0.25:
            self.do(listed("set-option", keyword(":print-success"), rng.choice(("true", "false"))))
        if rng.random() < 0.15:
            self.do(listed("set-info", keyword(":status"), rng.choice(("sat", "unsat"))))
        if rng.random() < 0.15:
            self.do(listed("set-option", keyword(":produce-models"), "true"))
        if rng.random() < 0.3:
            self.set_global(rng.random() < 0.8)
        if rng.random() < 0.5 and self.aim != "operator":
            calm = self.aim not in (None, "before logic") and rng.random() < 0.7
            self.do(listed("set-logic", "ALL" if calm else rng.choice(self.LOGIC_NAMES)))
        elif self.chance(0.03):
            self.do(listed("set-logic", rng.choice(("QF_LRA", "HORN", "", "all"))))
        if rng.random() < 0.1 and not self.over:
            self.set_global(rng.random() < 0.7)
        for _ in range(rng.choice((0, 0, 0, 1, 2))):
            self.make_helper()

    def helper_name(self):
        """A name for a helper."""
        return self.rng.choice(("helper", "k!1", "h!2", "f!3", self.rng.choice(NAMES)))

    def make_helper(self):
        """A helper of the secret model."""
        rng = self.rng
        inventor = Inventor(rng, self.model_context(), self.widths)
        name = self.helper_name()
        if name not in self.helpers and name not in self.force.ranks and not inventor.context.is_taken(name):
            sorts = [inventor.sort() for _ in range(rng.choice((0, 1, 1, 2)))]
            self.helpers[name] = self.make_item(name, sorts, inventor.sort())

    def declare(self, any_theory=False):
        """A declaration, whose sorts may be of theories that are not in force."""
        rng = self.rng
        inventor = self.inventor()
        if any_theory or self.chance(0.03):
            inventor = Inventor(rng, Context(THEORIES[self.PROFILE], self.force.abbreviations, self.force.ranks), self.widths)
        name = self.free_name()
        result = inventor.sort()
        sorts = [inventor.sort() for _ in range(rng.choice((1, 1, 2, 3)))] if rng.random() < 0.35 else []
        trees = [inventor.sort_tree(sort) for sort in sorts] + [inventor.sort_tree(result)]
        if self.chance(0.02):
            trees[rng.randrange(len(trees))] = self.flaws(inventor).sort()
        if sorts or rng.random() < 0.4:
            tree = [word("declare-fun"), symbol(name), trees[:-1], trees[-1]]
        else:
            tree = [word("declare-const"), symbol(name), trees[-1]]
        self.do(tree)

    def define(self):
        """A definition."""
        rng = self.rng
        inventor = self.inventor()
        name = self.free_name()
        result = inventor.sort()
        sorts = [inventor.sort() for _ in range(rng.choice((0, 0, 1, 1, 2, 3)))]
        parameters, scope = self.parameters(inventor, sorts)
        body = inventor.term(result, rng.choice((1, 2, 4, 8)), scope)
        tree = [word("define-fun"), symbol(name), parameters, inventor.sort_tree(result), body]
        if self.chance(0.05):
            self.flaws(inventor).definition(tree, self.taken_names())
        self.do(tree)

    def abbreviate(self):
        """An abbreviation."""
        rng = self.rng
        inventor = self.inventor()
        name = rng.choice(self.SHORT_SORTS)
        if self.chance(0.1):
            name = rng.choice(("Int", "Bool"))
        if name in self.force.abbreviations and not self.chance(0.2):
            name += "'"
        tree = inventor.sort_tree(inventor.sort()) if not self.chance(0.08) else self.flaws(inventor).sort()
        self.do([word("define-sort"), symbol(name), [], tree])

    def label_names(self):
        """Different names for labels."""
        return self.rng.sample(NAMES, 4) + self.rng.sample(OPERATOR_NAMES, 3) * (self.rng.random() < 0.15) + ["a1", "a2"]

    def assertion(self):
        """An assertion, which is true in the secret model, mostly."""
        rng = self.rng
        labels = None
        if rng.random() < 0.35:
            labels = [name for name in self.label_names() if not self.force.context().is_taken(name)]
        inventor = self.inventor(labels)
        size = rng.choice((1, 3, 4, 6, 8, 12, 20))
        if self.chance(0.04):
            tree = inventor.term(inventor.sort(), size, {})
        elif rng.random() < 0.5:
            tree = self.exact(inventor.term(inventor.sort(), size, {}))
        else:
            tree = inventor.term(BOOL, size, {})
        if labels and rng.random() < 0.5:
            tree = listed("!", tree, keyword(":named"), symbol(labels.pop()))
        for _ in range(self.chance(0.08) + self.chance(0.04)):
            tree = inventor.spoiled(tree, self.flaws(inventor).term(rng.choice(LETTERS), {}))
        self.assert_tree(tree)

    def exact(self, tree):
        """That a term has the value that it has in the secret model."""
        try:
            sort, node = Checker(self.force.context(), []).check(tree, {})
            value = self.structure().value(node, {})
        except Faulty:
            return tree
        if value is OPEN or has_declared(sort):
            return listed("=", tree, self.same(sort, value) or copied(tree))
        if sort != BOOL and type(sort) is not Array and self.chance(0.05):
            value = max(0, value - 1)
        return listed("=", tree, literal_of(sort, value))

    def same(self, sort, value):
        """A constant of a declared sort that has a value in the secret model, or None."""
        structure = self.structure()
        names = [name for name, rank in self.force.ranks.items() if rank.result == sort and not rank.parameters]
        equal = [name for name in names if name in structure.bodies and structure.value(Use(name, ()), {}) == value]
        return symbol(self.rng.choice(equal)) if equal and value is not OPEN else None

    def assert_tree(self, tree, keep=False):
        """Asserts a term: as it is, or so that it is true in the secret model."""
        rng = self.rng
        try:
            node, _ = check_assertion(self.force.context(), tree)
            value = self.structure().value(node, {})
            if keep or self.chance(0.06) or value is OPEN and rng.random() < 0.15:
                pass
            elif value is False:
                tree = listed("not", tree)
            elif value is OPEN:
                tree = listed("or", tree, "true") if rng.random() < 0.7 else listed("=>", "false", tree)
        except Faulty:
            pass
        if self.rng.random() < 0.008:
            tree = self.deepened(tree, 999 + rng.choice((0, 0, -1, 1)))
        elif self.rng.random() < 0.003:
            self.deep_calls()
        self.do([word("assert"), tree])

    def deepened(self, tree, depth):
        """A truth value that nests to this depth."""
        rng = self.rng
        wraps = (
            lambda inner: listed("not", inner),
            lambda inner: listed("!", inner, keyword(":a")),
            lambda inner: listed("let", [listed("v", "true")], inner),
            lambda inner: listed("ite", "true", inner, "false"),
            lambda inner: listed("=", inner, "true"),
        )
        kinds = [rng.choice(wraps)] * 2 if rng.random() < 0.7 else wraps
        for _ in range(depth - depth_of(tree)):
            tree = rng.choice(kinds)(tree)
        return tree

    def deep_calls(self):
        """Functions that nest deep, each of which uses the one before, so that evaluation nests deeper than any list."""
        names = ["deep%d" % number for number in range(3)]
        if any(self.force.context().is_taken(name) for name in names):
            return
        for number, name in enumerate(names):
            body = listed(names[number - 1], "x") if number else symbol("x")
            body = self.deepened(body, self.rng.choice((300, 700, 998)))
            if not self.over:
                self.do([word("define-fun"), symbol(name), [listed("x", "Bool")], symbol("Bool"), body])
        if not self.over:
            self.do(listed("assert", listed("=", listed(names[-1], "true"), listed(names[-1], listed("not", "false")))))

    def check(self):
        """A check, with models behind it, mostly."""
        rng = self.rng
        tree = self.check_tree()
        if not self.over:
            self.do(tree)
        if rng.random() < 0.85:
            for _ in range(rng.choice((1, 1, 1, 1, 2, 3))):
                if rng.random() < 0.1 and not self.over:
                    self.between()
                if not self.over:
                    self.do(listed("get-model"))

    def check_tree(self):
        """A check, with assumptions now and then."""
        rng = self.rng
        if rng.random() < 0.6:
            return listed("check-sat")
        if not self.formulas() and rng.random() < 0.6:
            self.new_formula(rng.choice(("declared", "defined", "label", "open")))
        return self.check_of(self.literals())

    @staticmethod
    def check_of(literals):
        """A check that assumes these literals."""
        return listed("check-sat-assuming", literals)

    def formulas(self):
        """The constants in force that are formulas."""
        return [name for name, rank in self.force.ranks.items() if rank == Rank((), BOOL)]

    def value_of(self, literal):
        """The value of a literal in the secret model."""
        return self.structure().value(check_literal(self.force.context(), literal), {})

    def literal(self, wanted=True):
        """A literal that has this value in the secret model, mostly."""
        rng = self.rng
        names = self.formulas()
        if not names or rng.random() < 0.12:
            names = ["true", "false"]
        tree = symbol(rng.choice(names))
        if self.value_of(tree) is OPEN and rng.random() < 0.6:
            tree = symbol("true")
        value = self.value_of(tree)
        if value not in (OPEN, wanted) or value is OPEN and rng.random() < 0.5:
            return listed("not", tree)
        return tree

    def literals(self):
        """What a check assumes, mostly what is true in the secret model."""
        rng = self.rng
        found = [self.literal(not self.chance(0.06)) for _ in range(rng.choice((0, 1, 1, 1, 2, 2, 3, 5)))]
        if rng.random() < 0.7:
            found = [tree for place, tree in enumerate(found) if tree not in found[:place]]
        if found and rng.random() < 0.15:
            found.append(copied(rng.choice(found)))
        if self.chance(0.03):
            found.insert(rng.randint(0, len(found)), self.flaws(self.inventor()).literal(rng.choice(("F3", "F4"))))
        if found and self.chance(0.02):
            found.append(listed("not", listed("not", rng.choice(("true", copied(found[0]))))))
        return found

    def between(self):
        """A command that ends no window."""
        rng = self.rng
        choice = rng.random()
        if choice < 0.3:
            self.do(listed("get-value", [symbol(rng.choice(NAMES)) for _ in range(rng.choice((1, 2)))]))
        elif choice < 0.5:
            self.do(listed("echo", string(rng.choice(("", "here", 'a"b', "((\n;")))))
        elif choice < 0.7:
            self.do(listed("set-info", keyword(":a"), rng.choice(([], listed("x", 1), keyword(":b"), word("let"), "x"))))
        else:
            self.option()

    def option(self):
        """An option."""
        rng = self.rng
        choice = rng.random()
        if choice < 0.6:
            value = rng.choice(("true", "false"))
            self.do(listed("set-option", keyword(":print-success"), value))
        elif choice < 0.7:
            late = self.force.settled and not self.chance(0.1)
            self.set_global(self.force.global_declarations if late else rng.random() < 0.6)
        else:
            value = rng.choice(([], [numeral(3)], [word("true")], [listed("a", "b")]))
            self.do(listed("set-option", keyword(rng.choice((":produce-models", ":a", ":random-seed"))), *value))

    def set_global(self, value):
        """Sets global declarations, which is a fault where that is late and changes the value."""
        self.do(listed("set-option", keyword(":global-declarations"), "true" if value else "false"))

    def question(self):
        """A question that isn't looked at."""
        rng = self.rng
        self.do(
            rng.choice(
                (
                    listed("get-value", [symbol(rng.choice(NAMES)), []]), listed("get-info", keyword(":name")),
                    listed("get-option", keyword(":print-success")), listed("get-assertions"), listed("get-assignment"),
                    listed("get-proof"),
                    listed("get-unsat-core"), listed("get-unsat-assumptions"), listed("get-value", [word("let")]),
                )
            )
        )

    def levels(self, name):
        """A `push` or `pop`."""
        rng = self.rng
        count = rng.choice((0, 1, 1, 1, 1, 2, 3))
        if name == "pop" and count > self.force.levels and not self.chance(0.08):
            count = self.force.levels
        if name == "push" and self.chance(0.02):
            count = rng.choice((10000 - self.force.levels, 10001 - self.force.levels, 10000, 10**30))
        self.do(listed(name, count))

    def faulty(self, letter=None, turn=None):
        """A command with a fault of its own."""
        rng = self.rng
        letter = letter or rng.choice(("C1", "C1", "C1", "C2", "C3", "C4", "C5"))
        tree = self.flaws(self.inventor(), turn).command(letter, self.force)
        answered = self.force.print_success and self.wild >= 0.5 and rng.random() < 0.3
        self.do(tree, self.no_effect() if answered else symbol("success") if self.force.print_success else None)

    def chain(self, length=None):
        """Functions each of which uses the one before twice, so that costs double."""
        rng = self.rng
        if INTS not in self.force.theories or any(self.force.context().is_taken("f%d" % number) for number in range(80)):
            return
        longest = (3, 8, 12, 17, 21, 24, 30, 70) if self.with_steps else (2, 3, 5)
        length = length or rng.choice(longest)
        nested = length <= 9 and rng.random() < 0.5
        constants = rng.random() < 0.2
        for number in range(length + 1):
            name, below = "f%d" % number, "f%d" % (number - 1)
            if constants:
                body = listed("ite", listed("=", below, below), 1, 2) if number else numeral(1)
            elif nested:
                body = listed(below, listed(below, "x")) if number else listed("+", "x", 1)
            else:
                body = listed("ite", listed("=", listed(below, "x"), listed(below, "x")), "x", 2) if number else symbol("x")
            if not self.over:
                self.do([word("define-fun"), symbol(name), [] if constants else [listed("x", "Int")], symbol("Int"), body])
        if not self.over:
            last = symbol("f%d" % length) if constants else listed("f%d" % length, 1)
            self.assert_tree(listed("<=", last, 1000000))

    def step(self):
        """One command or some."""
        kind = self.rng.choices(KIND_NAMES, KIND_WEIGHTS)[0]
        if kind == "declare":
            self.declare()
        elif kind == "define":
            self.define()
        elif kind == "abbreviate":
            self.abbreviate()
        elif kind == "assert":
            self.assertion()
        elif kind in ("push", "pop"):
            self.levels(kind)
        elif kind == "check":
            self.check()
        elif kind == "model":
            self.do(listed("get-model"))
        elif kind == "option":
            self.option()
        elif kind in ("info", "echo"):
            self.between()
        elif kind == "question":
            self.question()
        elif kind in ("reset", "reset-assertions"):
            if self.rng.random() < 0.5 or self.wild > 0.3:
                self.do(listed(kind))
        elif kind == "logic" and not self.force.settled and not self.force.with_logic:
            self.do(listed("set-logic", self.rng.choice(self.LOGIC_NAMES)))
        elif kind == "faulty" and self.chance(0.6):
            self.faulty()
        elif kind == "exit" and self.chance(1):
            self.do(listed("exit"))
        elif kind == "chain" and self.chance(0.5):
            self.chain()

    # Models

    def model(self, flaws=None):
        """A model: the secret one, with some flaws."""
        rng = self.rng
        items = [copied(item[0]) for item in self.known_items().values()]
        structure = self.structure()
        try:
            nodes = [thing.node for thing in self.force.of_kind(Assertion)]
            self.costs.append(sum(map(structure.cost, nodes + self.assumed)))
        except KeyError:
            pass
        if flaws is None:
            flaws = [None] if self.chance(0.3) else []
            if flaws and rng.random() < 0.2:
                flaws = [None, None]
        for flaw in flaws:
            self.spoil_model(items, flaw or rng.choice(self.MODEL_FLAWS))
        if rng.random() < 0.02:
            # As deep as lists may nest, or deeper by one: an item is at depth 2.
            depth = 998 + rng.choice((0, 0, 1)) * self.chance(0.5)
            items.append(listed("define-fun", "deep", [], "Bool", self.deepened(symbol("true"), depth)))
        return [symbol("model")] * (rng.random() < 0.2) + items

    MODEL_FLAWS = ["wrong", "wrong", "wrong", "missing", "missing", "extra", "order", "model", "contest", "contest"] + LETTERS

    def spoil_model(self, items, flaw):
        """Spoils the items of a model."""
        rng = self.rng
        inventor = Inventor(rng, self.model_context(), self.widths)
        if flaw == "wrong" and items:
            item = rng.choice(items)
            if not is_right_form(item):
                return
            try:
                result = inventor.context.sort(item[3])
                item[4] = inventor.literal(result) if rng.random() < 0.8 else inventor.term(result, 3, {})
            except Faulty:
                pass
        elif flaw == "missing" and items:
            items.pop(rng.randrange(len(items)))
        elif flaw == "extra":
            name = rng.choice(NAMES + ["extra"] * 20)
            sort = inventor.sort()
            item = [word("define-fun"), symbol(name), [], inventor.sort_tree(sort), inventor.term(sort, 2, {})]
            items.insert(rng.randint(0, len(items)), item)
        elif flaw == "order":
            rng.shuffle(items)
        elif flaw == "model":
            items.insert(rng.randint(0, len(items)), symbol("model"))
        elif flaw in LETTERS:
            self.spoil_item(inventor, items, flaw)
        elif flaw == "contest":
            self.contest_of_items(inventor, items)

    def own_item(self, inventor, items):
        """The place of an item that may be spoiled: of one that is there, or of a new helper."""
        rng = self.rng
        place = rng.randrange(len(items)) if items else 0
        if not items or not is_right_form(items[place]) or rng.random() < 0.3:
            sort = inventor.sort()
            item = [word("define-fun"), symbol("extra"), [], inventor.sort_tree(sort), inventor.literal(sort)]
            items.insert(place, item)
        return place

    def item_names(self):
        """Names that a model may not define."""
        return [thing.name for thing in self.force.of_kind(Definition)] * 3 + ["and", "true", "=", "+", "bvadd"]

    def spoil_item(self, inventor, items, letter, turn=None):
        """Puts an item with a fault among others, or in the place of one."""
        rng = self.rng
        place = self.own_item(inventor, items)
        if letter == "F6" and rng.random() < 0.6:
            items.insert(rng.randint(place, len(items)), copied(items[place]))
        else:
            items[place] = self.flaws(inventor, turn).item(items[place], letter, self.item_names())

    def contest_of_items(self, inventor, items):
        """Puts several faults into one item, mostly."""
        rng = self.rng
        place = self.own_item(inventor, items)
        names = self.item_names() + [item[1].text for item in items[:place] if is_right_form(item)] * 3
        self.flaws(inventor).definition(items[place], names)
        if rng.random() < 0.1:
            items[place][0] = word("define-fun-rec")
        if rng.random() < 0.2:
            items.insert(rng.randint(0, len(items)), copied(items[place]))

    # The whole

    def tell(self):
        """Tells the story, and gives the dialogue."""
        rng = self.rng
        self.header()
        length = rng.choice((1, 3, 4, 6, 8, 8, 10, 10, 12, 14, 18, 25))
        if rng.random() < 0.008:
            length = rng.randint(60, 250)
        aim_at = rng.randint(length // 3, length)
        for place in range(length):
            if place == aim_at and not self.over:
                self.aim_now()
            if self.over and (self.aim or rng.random() < 0.6):
                break
            self.step()
        if aim_at >= length and not self.over:
            self.aim_now()
        if not self.over and rng.random() < 0.7:
            self.check()
        if not self.over and rng.random() < 0.15:
            self.do(listed("exit"))
            if self.chance(0.15):
                self.do(rng.choice((numeral(3), listed("check-sat"), [])))
        self.mutate_answers()
        if self.chance(0.03):
            self.change_tree(self.commands)
        odd = rng.choice((0, 0, 0, 0, 0.05, 0.3))
        script, answers = written(self.commands, rng, odd), written(self.answers, rng, odd)
        if rng.random() < 0.8:
            script, answers = script + b"\n", answers + b"\n"
        script, answers = self.mutate_texts(script, answers)
        return Dialogue(script, answers, self.start, self.chosen_steps())

    def chosen_steps(self):
        """The limit on steps."""
        rng = self.rng
        if not self.with_steps or rng.random() > (0.8 if self.what == "long" else 0.25):
            return None
        cost = rng.choice(self.costs) if self.costs else rng.choice((0, 3, 10))
        if self.aim == "assuming" and self.what == "long" and self.costs:
            # (a model that costs very much is told as too long, and not waited for)
            return min(max(0, self.costs[-1] - rng.choice((0, 0, 0, 1, 1, 2))), 20000000)
        choices = [cost, cost - 1, cost, cost - 1, cost + 1, cost // 2, 0, 1]
        if self.what == "long":
            choices = [cost - 1, cost - 1, cost // 2]
        elif max(self.costs, default=0) < 100000:
            choices += [MOST_STEPS, 2**63, 2**32]
        return max(0, min(rng.choice(choices), MOST_STEPS if max(self.costs, default=0) < 100000 else 200000))

    def right_check(self, flaws=(), tree=None):
        """A check that is answered `sat`, with a model that has these flaws alone."""
        if not self.over:
            self.do(tree or listed("check-sat"), symbol("sat"))
        if not self.over:
            self.do(listed("get-model"), self.model(list(flaws)))

    def aim_now(self):
        """What the seed aims at."""
        rng = self.rng
        kind, what = self.aim, self.what
        inventor = self.inventor()
        flaws = self.flaws(inventor, self.turn)
        if kind == "operator":
            if INTS in self.force.theories and BITS in self.force.theories:
                tree = inventor.aimed(what, rng.choice((3, 5)), {})
                self.assert_tree(self.exact(tree))
                self.right_check()
                if type(tree) is list and not self.over and rng.random() < 0.5:
                    # One argument more or less; `=` takes it whatever its sort is.
                    more = copied(tree) + [copied(tree[-1])] if rng.random() < 0.6 else copied(tree[:-1])
                    self.assert_tree(listed("=", more, copied(more)))
        elif kind == "term":
            flaw = flaws.term(what, {})
            if rng.random() < 0.75:
                self.do([word("assert"), inventor.spoiled(inventor.term(BOOL, 6, {}), flaw)])
            else:
                self.do([word("define-fun"), symbol("new"), [], symbol("Bool"), flaw])
        elif kind == "sort":
            flaw = flaws.sort(what)
            self.do(
                rng.choice(
                    (
                        listed("declare-const", "new", flaw), listed("declare-fun", "new", [symbol("Bool"), flaw], "Bool"),
                        listed("declare-fun", "new", [], flaw), listed("define-sort", "new", [], flaw),
                        listed("define-fun", "new", [listed("x", flaw)], "Bool", "true"), listed("define-fun", "new", [], flaw, "true"),
                    )
                )
            )
        elif kind == "item":
            tree = self.check_tree()
            if not self.over:
                self.do(tree, symbol("sat"))
            if not self.over:
                items = self.model([])
                self.spoil_item(Inventor(rng, self.model_context(), self.widths), items, what, self.turn)
                self.do(listed("get-model"), items)
        elif kind == "contest":
            self.aim_at_contest(inventor, flaws)
        elif kind == "before logic":
            self.do(listed("reset"))
            command, answer = BEFORE_LOGICS[self.turn % len(BEFORE_LOGICS)]
            self.do(copied(command), answer if answer is not None or not self.force.print_success else symbol("success"))
            if not self.over and rng.random() < 0.7:
                self.do(listed("set-logic", rng.choice(self.LOGIC_NAMES)))
            if not self.over:
                self.declare(True)
        elif kind == "command" and what == "C6":
            self.do(listed("exit"))
            self.do(rng.choice((listed("check-sat"), numeral(3), [], listed("assert"), word("let"))))
        elif kind == "command":
            self.faulty(what, self.turn)
        elif kind == "outcome":
            self.aim_at_outcome(what)
        elif kind == "assuming":
            self.aim_at_assuming(what, flaws)
        elif kind == "global":
            self.aim_at_global(what)

    def aim_at_contest(self, inventor, flaws):
        """Faults of which one comes first."""
        rng = self.rng
        if self.what == "term":
            tree = flaws.contest({})
            if rng.random() < 0.2:
                tree = inventor.spoiled(tree, flaws.contest({}))
            self.do([word("assert"), tree])
        elif self.what == "definition":
            tree = listed("define-fun", "new", [listed("x", "Bool")] * rng.choice((0, 1)), "Bool", inventor.term(BOOL, 3, {}))
            flaws.definition(tree, self.taken_names())
            self.do(tree)
        elif self.what == "declaration":
            tree = listed("declare-fun", "new", [], "Bool")
            tree = rng.choice((tree, listed("declare-const", "new", "Bool"), listed("define-sort", "new", [], "Bool")))
            flaws.declaration(tree, self.taken_names())
            self.do(tree)
        else:
            self.right_check(["contest"])

    def aim_at_outcome(self, what):
        """A line of a check."""
        rng = self.rng
        inventor = self.inventor()
        if what == "lacks":
            self.declare()
            items = self.model([])
            rest = [item for item in items if not is_right_form(item) or item[1].text not in self.secret or rng.random() < 0.5]
            if not self.over:
                self.do(listed("check-sat"), symbol("sat"))
                self.do(listed("get-model"), rest)
        elif what == "refuted":
            if rng.random() < 0.4 and INTS in self.force.theories:
                self.assert_tree(listed("=", listed("mod", inventor.term(INT, 2, {}), 0), 0), True)
            tree = inventor.term(BOOL, 5, {})
            other = listed("distinct", "true", listed("or", "true", tree))
            self.assert_tree(rng.choice((symbol("false"), listed("and", "false", tree), other)), True)
            self.right_check()
        elif what == "open":
            if INTS in self.force.theories:
                tree = inventor.term(INT, 4, {})
                opened = rng.choice(
                    (
                        listed("div", tree, 0), listed("mod", 7, 0), listed("+", 2**127 - 1, 1), numeral(2**127),
                        listed("-", listed("-", 2**127 - 1), 2),
                        listed("*", 2**64, 2**63, rng.choice((0, 1))), listed("abs", listed("-", listed("-", 2**127 - 1), 1)),
                        listed("-", 2**127),
                    )
                )
                self.assert_tree(listed(rng.choice(("=", "<=", "distinct")), opened, opened), True)
                self.right_check()
        elif what == "no model":
            self.do(listed("check-sat"), symbol("sat"))
            ends = listed("push", 0), listed("assert", "true"), listed("check-sat"), self.check_of([]), listed("get-info", keyword(":a"))
            self.do(rng.choice(ends))
        elif what == "several":
            self.right_check()
            for _ in range(rng.choice((1, 2))):
                if not self.over:
                    self.do(listed("get-model"), self.model(rng.choice(([], [], [None]))))
        elif what == "outside":
            self.do(listed("check-sat"), symbol(rng.choice(("unsat", "unknown"))))
            self.do(listed("get-model"), rng.choice(([], [symbol("x")], self.model())))
        else:
            if rng.random() < 0.5:
                self.chain(rng.choice((21, 22, 23, 24, 30, 64, 70)) if self.with_steps else 2)
            else:
                self.assertion()
            self.right_check()

    def new_formula(self, kind):
        """A new constant that is a formula: declared, defined, a label, or defined as what is open. Its name, or None."""
        self.fresh += 1
        name = "b%d" % self.fresh
        opened = listed("=", listed("div", 1, 0), 1) if INTS in self.force.theories else listed("and", "true", "false")
        if self.over or self.force.context().is_taken(name):
            return None
        if kind == "declared":
            self.do(listed("declare-const", name, "Bool"))
        elif kind == "label":
            self.assert_tree(listed("!", self.inventor().term(BOOL, 3, {}), keyword(":named"), name), self.rng.random() < 0.3)
        else:
            self.do(listed("define-fun", name, [], "Bool", opened if kind == "open" else self.inventor().term(BOOL, 3, {})))
        return name if name in self.force.ranks else None

    def flipped(self, name):
        """The secret model with the other value for a declared formula."""
        items = self.model([])
        for item in items:
            if is_right_form(item) and item[1].text == name:
                item[4] = listed("not", item[4])
        return items

    def aim_at_assuming(self, what, flaws):
        """A check with assumptions."""
        rng = self.rng
        kinds = ("declared", "declared", "defined", "label")
        name = self.new_formula("open" if what == "open" else "declared" if what in ("several", "next", "model") else rng.choice(kinds))
        if name is None:
            return
        right = [self.literal() for _ in range(rng.choice((0, 0, 1, 1, 2, 3)))]
        answer = symbol(rng.choice(("sat", "sat", "unsat", "unknown")))
        if what == "form":
            self.do(flaws.assuming(name), answer)
        elif what == "fault":
            self.declare()
            if self.over:
                return
            flaws = self.flaws(self.inventor())
            for letter in rng.choice((("F3",), ("F4",), ("F3", "F4"), ("F4", "F3"))):
                right.insert(rng.randint(0, len(right)), flaws.literal(letter))
            self.do(self.check_of(right), self.no_effect() if rng.random() < 0.15 else answer)
        elif what in ("false", "open"):
            wrong = [listed("not", name) if rng.random() < 0.3 else symbol(name)] if what == "open" else []
            wrong += [self.literal(False) for _ in range(rng.choice((0, 0, 1) if what == "open" else (1, 1, 2)))]
            if rng.random() < 0.5 and what == "false":
                wrong.append(symbol(self.new_formula("open") or "true"))
            for literal in wrong:
                right.insert(rng.randint(0, len(right)), literal)
            if not self.over and rng.random() < 0.6:
                self.assert_contested(name)
            self.right_check([], self.check_of(right))
        elif what == "levels":
            self.assume_on_levels()
        elif what == "answer":
            self.do(self.check_of(right + [self.literal(rng.random() < 0.5)]), rng.choice((answer, self.no_effect(), self.no_effect())))
            if not self.over:
                self.do(listed(rng.choice(("get-unsat-assumptions", "get-model", "get-unsat-core"))))
        elif what == "exit":
            self.do(listed("exit"))
            self.do(self.check_of(right))
        elif what == "pairing":
            wrong = rng.choice((symbol("success"), symbol("timeout"), [], listed("error"), None, None))
            self.do(self.check_of(right), wrong or symbol("sat"))
            if wrong is None:
                self.answers.pop()
            self.over = True
        elif what == "long":
            self.do(self.check_of(right + [self.literal() for _ in range(2)]), symbol("sat"))
            if not self.over:
                self.do(listed("get-model"), self.model([]))
        else:
            self.assume_in_models(what, name, right)

    def assert_contested(self, name):
        """An assertion that is open or false, so that it competes with assumptions."""
        choice = self.rng.random()
        if choice < 0.2:
            self.assert_tree(listed("not", symbol(name)), True)
        elif choice < 0.5:
            self.assert_tree(symbol("false"), True)
        elif INTS in self.force.theories:
            self.assert_tree(listed("=", listed("mod", 1, 0), 1), True)

    def assume_on_levels(self):
        """A formula of a level, which is assumed there and when the level is gone."""
        rng = self.rng
        if not self.over:
            self.do(listed("push", 1))
        name = self.new_formula(rng.choice(("declared", "defined", "label")))
        if name is None:
            return
        self.right_check([], self.check_of([self.literal(), symbol(name)]))
        if not self.over:
            self.do(rng.choice((listed("pop", 1), listed("pop", 1), listed("reset-assertions"), listed("reset"), listed("push", 1))))
        if not self.over:
            self.right_check([], self.check_of([symbol(name)] if rng.random() < 0.7 else [self.literal()]))

    def assume_in_models(self, what, name, right):
        """Models in which an assumption is false: a second one, one for the next check, or one with another flaw besides."""
        rng = self.rng
        assumed = symbol(name) if self.value_of(symbol(name)) is True else listed("not", name)
        right.insert(rng.randint(0, len(right)), assumed)
        if what == "several":
            self.right_check([], self.check_of(right))
            for flip in rng.choice(((False, True), (True,), (True, False), (False,))):
                if not self.over:
                    self.do(listed("get-model"), self.flipped(name) if flip else self.model([]))
        elif what == "next":
            self.right_check([], self.check_of(right))
            other = copied(assumed[1]) if type(assumed) is list else listed("not", assumed)
            tree = rng.choice((listed("check-sat"), self.check_of([other]), self.check_of([assumed]), self.check_of([])))
            if not self.over:
                self.do(tree, symbol("sat"))
            if not self.over:
                self.do(listed("get-model"), self.flipped(name))
        else:
            if not self.over:
                self.do(self.check_of(right), symbol("sat"))
            items = self.flipped(name)
            if rng.random() < 0.7:
                self.spoil_model(items, rng.choice(("missing", "contest", rng.choice(LETTERS))))
            if not self.over:
                self.do(listed("get-model"), items)

    def aim_at_global(self, what):
        """Global declarations."""
        rng = self.rng
        if what == "late":
            self.set_late()
            return
        if what == "back":
            # A value that is changed more than once where that is early, behind a logic too.
            self.do(listed("reset"))
            for value in rng.choice(((True, False), (True, False), (True, False, True), (True, True))):
                if not self.over:
                    self.set_global(value)
                if not self.over and not self.force.with_logic and rng.random() < 0.3:
                    self.do(listed("set-logic", rng.choice(self.LOGIC_NAMES)))
            if not self.over:
                self.keep(None)
            return
        if not self.force.global_declarations and (what != "no effect" or rng.random() < 0.4):
            if self.force.settled:
                self.do(listed("reset"))
            if not self.over:
                self.set_global(True)
        if what == "no effect" and not self.over:
            # A change that is late, and took no effect.
            self.do(listed("push", 0))
            if not self.over:
                command = listed("set-option", keyword(":global-declarations"), "false" if self.force.global_declarations else "true")
                self.do(command, self.no_effect() if self.force.print_success else symbol("unsupported"))
        if not self.over:
            self.keep(what)

    def set_late(self):
        """A command that may make a change late, and a change behind it, or the same value."""
        rng = self.rng
        self.do(listed("reset"))
        before = rng.random() < 0.5
        if rng.random() < 0.6 and not self.over:
            self.set_global(before)
        command, answer = BEFORE_LOGICS[self.turn % len(BEFORE_LOGICS)]
        if not self.over:
            self.do(copied(command), answer if answer is not None or not self.force.print_success else symbol("success"))
        if not self.over:
            self.set_global(not self.force.global_declarations if rng.random() < 0.75 else self.force.global_declarations)
        if not self.over:
            self.keep(None)

    def keep(self, what):
        """Things of a level or of none, the end of that level or of all, and a use of them behind it."""
        rng = self.rng
        levels = rng.choice((1, 1, 2) if what in ("twice", "item", "lacks") else (0, 1, 1, 1, 2))
        if levels:
            self.do(listed("push", levels))
        kind = rng.choice(("declared", "defined", "label", "open", "declared", "abbreviation", "abbreviation", "function"))
        if what == "twice":
            kind = ("abbreviation", "label", "defined", "declared", "abbreviation", "label", "function", "defined")[self.turn % 8]
        kind = {"label": "label", "lacks": "declared", "item": rng.choice(("label", "defined"))}.get(what, kind)
        name = self.new_thing(kind)
        if name is None:
            return
        if rng.random() < 0.4:
            self.right_check([], self.check_tree())
        if rng.random() < 0.3 and not self.over:
            self.assertion()
        ends = [listed("pop", levels)] * 4 + [listed("reset-assertions")] * 3 + [listed("pop", rng.randint(0, levels))]
        if what == "reset" or what is None and rng.random() < 0.2:
            ends = [listed("reset")]
        if not self.over:
            self.do(rng.choice(ends))
        if not self.over and rng.random() < 0.08:
            self.do(listed("pop", 1))
        if not self.over:
            self.use_kept(what, kind, name)

    def new_thing(self, kind):
        """A new name or abbreviation of this kind, or None."""
        if kind not in ("abbreviation", "function"):
            return self.new_formula(kind)
        self.fresh += 1
        name = "k%d" % self.fresh
        tree = self.inventor().sort_tree(self.inventor().sort())
        if self.over or self.force.context().is_taken(name) or name in self.force.abbreviations:
            return None
        self.do(listed("define-sort", name, [], tree) if kind == "abbreviation" else listed("declare-fun", name, [tree], "Bool"))
        return None if self.over else name

    def use_kept(self, what, kind, name):
        """A use of a thing that is in force still, or of one that is not."""
        rng = self.rng
        if what == "twice" or self.rng.random() < 0.15:
            if kind == "abbreviation":
                again = [listed("define-sort", name, [], "Bool")] * 2 + [listed("declare-const", name, name)]
            else:
                again = [
                    listed("declare-const", name, "Bool"), listed("define-fun", name, [], "Bool", "true"),
                    listed("assert", listed("!", "true", keyword(":named"), name)), listed("define-sort", name, [], "Bool"),
                ][: rng.choice((2, 2, 4))]
            self.do(rng.choice(again))
        elif kind == "abbreviation":
            uses = (
                listed("declare-const", "of_kept", name), listed("declare-fun", "of_kept", [symbol(name)], name),
                listed("define-fun", "of_kept", [listed("x", name)], name, "x"),
            )
            self.do(rng.choice(uses))
        elif kind == "function":
            self.right_check()
        elif what == "assumed" or rng.random() < 0.25:
            self.right_check([], self.check_of([self.literal() for _ in range(rng.choice((0, 1)))] + [symbol(name)]))
        elif rng.random() < 0.5:
            self.assert_tree(listed("or", name, self.inventor().term(BOOL, 2, {})))
        if self.over:
            return
        self.do(self.check_tree(), symbol("sat"))
        if self.over:
            return
        items = self.model([])
        if what == "item":
            item = listed("define-fun", name, [], "Bool", "true")
            items.insert(rng.randint(0, len(items)), item)
        elif what == "lacks" or rng.random() < 0.2:
            items = [item for item in items if not is_right_form(item) or item[1].text != name]
        self.do(listed("get-model"), items)

    # What happens to the answers and the texts

    def some_answer(self):
        """An answer that may come at a wrong place."""
        rng = self.rng
        return rng.choice(
            (
                symbol("success"), symbol("unsupported"), symbol("sat"), symbol("unsat"), self.error(), listed("error"),
                listed("error", "x"), [],
                string("a"), numeral(0), symbol("timeout"), listed("error", string("a"), string("b")), symbol("error"), keyword(":a"),
                word("exit"),
            )
        )

    def mutate_answers(self):
        """Answers that are dropped, doubled, swapped and replaced."""
        rng = self.rng
        answers = self.answers
        times = self.chance(0.12) + self.chance(0.04)
        kind = None
        if self.aim == "pairing":
            times = 1
            kind = {"P1": "end", "P2": "replace", "P3": "more"}[self.what]
        for _ in range(times):
            place = rng.randrange(len(answers)) if answers else 0
            choice = kind or rng.choice(("drop", "double", "swap", "replace", "replace", "insert", "more", "end", "change"))
            if choice == "more" or not answers:
                answers.append(self.some_answer())
            elif choice == "drop":
                answers.pop(place)
            elif choice == "end":
                del answers[place:]
            elif choice == "double":
                answers.insert(place, copied(answers[place]))
            elif choice == "swap":
                answers.insert(rng.randrange(len(answers)), answers.pop(place))
            elif choice == "replace":
                answers[place] = self.some_answer()
            elif choice == "insert":
                answers.insert(place, self.some_answer())
            else:
                self.change_tree(answers)

    def change_tree(self, trees):
        """A change somewhere in some trees."""
        rng = self.rng
        lists = [part for part in lists_in(trees) if part]
        if lists:
            part = rng.choice(lists)
            place = rng.randrange(len(part))
            choice = rng.random()
            if choice < 0.3:
                part.pop(place)
            elif choice < 0.6:
                part.insert(place, copied(part[place]) if choice < 0.5 else self.some_answer())
            else:
                part[place] = copied(rng.choice(rng.choice(lists)))

    def mutate_texts(self, script, answers):
        """Bytes that are changed in the texts, and texts that are cut."""
        rng = self.rng
        if self.aim == "script":
            return spoiled_text(rng, script, self.what, self.turn, self.PROFILE), answers
        if self.aim == "answers":
            return script, spoiled_text(rng, answers, self.what, self.turn, self.PROFILE)
        if self.chance(0.04):
            script = spoiled_text(rng, script, rng.choice(("X1", "X1", "X3", "X2", "any", "any")), None, self.PROFILE)
        if self.chance(0.05):
            answers = spoiled_text(rng, answers, rng.choice(("X1", "X1", "X3", "X2", "any", "any")), None, self.PROFILE)
        return script, answers


def literal_of(sort, value):
    """A term for a known value."""
    if sort == BOOL:
        return symbol("true" if value else "false")
    if sort == REAL:
        return listed("/", literal_of(INT, value.numerator), value.denominator)
    if type(sort) is Array:
        tree = [[word("as"), symbol("const"), whole_sort(sort)], literal_of(sort.element, value.default)]
        for index, element in value.written.items():
            tree = listed("store", tree, literal_of(sort.index, index), literal_of(sort.element, element))
        return tree
    if sort != INT:
        return Atom(BINARY, bin((1 << sort) + value)[3:])
    if value >= 0:
        return numeral(value)
    # The numeral of the lowest integer without its sign would be open.
    return listed("-", -value) if -value < 2**127 else listed("-", listed("-", -value - 1), 1)


WRONG_PIECES = [
    b")", b"01", b"\x00", b"\x7f", b"\\", b'"a"b', b"|a|b", b"#xg", b"1.x", b"[", b"\xc3\xa4", b"#", b": ", b",", b"'", b"))", b'"a\x7f"',
    b'"\x0b"', b"|a\\b|", b"|\x7f|", b"|\x00|", b'"a""b"c', b"1a", b"1.5.", b"#b2", b"#B1", b"#x ", b"a:b", b'a"b"', b"a|b|", b"{", b"`",
    b'"a"|b|',
    b":a:b", b"#b0#b1", b"1#b1", b"0.0.0", b"00", b"1\x0b2",
]
UNENDED_PIECES = [
    b"(", b' "', b" |a", b" 1.", b" #", b" #x", b" :", b" (assert (", b' ("a""', b"((a)", b" #b", b' "a""', b" (|", b"(;", b" ||||",
    b' """', b"(a",
    b" (0.", b"|a\n", b'"\n', b"(sat",
]


def spoiled_text(rng, text, letter, turn=None, profile=BASE):
    """A text with a fault of its own, mostly, or with bytes changed."""
    place = rng.randint(0, len(text))
    before, behind = text[:place], text[place:]
    if letter == "X1":
        piece = rng.choice(WRONG_PIECES) if turn is None else WRONG_PIECES[turn % len(WRONG_PIECES)]
        if rng.random() < 0.5:
            # Between two tokens, mostly.
            place = text.rfind(b" ", 0, place) + 1
            before, behind = text[:place], b" " + text[place:]
        return before + piece + behind
    if letter == "X2":
        depth = rng.choice((1001, 1001, 1500))
        if profile == WIDE and (turn is not None or rng.random() < 0.1):
            depth = DEEPEST[WIDE] + rng.choice((1, 1, 500))
        return before + b" " + b"(" * depth + (b")" * (depth - rng.choice((0, 1, 1000))) + behind if rng.random() < 0.5 else b"")
    if letter == "X3":
        piece = rng.choice(UNENDED_PIECES) if turn is None else UNENDED_PIECES[turn % len(UNENDED_PIECES)]
        return text + piece if rng.random() < 0.7 else before
    changed = bytearray(text or b" ")
    for _ in range(rng.choice((1, 1, 2, 4))):
        place = rng.randrange(len(changed) or 1)
        choice = rng.random()
        if choice < 0.35:
            changed[place : place + 1] = bytes([rng.randrange(256)])
        elif choice < 0.6:
            del changed[place : place + rng.choice((1, 1, 2, 8))]
        elif choice < 0.85:
            changed[place:place] = rng.choice((b"(", b")", b" ", b'"', b"|", b";", b"0", b"x", b"#b1", b"\n", b":", b"."))
        else:
            changed[place:place] = changed[place : place + rng.choice((1, 4, 20))]
    return bytes(changed)


PIECES = (
    '( ( ( ) ) ) () "" | || " "a" "\x7f" "\x00 |\x7f| |\\ a B sat success - x.y ? 0 1 12 00 -1 1.5 1. 0.0 #x #xaF #b #b01 #b1 # '
    ': :a :-1 a:b let |let| ! _ as ; ;\n ;\r ;)\n \\ , \' [ \xe9 |\xe9| "\xe9"'
).split(" ") + [" ", " ", " ", " ", "\n", "\t", "\r", "\x0b", "\x7f", "\x00", "( )", '" "', "|a b|", "|\n|"]


def soup(rng, length):
    """Pieces of tokens side by side."""
    return "".join(rng.choice(PIECES) + rng.choice(("", "", " ", "\n")) for _ in range(length)).encode("latin-1")


def soup_of(rng):
    """A dialogue whose texts are made of pieces of tokens, where questions take any tree."""
    script = b"(get-info :a)" * rng.choice((0, 1, 3, 6, 12))
    answers = b" ".join(rng.choice((b"sat", b"()", b'"a"', b"(a)", b"|success|")) for _ in range(rng.choice((0, 0, 1, 2))))
    if rng.random() < 0.7:
        answers += soup(rng, rng.choice((1, 2, 4, 8, 20)))
    choice = rng.random()
    if choice < 0.2:
        script += soup(rng, rng.choice((1, 2, 4, 8)))
    elif choice < 0.4:
        script += b"(get-value (" + soup(rng, rng.choice((1, 2, 4, 8))) + b"))"
    elif choice < 0.5:
        script += b"(check-sat)(get-model)"
        answers += b" sat (" + soup(rng, rng.choice((1, 2, 4))) + b")"
    return Dialogue(script, answers, False, None)


def invent(seed, with_steps=False):
    """The dialogue of a seed; with limits on steps, if it is said."""
    if seed % 29 == 11:
        return soup_of(random.Random(seed))
    return Story(random.Random(seed), AIMS[seed % len(AIMS)], seed // len(AIMS), with_steps).tell()
