"""Commands: their forms, and what is in force behind them."""
from collections import namedtuple

from sorts import BASE, BOOL, INT, LOGICS, THEORIES, WIDE, WIDE_SORTS, Faulty, Free
from terms import Body, Context, Rank, check_assertion, check_definition, check_literal, is_binding, taken
from text import KEYWORD, NUMERAL, RESERVED, STRING, Atom, begins_with, is_kind, is_symbol

MOST_LEVELS = 10000

# A command in form: its word, and the trees behind it.
Command = namedtuple("Command", "word parts")


class Refused(Exception):
    """The fault of a command: its letter, and that of its name, sort or term for C7; and of some, what is counted of them."""

    def __init__(self, letter, inner=None, kind=None):
        super().__init__(letter, inner)
        self.letter = letter
        self.inner = inner
        self.kind = kind


def is_option(tree, value=None):
    """Whether a tree is the symbol `true` or `false`, or the given one of them."""
    return is_symbol(tree) and tree.text in (("true", "false") if value is None else (value,))


def is_set_option(parts):
    """The form behind `set-option`."""
    if not parts or not is_kind(parts[0], KEYWORD):
        return False
    if parts[0].text in (":print-success", ":global-declarations"):
        return len(parts) == 2 and is_option(parts[1])
    return len(parts) <= 2


def is_define_fun(parts):
    """The form behind `define-fun`, of commands and of items of models."""
    return len(parts) == 4 and is_symbol(parts[0]) and type(parts[1]) is list and all(map(is_binding, parts[1]))


def is_info(parts):
    """The form behind `set-info`."""
    return 1 <= len(parts) <= 2 and is_kind(parts[0], KEYWORD)


def is_key(parts):
    """A keyword alone."""
    return len(parts) == 1 and is_kind(parts[0], KEYWORD)


def is_number(parts):
    """A numeral alone."""
    return len(parts) == 1 and is_kind(parts[0], NUMERAL)


def is_literal(tree):
    """A symbol, or its negation."""
    return is_symbol(tree) or type(tree) is list and len(tree) == 2 and is_symbol(tree[0], "not") and is_symbol(tree[1])


def is_nothing(parts):
    """No tree."""
    return not parts


FORMS = {
    "set-logic": lambda p: len(p) == 1 and is_symbol(p[0]),
    "declare-const": lambda p: len(p) == 2 and is_symbol(p[0]),
    "declare-fun": lambda p: len(p) == 3 and is_symbol(p[0]) and type(p[1]) is list,
    "define-fun": is_define_fun,
    "define-sort": lambda p: len(p) == 3 and is_symbol(p[0]) and p[1] == [],
    "assert": lambda p: len(p) == 1,
    "check-sat-assuming": lambda p: len(p) == 1 and type(p[0]) is list and all(map(is_literal, p[0])),
    "push": is_number,
    "pop": is_number,
    "set-option": is_set_option,
    "set-info": is_info,
    "echo": lambda p: len(p) == 1 and is_kind(p[0], STRING),
    "get-value": lambda p: len(p) == 1 and type(p[0]) is list and len(p[0]) > 0,
    "get-info": is_key,
    "get-option": is_key,
}
for word in (
    "reset reset-assertions check-sat get-model exit get-assertions get-assignment get-proof get-unsat-core get-unsat-assumptions"
).split():
    FORMS[word] = is_nothing

UNSUPPORTED = frozenset("declare-datatype declare-datatypes declare-sort define-fun-rec define-funs-rec".split())


def is_define_const(tree):
    """The form of a `define-const`, whose first word is a symbol like others."""
    return type(tree) is list and len(tree) == 4 and is_symbol(tree[0], "define-const") and is_symbol(tree[1])


def wide_command_of(tree):
    """The command of the profile `wide` that a tree is and that it is in no other profile, or None."""
    if is_define_const(tree):
        return Command("define-fun", [tree[1], [], tree[2], tree[3]])
    if type(tree) is list and len(tree) == 1 and is_kind(tree[0], RESERVED) and tree[0].text in ("push", "pop"):
        return Command(tree[0].text, [Atom(NUMERAL, "1")])
    if begins_with(tree, "check-sat-assuming") and len(tree) == 2 and type(tree[1]) is list:
        return Command("check-sat-assuming", tree[1:])
    if begins_with(tree, "declare-sort") and len(tree) == 3 and is_symbol(tree[1]) and is_kind(tree[2], NUMERAL) and int(tree[2].text) == 0:
        return Command("declare-sort", tree[1:2])
    return None


def command_of(tree, profile=BASE):
    """The command that a tree is; C1 or C2 where it is none."""
    found = wide_command_of(tree) if profile == WIDE else None
    if found is not None:
        return found
    if type(tree) is not list or not tree or not is_kind(tree[0], RESERVED):
        raise Refused("C1")
    word, parts = tree[0].text, tree[1:]
    if word in UNSUPPORTED:
        raise Refused("C2")
    if word == "define-sort" and len(parts) == 3 and is_symbol(parts[0]) and type(parts[1]) is list and parts[1]:
        raise Refused("C2")
    if word not in FORMS or not FORMS[word](parts):
        raise Refused("C1")
    return Command(word, parts)


# What a command brought: the number of the command, and the levels that there were behind it.
Declaration = namedtuple("Declaration", "command level name rank")
Definition = namedtuple("Definition", "command level name rank body")
Abbreviation = namedtuple("Abbreviation", "command level name sort")
Assertion = namedtuple("Assertion", "command level node")

# Checks, commands behind which no logic is set and global declarations aren't changed, and commands that end the window of a check.
CHECKS = frozenset(["check-sat", "check-sat-assuming"])
SETTLING = CHECKS.union("declare-const declare-fun declare-sort define-fun define-sort assert push pop reset-assertions".split())
CHANGING = frozenset("assert declare-const declare-fun declare-sort define-fun define-sort push pop reset reset-assertions".split())


class Force:
    """What is in force behind some commands. `start` is the value of print-success that the program was given."""

    def __init__(self, start, profile=BASE):
        self.start = start
        self.profile = profile
        self.restart()

    def restart(self):
        """The start."""
        self.print_success = self.start
        self.global_declarations = False
        self.theories = THEORIES[self.profile]
        self.with_logic = False
        self.settled = False
        self.levels = 0
        self.brought = []
        # Which things are in force though a pop or a reset of assertions has come behind them: their kinds and names.
        self.outlived = set()
        self.look()

    def remove(self, goes):
        """What goes is not in force any more; but what is global stays, which assertions never are."""
        stays = []
        for thing in self.brought:
            if not goes(thing):
                stays.append(thing)
            elif self.global_declarations and type(thing) is not Assertion:
                stays.append(thing)
                self.outlived.add((type(thing), thing.name))
        self.brought = stays
        self.look()

    def look(self):
        """Makes the tables of what is in force anew."""
        self.ranks = {}
        self.abbreviations = {}
        for thing in self.brought:
            self.enter(thing)

    def enter(self, thing):
        """Puts a thing into the tables."""
        if type(thing) is Abbreviation:
            self.abbreviations[thing.name] = thing.sort
        elif type(thing) is not Assertion:
            self.ranks[thing.name] = thing.rank

    def bring(self, thing):
        """A thing is in force."""
        self.brought.append(thing)
        self.enter(thing)

    def of_kind(self, kind):
        """The things of a kind that are in force, in order."""
        return [thing for thing in self.brought if type(thing) is kind]

    def context(self):
        """What terms are checked in."""
        return Context(self.theories, self.abbreviations, self.ranks)

    def take(self, number, command):
        """A command that took effect: the literals that it assumes, as nodes, and its fault where it has one."""
        word, parts = command
        assumed = []
        if word == "set-logic":
            logics = LOGICS[self.profile]
            if self.with_logic or self.settled or parts[0].text not in logics:
                raise Refused("C5")
            self.theories = logics[parts[0].text]
            self.with_logic = True
        elif word == "push":
            count = int(parts[0].text)
            if self.levels + count > MOST_LEVELS:
                raise Refused("C3")
            self.levels += count
        elif word == "pop":
            count = int(parts[0].text)
            if count > self.levels:
                raise Refused("C4")
            self.levels -= count
            self.remove(lambda thing: thing.level > self.levels)
        elif word == "reset":
            self.restart()
        elif word == "reset-assertions":
            self.levels = 0
            self.remove(lambda thing: True)
        elif word == "set-option" and parts[0].text == ":print-success":
            self.print_success = is_option(parts[1], "true")
        elif word == "set-option" and parts[0].text == ":global-declarations":
            value = is_option(parts[1], "true")
            if value != self.global_declarations and self.settled:
                raise Refused("C5")
            self.global_declarations = value
        elif word in ("declare-const", "declare-fun", "declare-sort", "define-fun", "define-sort", "assert", "check-sat-assuming"):
            try:
                if word == "check-sat-assuming":
                    assumed = [check_literal(self.context(), tree) for tree in parts[0]]
                else:
                    self.take_term(number, word, parts)
            except Faulty as fault:
                raise Refused("C7", fault.letter, fault.kind)
        self.settled = self.settled or word in SETTLING
        return assumed

    def take_term(self, number, word, parts):
        """A declaration, a definition, an abbreviation or an assertion."""
        context = self.context()
        place = number, self.levels
        if word == "assert":
            node, labels = check_assertion(context, parts[0])
            for label in labels:
                self.bring(Definition(*place, label.name, Rank((), label.sort), Body((), label.node)))
            self.bring(Assertion(*place, node))
            return
        name = parts[0].text
        if word in ("declare-sort", "define-sort"):
            if name in self.abbreviations or name in (BOOL, INT) or self.profile == WIDE and name in WIDE_SORTS:
                raise Faulty("F7")
            self.bring(Abbreviation(*place, name, Free(number, name) if word == "declare-sort" else context.sort(parts[2])))
            return
        if context.is_taken(name):
            raise Faulty("F7", taken(context, name, "a definition" if word == "define-fun" else "a declaration"))
        if word == "define-fun":
            rank, body = check_definition(context, *parts[1:])
            self.bring(Definition(*place, name, rank, body))
            return
        parameters = parts[1] if word == "declare-fun" else []
        rank = Rank(tuple(context.sort(tree) for tree in parameters), context.sort(parts[-1]))
        self.bring(Declaration(*place, name, rank))
