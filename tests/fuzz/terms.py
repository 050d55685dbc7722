"""Terms: the checker, which finds the sort of a tree and makes a node of it, or finds its first fault."""
from collections import namedtuple

from operators import FROM_INTS, ON_ARRAYS, ON_OVERFLOW, TO_INTS, constant_array, indexed_operator, operators_in, without_theory
from sorts import BITS, BOOL, INT, INTS, NUMBERS, REAL, REALS, WIDE, WIDEST, Faulty, Free, element_sort, of_abbreviation, sort_of
from text import BINARY, DECIMAL, HEXADECIMAL, KEYWORD, NUMERAL, RESERVED, STRING, SYMBOL, begins_with, is_kind, is_symbol, is_word
from values import HIGHEST, OPEN, decimal, element

# The nodes that terms are made of. Variables and parameters have numbers, each its own within one command or item.
Literal = namedtuple("Literal", "value")
Variable = namedtuple("Variable", "number")
Use = namedtuple("Use", "name arguments")
Apply = namedtuple("Apply", "operator arguments sorts")
Let = namedtuple("Let", "numbers terms body")
Note = namedtuple("Note", "term")

# The rank of a name: the sorts of its parameters, in a tuple, and of its result.
Rank = namedtuple("Rank", "parameters result")
# What a name stands for: the numbers of its parameters, and the node of its body.
Body = namedtuple("Body", "parameters node")
# A label of an assertion.
Label = namedtuple("Label", "name sort node")


class Context:
    """What terms are checked in: the theories, the sorts that names abbreviate, the ranks of the names in force, and whether terms may
    name elements of declared sorts. Then `script` has the names of the script, which name no elements."""

    def __init__(self, theories, abbreviations, ranks, elements=False, script=()):
        self.theories = theories
        self.abbreviations = abbreviations
        self.ranks = ranks
        self.elements = elements
        self.script = script
        self.operators = operators_in(theories)

    def sort(self, tree):
        """The sort that a tree names."""
        return sort_of(tree, self.abbreviations, self.theories)

    def names_sort(self, tree):
        """Whether a tree names a sort."""
        try:
            return self.sort(tree) is not None
        except Faulty:
            return False

    def is_taken(self, name):
        """Whether a name is in force or an operator's."""
        return name in self.ranks or name in self.operators


class Checker:
    """Checks the terms of one command or item. `labels` are those of the assertion so far, or None where labels are out of place."""

    def __init__(self, context, labels=None):
        self.context = context
        self.labels = labels
        self.bound = 0
        self.used = []

    def bind(self):
        """The number of a new variable."""
        self.bound += 1
        return self.bound

    def check(self, tree, scope):
        """The sort and the node of a term. The scope has the number and the sort of each variable by its name."""
        if type(tree) is not list:
            return self.check_atom(tree, scope)
        if not tree:
            raise Faulty("F1")
        head = tree[0]
        if is_word(head, "_"):
            operator = self.indexed(tree)
            return self.constant(operator)
        if is_word(head, "let"):
            return self.check_let(tree, scope)
        if is_word(head, "!"):
            return self.check_annotation(tree, scope)
        if self.context.elements and is_word(head, "as"):
            return self.check_element(tree)
        if WIDE in self.context.theories and is_constant_array(tree):
            return self.check_constant_array(tree, scope)
        if is_kind(head, RESERVED) and head.text in ("forall", "exists", "match", "as") or begins_with(head, "as"):
            raise Faulty("F2")
        if len(tree) >= 2 and (is_symbol(head) or begins_with(head, "_")):
            return self.check_application(tree, scope)
        raise Faulty("F1")

    def check_atom(self, atom, scope):
        """A literal or a symbol."""
        if atom.kind is SYMBOL:
            return self.check_symbol(atom.text, scope)
        if atom.kind is NUMERAL:
            if INTS not in self.context.theories and REALS not in self.context.theories:
                raise Faulty("F3")
            number = int(atom.text)
            return INT if INTS in self.context.theories else REAL, Literal(number if number <= HIGHEST else OPEN)
        if atom.kind is DECIMAL and WIDE in self.context.theories:
            if REALS not in self.context.theories:
                raise Faulty("F3", "a decimal without Reals, F3")
            return REAL, Literal(decimal(atom.text))
        if atom.kind is HEXADECIMAL or atom.kind is BINARY:
            if BITS not in self.context.theories:
                raise Faulty("F3")
            width = len(atom.text) * (4 if atom.kind is HEXADECIMAL else 1)
            if width > WIDEST:
                raise Faulty("F5")
            return width, Literal(int(atom.text, 16 if atom.kind is HEXADECIMAL else 2))
        raise Faulty("F2" if atom.kind in (DECIMAL, STRING) else "F1")

    def check_symbol(self, name, scope):
        """A variable, a name in force or an operator, as a constant."""
        if name in scope:
            number, sort = scope[name]
            self.used.append(number)
            return sort, Variable(number)
        if name in self.context.ranks:
            rank = self.context.ranks[name]
            if rank.parameters:
                raise Faulty("F4")
            return rank.result, Use(name, ())
        if name in self.context.operators:
            return self.constant(self.context.operators[name])
        sort = element_sort(name, self.context.abbreviations) if self.context.elements else None
        if sort is not None and name in self.context.script:
            raise Faulty("F3", "a name of the script in an element's form, F3")
        if sort is not None:
            return sort, Literal(element(name))
        of_another = self.context.elements and of_abbreviation(name, self.context.abbreviations)
        raise Faulty("F3", "a name by an abbreviation, F3" if of_another else None)

    def check_element(self, tree):
        """An element with its sort, as `(as @x S)`."""
        if len(tree) != 3 or not is_symbol(tree[1]) or not tree[1].text.startswith("@"):
            raise Faulty("F2")
        name = tree[1].text
        if name in self.context.script or name in self.context.ranks:
            raise Faulty("F7", "a name of %s behind as, F7" % ("the script" if name in self.context.script else "an item"))
        sort = self.context.sort(tree[2])
        if type(sort) is not Free:
            raise Faulty("F4")
        return sort, Literal(element(name))

    def check_constant_array(self, tree, scope):
        """`((as const o) t)`. A script names o by no abbreviation, and by no declared sort."""
        context = self.context
        sort, node = self.check(tree[1], scope)
        try:
            operator = constant_array(sort_of(tree[0][2], context.abbreviations if context.elements else {}, context.theories))
        except Faulty as fault:
            of_name = not context.elements and context.names_sort(tree[0][2])
            raise Faulty(fault.letter, "a name of a sort behind const in a script, F3" if of_name else fault.kind)
        result = operator.result((sort,))
        if result is None:
            raise Faulty("F4", "arguments of const, F4")
        return result, Apply(operator, (node,), (sort,))

    def constant(self, operator):
        """An operator without arguments."""
        sort = operator.result([])
        if sort is None:
            raise Faulty("F4")
        return sort, Apply(operator, (), ())

    def indexed(self, tree):
        """The operator that a list beginning with `_` names."""
        indexed_form(tree)
        return indexed_operator(tree[1].text, tree[2:], self.context.theories)

    def check_let(self, tree, scope):
        """Variables, which stand for the values that terms have outside."""
        if len(tree) != 3 or type(tree[1]) is not list or not tree[1] or not all(is_binding(binding) for binding in tree[1]):
            raise Faulty("F1")
        inner = dict(scope)
        names, numbers, terms = set(), [], []
        for name, term in tree[1]:
            if name.text in names:
                raise Faulty("F6")
            names.add(name.text)
            sort, node = self.check(term, scope)
            terms.append(node)
            numbers.append(self.bind())
            inner[name.text] = numbers[-1], sort
        sort, node = self.check(tree[2], inner)
        return sort, Let(tuple(numbers), tuple(terms), node)

    def check_annotation(self, tree, scope):
        """A term with attributes, its labels among them."""
        labels = labels_of(tree)
        bound, used = self.bound, len(self.used)
        sort, node = self.check(tree[1], scope)
        for name in labels:
            # A variable that is bound outside the term has a number from before it.
            if self.labels is None or any(number <= bound for number in self.used[used:]):
                raise Faulty("F8")
            if self.context.is_taken(name) or any(label.name == name for label in self.labels):
                raise Faulty("F7", taken(self.context, name, "a label"))
            self.labels.append(Label(name, sort, node))
        return sort, Note(node)

    def check_application(self, tree, scope):
        """A head with arguments."""
        head = tree[0]
        if not is_symbol(head):
            indexed_form(head)
        checked = [self.check(argument, scope) for argument in tree[1:]]
        sorts = tuple(sort for sort, node in checked)
        nodes = tuple(node for sort, node in checked)
        if not is_symbol(head):
            operator = self.indexed(head)
        elif head.text in scope:
            raise Faulty("F4")
        elif head.text in self.context.ranks:
            rank = self.context.ranks[head.text]
            if rank.parameters != sorts:
                raise Faulty("F4", mixed("arguments", sorts, rank.parameters))
            return rank.result, Use(head.text, nodes)
        elif head.text in self.context.operators:
            operator = self.context.operators[head.text]
        else:
            raise Faulty("F3", None if head.text in FROM_INTS else without_theory(head.text, self.context.theories))
        result = operator.result(sorts)
        if result is None:
            raise Faulty("F4", misfit(operator, sorts))
        return result, Apply(operator, nodes, sorts)


def is_constant_array(tree):
    """Whether a tree is `((as const o) t)`."""
    return len(tree) == 2 and begins_with(tree[0], "as") and len(tree[0]) == 3 and is_symbol(tree[0][1], "const")


def indexed_form(tree):
    """The form of a list that begins with `_`."""
    if len(tree) < 3 or not is_symbol(tree[1]) or not all(is_kind(i, NUMERAL) or is_kind(i, SYMBOL) for i in tree[2:]):
        raise Faulty("F1")


def misfit(operator, sorts):
    """What is counted where an operator does not accept its arguments."""
    if REAL in sorts and all(sort in NUMBERS for sort in sorts) and operator.result((INT,) * len(sorts)):
        return "an operator of integers with a Real, F4"
    if operator.name in ON_ARRAYS:
        return "arguments of %s, F4" % operator.name
    if operator.name in ON_OVERFLOW:
        return "arguments of an overflow predicate, F4"
    return "arguments of a conversion, F4" if operator.name in TO_INTS or operator.name in FROM_INTS else None


def taken(context, name, what):
    """What is counted where something new may not have a name."""
    if name in context.operators and name in ON_ARRAYS:
        return "%s by the name of an operator on arrays, F7" % what
    of_operator = name in context.operators and (name in ON_OVERFLOW or name in TO_INTS)
    return "%s by the name of an overflow predicate or a conversion, F7" % what if of_operator else None


def mixed(what, found, wanted):
    """What is counted where sorts are others than are wanted only in that they are those of the other numbers."""
    pairs = list(zip(found, wanted))
    fits = len(found) == len(wanted) and all(x == y or x in NUMBERS and y in NUMBERS for x, y in pairs)
    return "numbers of the other sort as %s, F4" % what if fits else None


def is_binding(tree):
    """Whether a tree is a list of a symbol and a tree."""
    return type(tree) is list and len(tree) == 2 and is_symbol(tree[0])


def labels_of(tree):
    """The labels of an annotation `(! t a ..)`, or F1 for its form."""
    if len(tree) < 3 or not is_kind(tree[2], KEYWORD):
        raise Faulty("F1")
    labels = []
    place = 2
    while place < len(tree):
        if not is_kind(tree[place], KEYWORD):
            raise Faulty("F1")
        value = tree[place + 1] if place + 1 < len(tree) and not is_kind(tree[place + 1], KEYWORD) else None
        if tree[place].text == ":named":
            if not is_symbol(value):
                raise Faulty("F1")
            labels.append(value.text)
        place += 1 if value is None else 2
    return labels


def check_assertion(context, tree):
    """The node and the labels of an assertion."""
    checker = Checker(context, [])
    sort, node = checker.check(tree, {})
    if sort != BOOL:
        raise Faulty("F4")
    return node, checker.labels


def check_literal(context, tree):
    """The node of a literal of a check, which has no labels."""
    sort, node = Checker(context).check(tree, {})
    if sort != BOOL:
        raise Faulty("F4")
    return node


def check_parameters(context, checker, trees):
    """The scope of the parameters `(s o)` of a definition, their numbers and their sorts."""
    scope, numbers, sorts = {}, [], []
    for name, tree in trees:
        sort = context.sort(tree)
        if name.text in scope:
            raise Faulty("F6")
        numbers.append(checker.bind())
        sorts.append(sort)
        scope[name.text] = numbers[-1], sort
    return scope, tuple(numbers), tuple(sorts)


def check_rank(context, parameters, result, rank):
    """The faults of an item's parameters and sort, and then F4 for another rank than this one."""
    _, _, sorts = check_parameters(context, Checker(context), parameters)
    if Rank(sorts, context.sort(result)) != rank:
        raise Faulty("F4")


def check_definition(context, parameters, result, body, rank=None):
    """The rank and the body of a definition; with a rank given, F4 for another one, before the faults of the body."""
    checker = Checker(context)
    scope, numbers, sorts = check_parameters(context, checker, parameters)
    found = Rank(sorts, context.sort(result))
    if rank is not None and found != rank:
        raise Faulty("F4", mixed("a rank", sorts + (found.result,), rank.parameters + (rank.result,)))
    sort, node = checker.check(body, scope)
    if sort != found.result:
        raise Faulty("F4", mixed("a body", (sort,), (found.result,)))
    return found, Body(numbers, node)
