"""Invents sorts and terms that have no fault."""
from conversions import CONVERSIONS, OVERFLOWS, corner, integer, pair
from operators import FROM_INTS, TO_INTS
from reals import edge, printed, usual
from sorts import ARRAYS, BITS, BOOL, INT, INTS, NUMBERS, REAL, REALS, WIDE, Array, Free, has_declared
from text import BINARY, HEXADECIMAL, Atom, is_word
from trees import indexed, keyword, listed, numeral, string, symbol, word

NAMES = "x y z p q r f g h a b c k!0 u1 v2 <a> ~".split() + ["a b", "", "let", "x\ny", "\xe9", "model", "sat", "error", "Int", "Real"]
NAMES += "extract bv1 divisible success -x .".split()
# Names of operators, which are free where their theory isn't in force.
OPERATOR_NAMES = "and + - * div mod abs < bvadd concat bvcomp not true = ite select store const".split() + OVERFLOWS[::2] + CONVERSIONS

CORE_OPERATORS = "not => and or xor = distinct ite".split()
INT_OPERATORS = "- + * div mod abs ite".split()
INT_RELATIONS = "<= < >= > divisible".split()
REAL_OPERATORS = "- + * / ite".split()
REAL_RELATIONS = "<= < >= >".split()
SAME_WIDTH = (
    "bvnot bvneg bvand bvor bvxor bvadd bvmul bvnand bvnor bvxnor bvsub bvudiv bvurem bvsdiv bvsrem bvsmod bvshl bvlshr bvashr "
    "rotate_left rotate_right ite"
).split()
OTHER_WIDTHS = "concat extract repeat zero_extend sign_extend".split()
DIVISIONS = frozenset("bvudiv bvurem bvsdiv bvsrem bvsmod".split())
SHIFTS = frozenset("bvshl bvlshr bvashr".split())
BIT_RELATIONS = "bvult bvule bvugt bvuge bvslt bvsle bvsgt bvsge".split()
ANY_NUMBER = frozenset("=> and or xor = distinct - + * / div <= < >= > bvand bvor bvxor bvadd bvmul".split())
UNARY = frozenset("not abs divisible to_real to_int is_int bvnot bvneg rotate_left rotate_right".split())

ALL_OPERATORS = sorted(
    set(CORE_OPERATORS + INT_OPERATORS + INT_RELATIONS + SAME_WIDTH + OTHER_WIDTHS + BIT_RELATIONS + ["bvcomp", "bvX", "true", "false"])
)

# Names in the form of an element of the sort that % stands for.
ELEMENT_NAMES = ("%!val!0", "%!val!0", "%!val!1", "%!val!2", "@uc_%_0", "@uc_%_1", "@uc_%_2")
# Names that are an element's behind `as`.
BEHIND_AS = ("@a", "@a", "@0", "@1", "@", "@%_0", "@uc_%_0")

EDGES = [2**127 - 1, 2**127, 2**127 + 1, 2**127 - 2, 2**126, 2**64, 2**64 - 1, 2**63, 2**32 - 1, 10**38, 10**40, 13043817825332782212]
WIDTHS = [1, 2, 3, 4, 5, 7, 8, 8, 9, 16, 31, 32, 33, 63, 64, 65, 100, 127, 128]


def whole_sort(sort):
    """A tree for a sort, without abbreviations."""
    if type(sort) is Array:
        return listed("Array", *map(whole_sort, sort))
    return symbol(sort) if sort in (BOOL, INT, REAL) else symbol(sort.name) if type(sort) is Free else indexed("BitVec", sort)


def width_names(rng):
    """The widths that a dialogue uses most."""
    return [rng.choice(WIDTHS) for _ in range(rng.choice((1, 1, 2, 3)))]


class Inventor:
    """Invents within a context: the theories, abbreviations and ranks in force. `labels` has free names for labels, or is None."""

    def __init__(self, rng, context, widths, labels=None):
        self.rng = rng
        self.context = context
        self.widths = widths
        self.labels = labels
        self.ints = INTS in context.theories
        self.bits = BITS in context.theories
        self.reals = REALS in context.theories
        self.arrays = ARRAYS in context.theories
        self.overflows = self.bits and WIDE in context.theories
        self.converts = self.overflows and self.ints
        self.constants, self.functions = {}, {}
        for name, rank in context.ranks.items():
            (self.functions if rank.parameters else self.constants).setdefault(rank.result, []).append((name, rank.parameters))

    # Sorts

    def sort(self):
        """A sort of the theories."""
        found = self.array_sort() if self.arrays and self.rng.random() < 0.12 else None
        return found if found is not None and self.has_elements(found) else self.plain_sort()

    def array_sort(self, element=None):
        """A sort of arrays, mostly by few indexes; with elements of this sort, if it is given."""
        rng = self.rng
        small = [BOOL] + [1, 2] * self.bits + [INT] * self.ints
        index = rng.choice(small) if rng.random() < 0.5 else self.plain_sort()
        if element is None:
            element = Array(rng.choice(small), self.plain_sort()) if rng.random() < 0.2 else self.plain_sort()
        return Array(index, element)

    def plain_sort(self):
        """A sort of the theories, but no arrays."""
        choices = [BOOL] + [INT] * 2 * self.ints + [self.rng.choice(self.widths)] * 2 * self.bits + [REAL] * 3 * self.reals
        return self.rng.choice(choices + [sort for sort in self.declared_sorts() if self.has_elements(sort)] * 2)

    def declared_sorts(self):
        """The declared sorts in force, in order."""
        return [sort for sort in self.context.abbreviations.values() if type(sort) is Free]

    def has_elements(self, sort):
        """Whether a term may be of a sort: one of a declared sort, or of arrays with such, has to be a constant in a script."""
        return self.context.elements or sort in self.constants or not has_declared(sort)

    def element_name(self):
        """A name in the form of an element of a sort in force, or of what only abbreviates one."""
        rng = self.rng
        names = [name for name, sort in self.context.abbreviations.items() if type(sort) is Free]
        return rng.choice(ELEMENT_NAMES + BEHIND_AS).replace("%", rng.choice(names or ["U"]))

    def sort_tree(self, sort):
        """A tree for a sort: an abbreviation, if there is one."""
        rng = self.rng
        names = [name for name, named in self.context.abbreviations.items() if named == sort]
        if names and rng.random() < 0.6:
            return symbol(rng.choice(names))
        if type(sort) is Free:
            return symbol(names[0] if names else "Gone")
        if type(sort) is Array:
            return listed("Array", self.sort_tree(sort.index), self.sort_tree(sort.element))
        return symbol(sort) if sort in (BOOL, INT, REAL) else indexed("BitVec", sort)

    # Terms

    def literal(self, sort):
        """A literal or a constant of a theory."""
        rng = self.rng
        if sort == BOOL:
            return symbol("true" if rng.random() < 0.5 else "false")
        if sort == INT:
            number = rng.choice((0, 1, 1, 2, 3, 5, 7, 10, 100, rng.randrange(1000)))
            if rng.random() < 0.12:
                number = rng.choice(EDGES)
                if rng.random() < 0.15:
                    return listed("-", listed("-", 2**127 - 1), 1)
            elif rng.random() < 0.002:
                number = 10 ** rng.choice((400, 5000))
            return numeral(number) if rng.random() < 0.7 else listed("-", number)
        if sort == REAL:
            return edge(rng) if rng.random() < 0.08 else printed(rng, usual(rng), self.ints)
        if type(sort) is Free:
            return self.element(sort)
        if type(sort) is Array:
            return self.array(sort)
        number = rng.choice((0, 1, 2**sort - 1, 2 ** (sort - 1), 2 ** (sort - 1) - 1, rng.getrandbits(sort), rng.getrandbits(sort), 2, 3))
        return self.vector(number % (1 << sort), sort)

    def array(self, sort):
        """An array: one element everywhere, and some that are written; in a script a constant, if none can be told."""
        rng = self.rng
        if has_declared(sort) and not self.context.elements:
            constants = self.constants.get(sort)
            return symbol(rng.choice(constants)[0] if constants else "none")
        tree = self.constant_array(sort, self.literal(sort.element))
        for _ in range(rng.choice((0, 0, 1, 1, 2, 3, 4))):
            tree = listed("store", tree, self.index(sort.index), self.literal(sort.element))
        return tree

    def constant_array(self, sort, element):
        """`((as const o) t)`: a script may name o by no abbreviation."""
        tree = self.sort_tree(sort) if self.context.elements or self.rng.random() < 0.02 else whole_sort(sort)
        return [[word("as"), symbol("const"), tree], element]

    def index(self, sort):
        """An index, mostly one of few."""
        return numeral(self.rng.randrange(3)) if sort == INT and self.rng.random() < 0.7 else self.literal(sort)

    def element(self, sort):
        """An element of a declared sort; in a script a constant, if there is one."""
        rng = self.rng
        if not self.context.elements:
            constants = self.constants.get(sort)
            return symbol(rng.choice(constants)[0] if constants else "none")
        names = [name for name, named in self.context.abbreviations.items() if named == sort]
        name = rng.choice(names) if names else "Gone"
        for _ in range(3):
            number = rng.choice((0, 0, 1, 1, 2, 10, 10 ** rng.choice((3, 24, 40))))
            kind = rng.random()
            # By the name of an abbreviation it would be unknown, mostly.
            own = sort.name if rng.random() < 0.97 else name
            if kind < 0.4:
                found = "%s!val!%d" % (own, number)
            elif kind < 0.55:
                found = "@uc_%s_%d" % (own, number)
            else:
                found = rng.choice(("@%s_%d" % (name, number), "@a", "@%d" % number, "@", "@uc_%s_%d" % (name, number)))
            if found not in self.context.script and found not in self.context.ranks:
                break
        return symbol(found) if kind < 0.55 else [word("as"), symbol(found), symbol(name)]

    def vector(self, number, width):
        """A bit vector, spelled in one way or another."""
        spelling = self.rng.random()
        if width % 4 == 0 and spelling < 0.4:
            digits = "%0*x" % (width // 4, number)
            return Atom(HEXADECIMAL, digits if spelling < 0.3 else digits.upper())
        if spelling < 0.7 or width < 9:
            return Atom(BINARY, bin((1 << width) + number)[3:])
        return indexed("bv%d" % number, width)

    def leaf(self, sort, scope):
        """A variable, a constant or a literal."""
        rng = self.rng
        names = [name for name, found in scope.items() if found == sort]
        if names and rng.random() < 0.6:
            return symbol(rng.choice(names))
        constants = self.constants.get(sort)
        if constants and rng.random() < 0.65:
            name = rng.choice(constants)[0]
            if name not in scope:
                return symbol(name)
        if sort == BOOL and "true" in scope:
            return listed("=", 1, 1)
        return self.literal(sort)

    def term(self, sort, size, scope):
        """A term of a sort; the scope has the sorts of variables by name, None for one that is only hidden."""
        rng = self.rng
        if size <= 1:
            return self.leaf(sort, scope)
        kind = rng.random()
        if kind < 0.1:
            return self.let(sort, size, scope)
        if kind < 0.15:
            return self.annotation(sort, size, scope)
        if kind < 0.32:
            functions = self.functions.get(sort)
            if functions:
                name, parameters = rng.choice(functions)
                if name not in scope:
                    return [symbol(name)] + [self.term(parameter, size // len(parameters), scope) for parameter in parameters]
        if kind < 0.4:
            return self.leaf(sort, scope)
        return self.application(rng.choice(self.operators_to(sort)), sort, size, scope)

    def operators_to(self, sort):
        """Names of operators with this result."""
        if sort == BOOL:
            selects = ["select"] * 2 * self.arrays
            on_reals = REAL_RELATIONS * (2 - self.ints) * self.reals + ["is_int"] * (self.ints and self.reals)
            return CORE_OPERATORS + INT_RELATIONS * self.ints + on_reals + BIT_RELATIONS * self.bits + OVERFLOWS * self.overflows + selects
        if sort == INT:
            return INT_OPERATORS + ["to_int"] * self.reals + sorted(TO_INTS) * self.converts + ["select"] * self.arrays
        if sort == REAL:
            return REAL_OPERATORS + ["to_real"] * self.ints + ["select"] * self.arrays
        if type(sort) is Free:
            return ["ite"] + ["select"] * self.arrays
        if type(sort) is Array:
            return ["store"] * 4 + ["ite"] + ["const"] * 2 + ["select"] * (type(sort.element) is not Array)
        return ["select"] * 2 * self.arrays + SAME_WIDTH + OTHER_WIDTHS + ["bvcomp"] * (4 * (sort == 1)) + list(FROM_INTS) * self.converts

    def application(self, name, sort, size, scope):
        """The application of an operator, of this result."""
        rng = self.rng
        if name in scope:
            return self.leaf(sort, scope)
        if name in ("true", "false"):
            return symbol(name)
        if name in ("select", "store", "const"):
            return self.on_arrays(name, sort, size, scope)
        if name == "bvX":
            return indexed("bv%d" % rng.getrandbits(sort), sort)
        count = 1 if name in UNARY else rng.choice((2, 2, 2, 3, 4)) if name in ANY_NUMBER else 2
        if name == "-" and rng.random() < 0.3:
            count = 1
        inner = max(1, (size - 1) // count)
        argument = sort
        head = symbol(name)
        if self.reals and (sort == REAL or name in ("=", "distinct", "to_int", "is_int") or name in REAL_RELATIONS):
            found = self.on_numbers(name, sort, count, inner, scope)
            if found is not None:
                return found
        if name in CONVERSIONS or name in OVERFLOWS:
            return self.on_bounds(name, sort, inner, scope)
        if name == "ite":
            return [head, self.term(BOOL, inner, scope), self.term(sort, inner, scope), self.term(sort, inner, scope)]
        if name in ("=", "distinct"):
            argument = self.sort()
        elif name in INT_RELATIONS:
            argument = INT
            if name == "divisible":
                head = indexed(name, rng.choice((1, 2, 3, 7, 10, 2**63, 2**64 - 1)))
        elif name in BIT_RELATIONS or name == "bvcomp":
            argument = rng.choice(self.widths)
        elif name in ("rotate_left", "rotate_right"):
            head = indexed(name, rng.choice((0, 1, 2, sort - 1, sort, sort + 1, 2 * sort + 1, 130, 2**64 - 1)))
        elif name == "concat":
            return [head] + [self.term(width, inner, scope) for width in self.parts_of(sort)]
        elif name in OTHER_WIDTHS:
            head, argument = self.widening(name, sort)
            count = 1
            inner = size - 1
        if name in ("div", "mod") and rng.random() < 0.7:
            # A divisor that is often a number.
            return [head, self.term(INT, inner, scope)] + [self.literal(INT) for _ in range(count - 1)]
        second = self.second(name, sort)
        if second is not None:
            return [head, self.term(argument, inner, scope), second]
        return [head] + [self.term(argument, inner, scope) for _ in range(count)]

    def on_arrays(self, name, sort, size, scope):
        """An application to arrays, or of a constant array."""
        if name == "const":
            return self.constant_array(sort, self.term(sort.element, size - 1, scope))
        if name == "store":
            index = self.index(sort.index) if self.rng.random() < 0.5 else self.term(sort.index, size // 3, scope)
            return listed("store", self.term(sort, size // 2, scope), index, self.term(sort.element, size // 3, scope))
        known = [found for found in self.constants if type(found) is Array and found.element == sort]
        found = self.rng.choice(known) if known and self.rng.random() < 0.6 else self.array_sort(sort)
        if not self.has_elements(found) or not self.has_elements(found.index):
            return self.leaf(sort, scope)
        index = self.index(found.index) if self.rng.random() < 0.5 else self.term(found.index, size // 3, scope)
        return listed("select", self.term(found, size // 2, scope), index)

    def on_numbers(self, name, sort, count, inner, scope):
        """An application to numbers, whose sorts may be mixed; None if it is to be another."""
        rng = self.rng
        if name in ("=", "distinct") and rng.random() < 0.5 or name in REAL_RELATIONS and self.ints and rng.random() < 0.3:
            return None
        sorts = [REAL] * count
        if name == "ite":
            sorts = [BOOL, REAL, REAL]
        if name == "to_real":
            sorts = [INT]
        elif self.ints:
            kinds = NUMBERS if name in UNARY or rng.random() < 0.4 else (REAL,)
            sorts = [rng.choice(kinds) if found == REAL else found for found in sorts]
            if sort == REAL and name != "/" and REAL not in sorts:
                sorts[-1] = REAL
        arguments = [self.term(found, inner, scope) for found in sorts]
        if name == "/" and rng.random() < 0.7:
            # Divisors that are numbers, and not 0 mostly.
            arguments[1:] = [self.literal(REAL) for _ in arguments[1:]]
        return [symbol(name)] + arguments

    def on_bounds(self, name, sort, inner, scope):
        """A conversion or an overflow predicate, of values at corners now and then."""
        rng = self.rng
        at_corner = rng.random() < 0.4
        width = rng.choice(self.widths)
        if name in FROM_INTS:
            return [indexed(name, sort), integer(rng, sort) if at_corner else self.term(INT, inner, scope)]
        if name in TO_INTS or name == "bvnego":
            return [symbol(name), self.vector(corner(rng, width), width) if at_corner else self.term(width, inner, scope)]
        if at_corner:
            return [symbol(name)] + [self.vector(number, width) for number in pair(rng, width)]
        return [symbol(name), self.term(width, inner, scope), self.term(width, inner, scope)]

    def second(self, name, width):
        """A second argument that matters for an operator, now and then: no divisor, or a shift about the width."""
        if name in DIVISIONS and self.rng.random() < 0.3:
            return self.vector(0, width)
        if name in SHIFTS and self.rng.random() < 0.5:
            return self.vector(max(0, width + self.rng.choice((-1, 0, 1, -width // 2))) % (1 << width), width)
        return None

    def parts_of(self, width):
        """Widths with this sum, two of them or more if it can be."""
        rng = self.rng
        if width == 1:
            return [1]
        cut = rng.randint(1, width - 1)
        rest = width - cut
        return [cut, rest] if rest == 1 or rng.random() < 0.8 else [cut] + self.parts_of(rest)

    def widening(self, name, sort):
        """A head of one argument with this result, and the width of that."""
        rng = self.rng
        if name == "extract":
            widths = [width for width in self.widths + [128] if width >= sort]
            width = rng.choice(widths) if rng.random() < 0.7 else rng.randint(sort, 128)
            low = rng.choice((0, width - sort, rng.randint(0, width - sort)))
            return indexed(name, low + sort - 1, low), width
        if name == "repeat":
            times = rng.choice([times for times in range(1, sort + 1) if sort % times == 0])
            return indexed(name, times), sort // times
        more = rng.choice((0, sort - 1, rng.randint(0, sort - 1)))
        return indexed(name, more), sort - more

    def variable_names(self, count):
        """Different names for variables, of operators and of names in force among them."""
        rng = self.rng
        pool = NAMES if rng.random() < 0.8 else OPERATOR_NAMES + list(self.context.ranks)
        if self.declared_sorts() and rng.random() < 0.3:
            pool = sorted({self.element_name() for _ in range(count + 3)}) + NAMES[:2]
        return rng.sample(pool, min(count, len(pool)))

    def let(self, sort, size, scope):
        """A `let`, whose bindings don't see one another."""
        names = self.variable_names(self.rng.choice((1, 1, 2, 3)))
        if scope and self.rng.random() < 0.4:
            # The names that are bound already, so that terms of one binding use what another hides.
            names = self.rng.sample(sorted(scope), min(len(scope), len(names)))
        inner = dict(scope)
        bindings = []
        for name in names:
            found = sort if self.rng.random() < 0.5 else self.sort()
            bindings.append([symbol(name), self.term(found, size // (len(names) + 1), scope)])
            inner[name] = found
        return [word("let"), bindings, self.term(sort, size // 2, inner)]

    def annotation(self, sort, size, scope):
        """An annotation, with a label of a closed term where labels may stand."""
        rng = self.rng
        if self.labels and rng.random() < 0.7:
            attributes = [keyword(":named"), symbol(self.labels.pop(rng.randrange(len(self.labels))))]
            term = self.term(sort, size - 1, dict.fromkeys(scope))
            if rng.random() < 0.2:
                attributes = [keyword(":note")] + attributes
        else:
            term = self.term(sort, size - 1, scope)
            value = rng.choice(([], [listed("x", [])], [numeral(3)], [word("let")], [string("")]))
            attributes = [keyword(rng.choice((":note", ":pattern", ":a")))] + value
        return [word("!"), term] + attributes

    def aimed(self, name, size, scope):
        """A term that applies this operator."""
        rng = self.rng
        if name in ("/", "to_real") or self.reals and name in REAL_OPERATORS and rng.random() < 0.5:
            return self.application(name, REAL, size, scope)
        if name in ("to_int", "is_int"):
            return self.application(name, INT if name == "to_int" else BOOL, size, scope)
        if name in CORE_OPERATORS + INT_RELATIONS + BIT_RELATIONS + ["true", "false"] and not (name == "ite" and rng.random() < 0.5):
            return self.application(name, BOOL, size, scope)
        sort = INT if name in INT_OPERATORS and self.ints else 1 if name == "bvcomp" else rng.choice(self.widths)
        if name == "concat" and sort == 1:
            sort = 8
        return self.application(name, sort, size, scope)

    def spoiled(self, tree, flaw):
        """The tree with another, a flaw, in the place of some term in it."""
        rng = self.rng
        if type(tree) is not list or rng.random() < 0.25:
            return flaw
        here = tree
        while True:
            places = term_places(here)
            if not places:
                return flaw
            holder, place = rng.choice(places)
            inner = holder[place]
            if type(inner) is not list or rng.random() < 0.4:
                holder[place] = flaw
                return tree
            here = inner


def term_places(tree):
    """The places of the terms that are parts of a list: the list that each stands in, and its index."""
    if not tree or is_word(tree[0], "_"):
        return []
    if is_word(tree[0], "let"):
        if len(tree) != 3 or type(tree[1]) is not list:
            return []
        return [(binding, 1) for binding in tree[1] if type(binding) is list and len(binding) == 2] + [(tree, 2)]
    if is_word(tree[0], "!"):
        return [(tree, 1)] if len(tree) > 1 else []
    return [(tree, place) for place in range(1, len(tree))]
