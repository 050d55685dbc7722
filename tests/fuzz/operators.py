"""The operators of the theories: which arguments each takes, and what it makes of their values."""
import re

import arrays
import values as v
from sorts import ARRAYS, BITS, BOOL, CORE, INT, INTS, NUMBERS, REAL, REALS, WIDE, WIDEST, Array, Faulty, is_bits
from text import NUMERAL, is_kind

LARGEST_INDEX = 2**64 - 1


class Operator:
    """An operator, with its indexes if it has some.

    `result` takes the sorts of the arguments, and gives that of the application, or None where it does not take them. `meaning` takes
    their values and their sorts. A constant takes no arguments.
    """

    def __init__(self, name, result, meaning, takes_open=False):
        self.name = name
        self.result = result
        self.meaning = meaning
        self.takes_open = takes_open

    def value(self, values, sorts):
        """The value for these values, which is open where one of them is, but for the few operators that take open arguments."""
        if not self.takes_open and v.OPEN in values:
            return v.OPEN
        return self.meaning(values, sorts)


def some(least, most, argument, result):
    """Takes from `least` to `most` arguments of one sort, `most` None for any number."""

    def result_of(sorts):
        fits = least <= len(sorts) and (most is None or len(sorts) <= most) and all(sort == argument for sort in sorts)
        return result if fits else None

    return result_of


def constant(sort):
    """Takes no arguments."""
    return lambda sorts: None if sorts else sort


def alike(sorts):
    """Takes two arguments or more of one sort, and has a truth value."""
    return BOOL if len(sorts) >= 2 and len(set(sorts)) == 1 else None


def branches(sorts):
    """Takes a condition and two of one sort."""
    return sorts[1] if len(sorts) == 3 and sorts[0] == BOOL and sorts[1] == sorts[2] else None


def numbers(least, most, result=None):
    """Takes from `least` to `most` integers and reals; without another result it has their sort, and is a real where they are mixed."""

    def result_of(sorts):
        fits = least <= len(sorts) and (most is None or len(sorts) <= most) and all(sort in NUMBERS for sort in sorts)
        return (result or (REAL if REAL in sorts else INT)) if fits else None

    return result_of


def alike_or_numbers(sorts):
    """Takes two arguments or more of one sort, or numbers, and has a truth value."""
    return alike(sorts) or numbers(2, None, BOOL)(sorts)


def branches_or_numbers(sorts):
    """Takes a condition and two of one sort, or two numbers."""
    return branches(sorts) or (numbers(2, 2)(sorts[1:]) if len(sorts) == 3 and sorts[0] == BOOL else None)


def vectors(least, most, result=None):
    """Takes bit vectors of one width, and has that sort or another; `result` takes the width to a sort or None."""

    def result_of(sorts):
        fits = least <= len(sorts) and (most is None or len(sorts) <= most) and is_bits(sorts[0]) and len(set(sorts)) == 1
        return (result(sorts[0]) if result else sorts[0]) if fits else None

    return result_of


def within(width):
    """A sort of bit vectors that is not too wide."""
    return width if width <= WIDEST else None


def sum_of_widths(sorts):
    """Takes two bit vectors or more, of any widths."""
    return within(sum(sorts)) if len(sorts) >= 2 and all(map(is_bits, sorts)) else None


def plain(meaning):
    """The meaning of an operator that needs no sorts."""
    return lambda values, sorts: meaning(values)


def with_width(meaning):
    """The meaning of an operator that needs the width of its arguments."""
    return lambda values, sorts: meaning(values, sorts[0])


def by_sort(meaning, of_arrays):
    """The meaning of an operator that compares arrays otherwise than all else."""
    return lambda values, sorts: of_arrays(values, sorts[0]) if type(sorts[0]) is Array else meaning(values)


EQUAL = by_sort(v.neighbours(lambda x, y: x == y), arrays.neighbours_same)
DISTINCT = by_sort(v.distinct, arrays.none_same)


def operators():
    """For each theory, its operators without indexes by name."""
    core, ints, bits = {}, {}, {}

    def put(table, name, result, meaning, takes_open=False):
        table[name] = Operator(name, result, meaning, takes_open)

    put(core, "true", constant(BOOL), plain(lambda a: True))
    put(core, "false", constant(BOOL), plain(lambda a: False))
    put(core, "not", some(1, 1, BOOL, BOOL), plain(lambda a: not a[0]))
    put(core, "=>", some(2, None, BOOL, BOOL), plain(v.implication), True)
    put(core, "and", some(2, None, BOOL, BOOL), plain(v.conjunction), True)
    put(core, "or", some(2, None, BOOL, BOOL), plain(v.disjunction), True)
    put(core, "xor", some(2, None, BOOL, BOOL), plain(v.from_left(lambda x, y: x != y)))
    put(core, "=", alike, EQUAL)
    put(core, "distinct", alike, DISTINCT)
    put(core, "ite", branches, plain(v.choice), True)

    def minus(sorts):
        return INT if sorts and all(sort == INT for sort in sorts) else None

    subtraction = v.from_left(lambda x, y: v.known(x - y))
    put(ints, "-", minus, plain(lambda a: v.negation(a) if len(a) == 1 else subtraction(a)))
    put(ints, "+", some(2, None, INT, INT), plain(v.from_left(lambda x, y: v.known(x + y))))
    put(ints, "*", some(2, None, INT, INT), plain(v.from_left(lambda x, y: v.known(x * y))))
    put(ints, "div", some(2, None, INT, INT), plain(v.from_left(v.quotient_of)))
    put(ints, "mod", some(2, 2, INT, INT), plain(v.from_left(v.remainder_of)))
    put(ints, "abs", some(1, 1, INT, INT), plain(v.absolute))
    put(ints, "<=", some(2, None, INT, BOOL), plain(v.neighbours(lambda x, y: x <= y)))
    put(ints, "<", some(2, None, INT, BOOL), plain(v.neighbours(lambda x, y: x < y)))
    put(ints, ">=", some(2, None, INT, BOOL), plain(v.neighbours(lambda x, y: x >= y)))
    put(ints, ">", some(2, None, INT, BOOL), plain(v.neighbours(lambda x, y: x > y)))

    put(bits, "concat", sum_of_widths, v.joined)
    put(bits, "bvnot", vectors(1, 1), with_width(lambda a, m: (1 << m) - 1 - a[0]))
    put(bits, "bvneg", vectors(1, 1), with_width(lambda a, m: -a[0] % (1 << m)))
    steps = {
        "bvand": lambda x, y: x & y,
        "bvor": lambda x, y: x | y,
        "bvxor": lambda x, y: x ^ y,
        "bvadd": lambda x, y: x + y,
        "bvmul": lambda x, y: x * y,
        "bvnand": lambda x, y: ~(x & y),
        "bvnor": lambda x, y: ~(x | y),
        "bvxnor": lambda x, y: ~(x ^ y),
        "bvsub": lambda x, y: x - y,
    }
    for name, step in steps.items():
        most = None if name in ("bvand", "bvor", "bvxor", "bvadd", "bvmul") else 2
        put(bits, name, vectors(2, most), with_width(lambda a, m, step=step: v.folded(m, step)(a)))
    put(bits, "bvudiv", vectors(2, 2), with_width(v.divide))
    put(bits, "bvurem", vectors(2, 2), plain(v.remain))
    put(bits, "bvsdiv", vectors(2, 2), with_width(v.divide_signed))
    put(bits, "bvsrem", vectors(2, 2), with_width(v.remain_signed))
    put(bits, "bvsmod", vectors(2, 2), with_width(v.modulo_signed))
    put(bits, "bvshl", vectors(2, 2), with_width(v.shift_left))
    put(bits, "bvlshr", vectors(2, 2), with_width(v.shift_right))
    put(bits, "bvashr", vectors(2, 2), with_width(v.shift_right_signed))
    relations = {
        "lt": lambda x, y: x < y,
        "le": lambda x, y: x <= y,
        "gt": lambda x, y: x > y,
        "ge": lambda x, y: x >= y,
    }

    def to_bool(width):
        return BOOL

    for name, holds in relations.items():
        put(bits, "bvu" + name, vectors(2, 2, to_bool), plain(lambda a, holds=holds: holds(a[0], a[1])))
        put(
            bits,
            "bvs" + name,
            vectors(2, 2, to_bool),
            with_width(lambda a, m, holds=holds: holds(v.signed(a[0], m), v.signed(a[1], m))),
        )
    put(bits, "bvcomp", vectors(2, 2, lambda width: 1), plain(lambda a: int(a[0] == a[1])))
    return {CORE: core, INTS: ints, BITS: bits}


def operators_on_reals():
    """The operators without indexes where there are Reals, by name, and those which need Ints too."""
    reals, both = {}, {}

    def put(table, name, result, meaning, takes_open=False):
        table[name] = Operator(name, result, meaning, takes_open)

    put(reals, "=", alike_or_numbers, EQUAL)
    put(reals, "distinct", alike_or_numbers, DISTINCT)
    put(reals, "ite", branches_or_numbers, plain(v.choice), True)
    difference = v.from_left(v.difference_of)
    put(reals, "-", numbers(1, None), plain(lambda a: v.negative(a) if len(a) == 1 else difference(a)))
    put(reals, "+", numbers(2, None), plain(v.from_left(v.sum_of)))
    put(reals, "*", numbers(2, None), plain(v.from_left(v.product_of)))
    put(reals, "/", numbers(2, None, REAL), plain(v.from_left(v.real_quotient_of)))
    put(reals, "<=", numbers(2, None, BOOL), plain(v.neighbours(lambda x, y: x <= y)))
    put(reals, "<", numbers(2, None, BOOL), plain(v.neighbours(lambda x, y: x < y)))
    put(reals, ">=", numbers(2, None, BOOL), plain(v.neighbours(lambda x, y: x >= y)))
    put(reals, ">", numbers(2, None, BOOL), plain(v.neighbours(lambda x, y: x > y)))
    put(both, "to_real", some(1, 1, INT, REAL), plain(lambda a: a[0]))
    put(both, "to_int", numbers(1, 1, INT), plain(v.greatest_integer))
    put(both, "is_int", numbers(1, 1, BOOL), plain(v.is_integer))
    return reals, both


def operators_on_overflow():
    """The operators without indexes that the profile `wide` has on bit vectors, by name, and those which need Ints too."""
    overflows, conversions = {}, {}

    def to_bool(width):
        return BOOL

    def to_int(width):
        return INT

    def put(name, count, meaning):
        overflows[name] = Operator(name, vectors(count, count, to_bool), with_width(meaning))

    put("bvnego", 1, lambda a, m: v.beyond_signed(-v.signed(a[0], m), m))
    put("bvuaddo", 2, lambda a, m: v.beyond(a[0] + a[1], m))
    put("bvumulo", 2, lambda a, m: v.beyond(a[0] * a[1], m))
    put("bvusubo", 2, lambda a, m: v.beyond(a[0] - a[1], m))
    put("bvsaddo", 2, lambda a, m: v.beyond_signed(v.signed(a[0], m) + v.signed(a[1], m), m))
    put("bvsmulo", 2, lambda a, m: v.beyond_signed(v.signed(a[0], m) * v.signed(a[1], m), m))
    put("bvssubo", 2, lambda a, m: v.beyond_signed(v.signed(a[0], m) - v.signed(a[1], m), m))
    put("bvsdivo", 2, v.division_overflows)
    for name in ("ubv_to_int", "bv2nat"):
        conversions[name] = Operator(name, vectors(1, 1, to_int), plain(lambda a: v.known(a[0])))
    conversions["sbv_to_int"] = Operator("sbv_to_int", vectors(1, 1, to_int), with_width(lambda a, m: v.signed(a[0], m)))
    return overflows, conversions


TABLES = operators()
ON_ARRAYS = {
    "select": Operator("select", arrays.selected, plain(lambda a: a[0].at(a[1]))),
    "store": Operator("store", arrays.stored, plain(lambda a: a[0].with_written(a[1], a[2]))),
}
ON_REALS, WITH_INTS = operators_on_reals()
ON_OVERFLOW, TO_INTS = operators_on_overflow()
# From integers to bit vectors, with an index.
FROM_INTS = ("int_to_bv", "int2bv")
TABLE_OF = {}


def operators_in(theories):
    """The operators without indexes of these theories, by name."""
    if theories not in TABLE_OF:
        table = {}
        for theory in theories:
            table.update(TABLES.get(theory, {}))
        if REALS in theories:
            table.update(ON_REALS)
            table.update(WITH_INTS if INTS in theories else {})
        if ARRAYS in theories:
            table.update(ON_ARRAYS)
        if WIDE in theories and BITS in theories:
            table.update(ON_OVERFLOW)
            table.update(TO_INTS if INTS in theories else {})
        TABLE_OF[theories] = table
    return TABLE_OF[theories]


def constant_array(sort):
    """The operator `(as const sort)`."""
    return Operator("const", arrays.filled(sort), plain(lambda a: arrays.constant(a[0])))


def is_name_of_wide(name):
    """Whether a name is that of an overflow predicate or a conversion in the profile `wide`."""
    return name in ON_OVERFLOW or name in TO_INTS or name in FROM_INTS


def without_theory(name, theories):
    """What is counted where such a name, or one of an operator on arrays, is unknown for want of a theory."""
    if WIDE in theories and name in ON_ARRAYS:
        return "%s without arrays, F3" % name
    if WIDE not in theories or not is_name_of_wide(name):
        return None
    kind = "an overflow predicate" if name in ON_OVERFLOW else "a conversion"
    return "%s without %s, F3" % (kind, INTS if BITS in theories else BITS)


NAMED_VECTOR = re.compile("bv(0|[1-9][0-9]*)")
# The names with indexes: the theories that they need, and how many indexes.
INDEXED = {
    "divisible": ({INTS}, 1),
    "extract": ({BITS}, 2),
    "repeat": ({BITS}, 1),
    "zero_extend": ({BITS}, 1),
    "sign_extend": ({BITS}, 1),
    "rotate_left": ({BITS}, 1),
    "rotate_right": ({BITS}, 1),
}
INDEXED.update((name, ({WIDE, BITS, INTS}, 1)) for name in FROM_INTS)


def indexed_operator(name, indexes, theories):
    """The operator `(_ name index ..)`, the indexes being numerals and symbols; F3 if there is none of that name, F5 for its indexes."""
    vector = NAMED_VECTOR.fullmatch(name)
    needed, count = ({BITS}, 1) if vector else INDEXED.get(name, ({None}, 0))
    if not needed <= theories:
        raise Faulty("F3", without_theory(name, theories) if name in FROM_INTS else None)
    wrong = "a wrong index of %s, F5" % name if name in FROM_INTS else None
    if len(indexes) != count or not all(is_kind(index, NUMERAL) for index in indexes):
        raise Faulty("F5", wrong)
    numbers = [int(index.text) for index in indexes]
    if max(numbers) > LARGEST_INDEX:
        raise Faulty("F5", wrong)
    i = numbers[0]
    if name in FROM_INTS:
        if not 1 <= i <= WIDEST:
            raise Faulty("F5", wrong)
        return Operator(name, some(1, 1, INT, i), plain(lambda a: a[0] % (1 << i)))
    if vector:
        number = int(vector.group(1))
        if not 1 <= i <= WIDEST or number >= 1 << i:
            raise Faulty("F5")
        return Operator("bvX", constant(i), plain(lambda a: number))
    if name == "divisible":
        if i == 0:
            raise Faulty("F5")
        return Operator(name, some(1, 1, INT, BOOL), plain(lambda a: a[0] % i == 0))
    if name == "extract":
        low = numbers[1]
        if low > i:
            raise Faulty("F5")
        result = vectors(1, 1, lambda m: i - low + 1 if i < m else None)
        return Operator(name, result, plain(lambda a: v.extracted(a, i, low)))
    if name == "repeat":
        if i == 0:
            raise Faulty("F5")
        return Operator(name, vectors(1, 1, lambda m: within(i * m)), lambda a, sorts: v.joined(a * i, sorts * i))
    if name == "zero_extend":
        return Operator(name, vectors(1, 1, lambda m: within(m + i)), plain(lambda a: a[0]))
    if name == "sign_extend":
        return Operator(name, vectors(1, 1, lambda m: within(m + i)), with_width(lambda a, m: v.extended_signed(a, m, i)))
    places = i if name == "rotate_left" else -i
    return Operator(name, vectors(1, 1), with_width(lambda a, m: v.rotated_left(a, m, places)))
