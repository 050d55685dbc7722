"""Sorts: the truth values, the integers, the reals, bit vectors, which stand here as their width, a number from 1 to 128, declared sorts, arrays."""
import re
from collections import namedtuple

from text import NUMERAL, SYMBOL, is_kind, is_symbol, is_word

BOOL, INT, REAL = "Bool", "Int", "Real"
# The sorts of numbers.
NUMBERS = (INT, REAL)
# A sort that the command of this number declared, by this name.
Free = namedtuple("Free", "command name")
# The sort of arrays from one sort to another.
Array = namedtuple("Array", "index element")
WIDEST = 128

CORE, INTS, BITS, REALS, ARRAYS = "Core", "Ints", "bit vectors", "Reals", "arrays"
ALL_THEORIES = frozenset([CORE, INTS, BITS])

BASE, WIDE = "base", "wide"
# Names that no new sort may have in the profile `wide`, beside those that none may have.
WIDE_SORTS = (REAL, "Array")
# In the profile `wide` WIDE is among the theories.
THEORIES = {BASE: ALL_THEORIES, WIDE: ALL_THEORIES | frozenset([REALS, ARRAYS, WIDE])}


def theories_of():
    """The theories that each logic chooses."""
    table = {"QF_UF": frozenset([CORE]), "ALL": ALL_THEORIES}
    table.update((name, frozenset([CORE, INTS])) for name in "QF_IDL QF_LIA QF_NIA QF_UFIDL QF_UFLIA QF_UFNIA".split())
    table.update((name, frozenset([CORE, BITS])) for name in "QF_BV QF_UFBV".split())
    return table


# The logics of the profile `wide`, by the theories beside Core; each name also with `QF_` before it.
WIDE_LOGICS = (
    ((), "UF DT UFDT SAT"),
    ((INTS,), "IDL LIA NIA UFIDL UFLIA UFNIA UFDTLIA UFDTNIA"),
    ((REALS,), "RDL LRA NRA UFRDL UFLRA UFNRA"),
    ((INTS, REALS), "LIRA NIRA UFLIRA UFNIRA UFDTLIRA UFDTNIRA"),
    ((BITS,), "BV UFBV UFBVDT"),
    ((BITS, INTS), "BVLIA BVNIA UFBVLIA UFBVNIA"),
    ((ARRAYS,), "AX AUF AUFDT"),
    ((ARRAYS, INTS), "ALIA ANIA AUFLIA AUFNIA AUFDTLIA AUFDTNIA"),
    ((ARRAYS, REALS), "ALRA ANRA AUFLRA AUFNRA"),
    ((ARRAYS, INTS, REALS), "ALIRA ANIRA AUFLIRA AUFNIRA AUFDTLIRA AUFDTNIRA"),
    ((ARRAYS, BITS), "ABV AUFBV AUFBVDT"),
    ((ARRAYS, BITS, INTS), "ABVLIA AUFBVLIA AUFBVNIA AUFBVDTLIA AUFBVDTNIA"),
    ((ARRAYS, BITS, REALS), "ABVLRA ABVNRA AUFBVLRA AUFBVNRA"),
    ((ARRAYS, BITS, INTS, REALS), "ALL ALL_SUPPORTED AUFBVLIRA AUFBVNIRA AUFBVDTLIRA AUFBVDTNIRA"),
)


def wide_theories_of():
    """The theories that each logic of the profile `wide` chooses."""
    table = {}
    for theories, names in WIDE_LOGICS:
        for name in names.split():
            table[name] = table["QF_" + name] = frozenset((CORE, WIDE) + theories)
    return table


LOGICS = {BASE: theories_of(), WIDE: wide_theories_of()}


class Faulty(Exception):
    """The first fault of a name, a sort, a term or an item, F1 to F8; and of some, what is counted of them."""

    def __init__(self, letter, kind=None):
        super().__init__(letter)
        self.letter = letter
        self.kind = kind


# The symbols that are elements of a declared sort of the profile `wide`, by the sort's name.
ELEMENT = re.compile(r"(?:(.*)!val!|@uc_(.*)_)(?:0|[1-9][0-9]*)", re.DOTALL)


def element_sort(name, abbreviations):
    """The declared sort in force in whose elements' form a symbol is, or None: an abbreviation's own name makes no elements."""
    found = ELEMENT.fullmatch(name)
    if found is None:
        return None
    own = found.group(2) if found.group(1) is None else found.group(1)
    sort = abbreviations.get(own)
    return sort if type(sort) is Free and sort.name == own else None


def like_element(name):
    """Whether a symbol would be an element of some sort."""
    return ELEMENT.fullmatch(name) is not None


def of_abbreviation(name, abbreviations):
    """Whether a symbol would be an element, were the abbreviation of a declared sort its name."""
    found = ELEMENT.fullmatch(name)
    own = found and (found.group(2) if found.group(1) is None else found.group(1))
    return type(abbreviations.get(own)) is Free and abbreviations[own].name != own


def has_declared(sort):
    """Whether a sort is a declared one, or one of arrays that has such."""
    return type(sort) is Free or type(sort) is Array and any(map(has_declared, sort))


def is_bits(sort):
    """Whether a sort is one of bit vectors."""
    return type(sort) is int


def array_of(tree, abbreviations, theories):
    """The sort that a list names which begins with `Array`, or its fault."""
    if WIDE not in theories:
        raise Faulty("F2")
    if len(tree) != 3:
        raise Faulty("F1", "a sort of arrays out of form, F1")
    if ARRAYS not in theories:
        raise Faulty("F3", "a sort of arrays without arrays, F3")
    index, element = (sort_of(part, abbreviations, theories) for part in tree[1:])
    if type(index) is Array:
        raise Faulty("F2", "arrays as indexes, F2")
    if type(element) is Array and type(element.element) is Array:
        raise Faulty("F2", "arrays three deep, F2")
    return Array(index, element)


def sort_of(tree, abbreviations, theories):
    """The sort that a tree names, or its fault."""
    if is_symbol(tree):
        name = tree.text
        if name in abbreviations:
            return abbreviations[name]
        if name == BOOL:
            return BOOL
        if name == INT and INTS in theories:
            return INT
        if name == REAL and REALS in theories:
            return REAL
        if name == REAL and WIDE in theories:
            raise Faulty("F3", "the sort Real without Reals, F3")
        raise Faulty("F2" if name in (REAL, "String") else "F3")
    if type(tree) is not list or not tree:
        raise Faulty("F1")
    if is_symbol(tree[0]):
        if tree[0].text == "Array":
            return array_of(tree, abbreviations, theories)
        raise Faulty("F3" if len(tree) > 1 else "F1")
    if not is_word(tree[0], "_") or len(tree) < 2 or not is_symbol(tree[1]):
        raise Faulty("F1")
    indexes = tree[2:]
    if tree[1].text != "BitVec":
        plain = all(is_kind(index, NUMERAL) or is_kind(index, SYMBOL) for index in indexes)
        raise Faulty("F3" if plain else "F1")
    if len(indexes) != 1 or not is_kind(indexes[0], NUMERAL):
        raise Faulty("F1")
    if BITS not in theories:
        raise Faulty("F3")
    width = int(indexes[0].text)
    if not 1 <= width <= WIDEST:
        raise Faulty("F5")
    return width
