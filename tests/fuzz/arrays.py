"""Arrays: their values, what operators make of them, and when two are known to be equal.

An array is a table: a default, and the elements that were written, by their indexes. Of two arrays it may be open whether they are equal.
"""
from sorts import BOOL, Array, Free, is_bits
from values import OPEN

# How large the arrays may be together that an operator compares place by place.
LARGEST = 256


class Table:
    """An array. Two tables are one where they have one default and the same was written; their sizes may differ."""

    def __init__(self, default, written, size):
        self.default = default
        self.written = written
        self.size = size
        self.hash = None

    def __eq__(self, other):
        return self is other or type(other) is Table and self.default == other.default and self.written == other.written

    def __hash__(self):
        if self.hash is None:
            self.hash = hash((self.default, frozenset(self.written.items())))
        return self.hash

    def at(self, index):
        """The element at an index."""
        return self.written.get(index, self.default)

    def with_written(self, index, element):
        """The table in which an element is written besides."""
        written = dict(self.written)
        written[index] = element
        return Table(self.default, written, 1 + self.size + size_of(element))


def size_of(value):
    """The size of an array: 1, 1 for each store, and the sizes of the arrays that were given to it; of any other value 0."""
    return value.size if type(value) is Table else 0


def constant(default):
    """The array with this element everywhere."""
    return Table(default, {}, 1 + size_of(default))


def are_all(indexes, sort):
    """Whether some indexes are all that a sort has."""
    return len(indexes) == 2 if sort == BOOL else is_bits(sort) and len(indexes) == 1 << sort


def same(x, y, sort):
    """Whether two values of a sort are equal, or OPEN."""
    if type(sort) is not Array or x is y:
        return x == y
    indexes = set(x.written) | set(y.written)
    found = {same(x.at(index), y.at(index), sort.element) for index in indexes}
    if not are_all(indexes, sort.index):
        defaults = same(x.default, y.default, sort.element)
        # An index that is written nowhere may be none of the solver's sort; but each sort has some element.
        found.add(OPEN if defaults is False and indexes and type(sort.index) is Free else defaults)
    return False if False in found else OPEN if OPEN in found else True


def too_large(values, sort):
    """Whether some arrays are compared place by place, and are too large for it."""
    slow = type(sort.element) is Array or type(sort.index) is Free and any(value.written for value in values)
    return slow and sum(value.size for value in values) > LARGEST


def neighbours_same(values, sort):
    """`=`: whether each array and the next are equal, or OPEN."""
    if too_large(values, sort):
        return OPEN
    found = [same(x, y, sort) for x, y in zip(values, values[1:])]
    return False if False in found else OPEN if OPEN in found else True


def none_same(values, sort):
    """`distinct`: whether no two arrays are equal, or OPEN."""
    if too_large(values, sort):
        return OPEN
    found = set()
    for place, x in enumerate(values):
        for y in values[place + 1 :]:
            equal = same(x, y, sort)
            if equal is True:
                return False
            found.add(equal)
    return OPEN if OPEN in found else True


# The sorts of what operators take and give.


def selected(sorts):
    """Takes an array and an index."""
    fits = len(sorts) == 2 and type(sorts[0]) is Array and sorts[1] == sorts[0].index
    return sorts[0].element if fits else None


def stored(sorts):
    """Takes an array, an index and an element."""
    fits = len(sorts) == 3 and type(sorts[0]) is Array and tuple(sorts[1:]) == tuple(sorts[0])
    return sorts[0] if fits else None


def filled(sort):
    """Takes an element of this sort of arrays, if it is one."""
    return lambda sorts: sort if type(sort) is Array and tuple(sorts) == (sort.element,) else None


# What is counted.

INDEXES = {"Bool": "truth values", "Int": "integers", "Real": "reals"}


def words_of_index(sort):
    """What indexes of a sort are called in what is counted."""
    if type(sort) is Free:
        return "elements"
    return "vectors of %s" % (("1 bit", "2 bits")[sort - 1] if sort < 3 else "more bits") if is_bits(sort) else INDEXES[sort]


def count(reached, node, values, value):
    """Counts what operators make of known arrays."""
    name, sort = node.operator.name, node.sorts[0]
    if name == "select":
        reached["wide: select where %s was written" % ("an element" if values[1] in values[0].written else "nothing")] += 1
        reached["wide: array by %s" % words_of_index(sort.index)] += 1
    elif name == "store" and values[1] in values[0].written:
        reached["wide: store over an element"] += 1
    elif name in ("=", "distinct") and type(sort) is Array:
        count_comparison(reached, name, sort, values, value)


def count_comparison(reached, name, sort, values, value):
    """Counts how arrays are compared."""
    result = {True: "true", False: "false"}.get(value, "open")
    if too_large(values, sort):
        result = "open of large ones"
    reached["wide: %s of arrays, %s" % (name, result)] += 1
    if type(sort.element) is Array:
        reached["wide: %s of arrays of arrays, %s" % (name, result)] += 1
    if name == "=" and len(values) == 2:
        indexes = set(values[0].written) | set(values[1].written)
        how = "all of them written" if are_all(indexes, sort.index) else "the default counts"
        reached["wide: arrays by %s, %s, %s" % (words_of_index(sort.index), how, result)] += 1
        if value is True and len(values[0].written) != len(values[1].written):
            reached["wide: equal arrays of which more is written in one"] += 1
