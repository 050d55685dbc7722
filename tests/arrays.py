"""arrays.py PROGRAM: equality of small arrays beside a table that is computed index by index, in the profile `wide`.

The arrays are all that up to four writes of 0 and 1 make of 0 or 1 everywhere, in every order and one over another: by truth values, vectors of
one bit and of two bits. Over truth values and one bit each is compared with each, by `=` in both orders and by `distinct`. By two bits there are
9,362 such, which are compared with the 162 that differ in what is written or in their default. Arrays by a declared sort and by integers are
compared likewise, each check by itself: of the former some are open. Says what is wrong, or nothing. PROGRAM may be tests/fuzz/validator.py.
"""
import itertools
import sys

from reports import lines_of

MOST = 4
STEPS = ("--steps", "1000000000")
# How many wrong lines are told.
SHOWN = 20
BITS = {"Bool": ["false", "true"], "(_ BitVec 1)": ["#b0", "#b1"], "(_ BitVec 2)": ["#b00", "#b01", "#b10", "#b11"]}


def made(sort, default, writes):
    """The term of an array."""
    return "(store " * len(writes) + "((as const %s) %s)" % (sort, default) + "".join(" %s %s)" % write for write in writes)


def elements(indexes, default, writes):
    """What an array has at each index."""
    table = dict.fromkeys(indexes, default)
    for index, element in writes:
        table[index] = element
    return tuple(table[index] for index in indexes)


def sequences(indexes, most):
    """All arrays of so many writes: their default and their writes."""
    writes = list(itertools.product(indexes, "01"))
    return [(default, some) for default in "01" for count in range(most + 1) for some in itertools.product(writes, repeat=count)]


def plain(indexes):
    """One array for each default and for all that may be written."""
    every = itertools.product((None, "0", "1"), repeat=len(indexes))
    written = [tuple((index, element) for index, element in zip(indexes, some) if element) for some in every]
    return [(default, some) for default in "01" for some in written]


def compared(program, index_sort, others):
    """Compares all arrays by an index sort with others, which a model gives; the wrong lines."""
    indexes = BITS[index_sort]
    sort = "(Array %s Int)" % index_sort
    names = ["a%d" % number for number in range(len(others))]
    read = [elements(indexes, *other) for other in others]
    commands = ["(declare-const %s %s)" % (name, sort) for name in names]
    for number, wanted in enumerate(itertools.product("01", repeat=len(indexes))):
        # That an array has these elements: of each other it is known whether it is equal.
        terms = []
        for name, found in zip(names, read):
            terms.append(("(= x %s) (= %s x) (not (distinct x %s))" if found == wanted else "(distinct x %s) (not (= %s x)) (not (= x %s))") % ((name,) * 3))
        commands.append("(define-fun is%d ((x %s)) Bool (and %s))" % (number, sort, " ".join(terms)))
    before = len(commands)
    all_of_them = sequences(indexes, MOST)
    for array in all_of_them:
        number = int("".join(elements(indexes, *array)), 2)
        commands.append("(assert (is%d %s))" % (number, made(sort, *array)))
    items = ["(define-fun %s () %s %s)" % (name, sort, made(sort, *other)) for name, other in zip(names, others)]
    script = "\n".join([*commands, "(check-sat)", "(get-model)"])
    found = lines_of(program, script, "sat (%s)" % "\n".join(items), STEPS)[:1]
    if found == ["check 1 at command %d: sat, confirmed" % (len(commands) + 1)]:
        return []
    return ["by %s, %d arrays behind command %d: %s" % (index_sort, len(all_of_them), before, found)]


def known(same_default, counts, first, second, indexes):
    """Whether two arrays are known to be equal: True, False or None."""
    written = {index for index, _ in first[1] + second[1]}
    tables = [dict(zip(indexes, elements(indexes, *array))) for array in (first, second)]
    if any(tables[0][index] != tables[1][index] for index in written):
        return False
    if same_default:
        return True
    return False if counts or not written else None


def told_apart(program, index_sort, indexes, declared):
    """Compares arrays of up to two writes by a sort whose indexes are more, or may be: each pair in a check; the wrong lines."""
    sort = "(Array %s Int)" % index_sort
    arrays = sequences(indexes, 2)
    ends = {True: "sat, confirmed", False: "refuted by assumption 1", None: "assumption 1 not decided"}
    commands = ["(declare-sort U 0)", "(declare-const a %s)" % sort, "(declare-const b %s)" % sort]
    answers, wanted = [], []
    for first, second in itertools.product(arrays, repeat=2):
        value = known(first[0] == second[0], not declared, first, second, indexes)
        for word in ("=", "distinct"):
            commands += ["(check-sat-assuming ((%s a b)))" % word, "(get-model)"]
            answers.append("sat ((define-fun a () %s %s)(define-fun b () %s %s))" % (sort, made(sort, *first), sort, made(sort, *second)))
            wanted.append((first, second, word, ends[value if word == "=" or value is None else not value]))
    lines = lines_of(program, "\n".join(commands), "\n".join(answers), STEPS)
    wrong = ["%s of %s and %s: %s" % (word, *some, line) for (*some, word, end), line in zip(wanted, lines) if not line.endswith(end)]
    return wrong if len(lines) == len(wanted) + 1 else wrong + ["by %s: %d lines: %s" % (index_sort, len(lines), lines[-2:])]


def main():
    """The status: 0 where all is well."""
    program = sys.argv[1]
    wrong = []
    for index_sort in ("Bool", "(_ BitVec 1)"):
        wrong += compared(program, index_sort, sequences(BITS[index_sort], MOST))
    wrong += compared(program, "(_ BitVec 2)", plain(BITS["(_ BitVec 2)"]))
    wrong += told_apart(program, "U", ["(as @x U)", "(as @y U)"], True)
    wrong += told_apart(program, "Int", ["0", "(- 1)"], False)
    wrong += told_apart(program, "(_ BitVec 2)", ["#b00", "#b11"], False)
    for text in wrong[:SHOWN]:
        print("arrays: " + text)
    return 1 if wrong else 0


if __name__ == "__main__":
    sys.exit(main())
