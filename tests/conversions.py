"""conversions.py PROGRAM: overflow predicates and conversions of the profile `wide` beside the arithmetic of Python's integers.

Each term has a value by Python, or is open. One script asserts all values, and is confirmed; in another each check assumes that a term has not
its value, and is refuted. Says what is wrong, or nothing.
"""
import itertools
import sys

from reports import lines_of

HIGHEST = 2**127 - 1
SMALL, WIDE = (1, 2, 3, 4), (63, 64, 65, 127, 128)
# The widths that integers are converted to.
TO_WIDTHS = (1, 4, *WIDE)
# How many wrong lines are told.
SHOWN = 20


def signed(number, width):
    """The signed reading."""
    return number - 2**width if number >= 2 ** (width - 1) else number


def truncated(dividend, divisor):
    """A quotient rounded towards 0; there is none by 0."""
    if divisor == 0:
        return 0
    quotient = abs(dividend) // abs(divisor)
    return quotient if (dividend < 0) == (divisor < 0) else -quotient


# Of each predicate the result that has to fit, and whether it is one of signed readings.
UNARY = {"bvnego": (lambda s: -s, True)}
BINARY = {
    "bvuaddo": (lambda s, t: s + t, False),
    "bvumulo": (lambda s, t: s * t, False),
    "bvusubo": (lambda s, t: s - t, False),
    "bvsaddo": (lambda s, t: s + t, True),
    "bvsmulo": (lambda s, t: s * t, True),
    "bvssubo": (lambda s, t: s - t, True),
    "bvsdivo": (truncated, True),
}


def overflows(result, of_signed, numbers, width):
    """Whether the result of some vectors does not fit."""
    least, most = (-(2 ** (width - 1)), 2 ** (width - 1) - 1) if of_signed else (0, 2**width - 1)
    return not least <= result(*[signed(number, width) if of_signed else number for number in numbers]) <= most


def vector(number, width):
    """A bit vector, in one of three spellings."""
    if width % 4 == 0:
        return "#x%0*x" % (width // 4, number)
    return "#b{:0{}b}".format(number, width) if width < 65 else "(_ bv%d %d)" % (number, width)


def integer(number):
    """A term that is known to be this number: the numeral of the lowest without its sign would be open."""
    if number >= 0:
        return str(number)
    return "(- %d)" % -number if -number <= HIGHEST else "(- (- %d) 1)" % HIGHEST


def corners(width):
    """The numbers of a width at which arithmetic changes."""
    half, root = 2 ** (width - 1), 2 ** (width // 2)
    numbers = [0, 1, 2, -1, -2, half, half + 1, half - 1, half - 2, root, root - 1, root + 1, -root, 2 * root, root // 2, 3, half // 3, 2**width // 3]
    # Powers of two: products of them are near the bounds, or over 128 bits.
    numbers += [2**power for power in (31, 32, 62, 63, 64, 65, 126) if power < width] + [-(2**power) for power in (32, 63, 64) if power < width]
    return sorted({number % 2**width for number in numbers})


def predicates(width, pairs):
    """The predicates at all these pairs of numbers, and whether they are true."""
    for name, (result, of_signed) in UNARY.items():
        for number in sorted({number for number, _ in pairs}):
            yield "(%s %s)" % (name, vector(number, width)), overflows(result, of_signed, (number,), width)
    for name, (result, of_signed) in BINARY.items():
        for pair in pairs:
            terms = " ".join(vector(number, width) for number in pair)
            yield "(%s %s)" % (name, terms), overflows(result, of_signed, pair, width)


def conversions_of(number, width):
    """What is made of a vector, there and back, as terms and values: a value is an integer, a vector with its width, or None if it is open."""
    term = vector(number, width)
    reading = signed(number, width)
    known = number if number <= HIGHEST else None
    yield "(ubv_to_int %s)" % term, known
    yield "(bv2nat %s)" % term, known
    yield "(sbv_to_int %s)" % term, reading
    for back in TO_WIDTHS:
        made = None if known is None else (known % 2**back, back)
        yield "((_ int_to_bv %d) (bv2nat %s))" % (back, term), made
        yield "((_ int2bv %d) (ubv_to_int %s))" % (back, term), made
        yield "((_ int2bv %d) (sbv_to_int %s))" % (back, term), (reading % 2**back, back)


def conversions_from(number):
    """What is made of an integer, there and back."""
    for width in TO_WIDTHS:
        made = number % 2**width
        for name in ("int_to_bv", "int2bv"):
            term = "((_ %s %d) %s)" % (name, width, integer(number))
            yield term, (made, width)
            yield "(ubv_to_int %s)" % term, made if made <= HIGHEST else None
            yield "(sbv_to_int %s)" % term, signed(made, width)


def integers():
    """The integers that are converted: about powers of two, and the bounds of what is known."""
    powers = [2**power for power in (1, 2, 3, 4, 31, 32, 62, 63, 64, 65, 126)]
    near = [power + step for power in powers for step in (-1, 0, 1)] + [0, 1, 10**38, 3**80, HIGHEST, HIGHEST - 1]
    return sorted({sign * number for number in near for sign in (1, -1)} | {-HIGHEST - 1})


def products(width):
    """Pairs whose product is next to a bound: a number, and the quotient of a bound by it."""
    bounds = [2**width, 2 ** (width - 1)]
    for number, bound, step in itertools.product(corners(width), bounds, (-1, 0, 1)):
        for sign in (1, -1):
            if number:
                yield number, sign * (bound // number + step) % 2**width


def equal(term, value):
    """That a term has a value."""
    return "(= %s %s)" % (term, integer(value) if isinstance(value, int) else vector(*value))


def cases():
    """Formulas that are true, and terms that are open."""
    true, opened = [], []
    for width in SMALL + WIDE:
        numbers = range(2**width) if width in SMALL else corners(width)
        pairs = list(itertools.product(numbers, repeat=2))
        if width in WIDE:
            pairs = sorted({*pairs, *products(width)})
        true += [term if value else "(not %s)" % term for term, value in predicates(width, pairs)]
        found = [pair for number in numbers for pair in conversions_of(number, width)]
        true += [equal(term, value) for term, value in found if value is not None]
        opened += [term for term, value in found if value is None]
    found = [pair for number in integers() for pair in conversions_from(number)]
    true += [equal(term, value) for term, value in found if value is not None]
    opened += [term for term, value in found if value is None]
    return true, opened


def main():
    """The status: 0 where all is well."""
    program = sys.argv[1]
    true, opened = cases()
    ask = "(get-model)\n"
    wrong = []
    script = "".join("(assert %s)\n" % term for term in true) + "(check-sat)" + ask
    found = lines_of(program, script, "sat ()")[:1]
    if found != ["check 1 at command %d: sat, confirmed" % (len(true) + 1)]:
        wrong.append("all assertions: %s" % found)
    # What is assumed, and what its check's line ends with.
    assumed = [("(not %s)" % term, "refuted by assumption 1") for term in true]
    assumed += [("(%s %s %s)" % (word, term, term), "assumption 1 not decided") for term in opened for word in ("=", "distinct")]
    script = "".join("(check-sat-assuming (%s))%s" % (term, ask) for term, _ in assumed)
    found = lines_of(program, script, "sat ()\n" * len(assumed))
    if len(found) != len(assumed) + 1:
        wrong.append("%d lines for %d checks: %s" % (len(found), len(assumed), found[-2:]))
    for number, ((term, end), line) in enumerate(zip(assumed, found), 1):
        if line != "check %d at command %d: sat, model of command %d: %s" % (number, 2 * number - 1, 2 * number, end):
            wrong.append("%s: %s" % (term, line))
    for text in wrong[:SHOWN]:
        print("conversions: " + text)
    if len(true) < 20000 or len(opened) < 100:
        print("conversions: only %d formulas, and %d open terms" % (len(true), len(opened)))
        return 1
    return 1 if wrong else 0


if __name__ == "__main__":
    sys.exit(main())
