"""Values and what operators make of them.

A truth value is a bool, an integer an int, a real that is no integer a Fraction, a bit vector the number that it is. What is not known is
OPEN. Each function takes the list of the values of its arguments, all of them known but where it is said, and what else it needs by name.
"""
from collections import namedtuple
from fractions import Fraction


class Open:
    """The value of a term that is not known."""

    def __repr__(self):
        return "open"


OPEN = Open()
# An element of a declared sort, by its name.
Abstract = namedtuple("Abstract", "name")
LOWEST, HIGHEST = -(2**127), 2**127 - 1
# The denominators of known reals, and how many digits a known decimal may have behind the point.
LARGEST_DENOMINATOR = 2**120 - 1
MOST_PLACES = 38


def element(name):
    """The element of this name."""
    return Abstract(name)


def known(number):
    """An integer, if it is in the range where integers are known."""
    return number if LOWEST <= number <= HIGHEST else OPEN


def from_left(step):
    """An operator that takes its arguments from the left; an open step leaves all open."""

    def operate(values):
        result = values[0]
        for value in values[1:]:
            result = step(result, value)
            if result is OPEN:
                return OPEN
        return result

    return operate


def neighbours(holds):
    """A relation between each value and the next."""
    return lambda values: all(holds(x, y) for x, y in zip(values, values[1:]))


# Truth values. These four take open arguments.


def conjunction(values):
    """False where one is known to be false."""
    return False if False in values else OPEN if OPEN in values else True


def disjunction(values):
    """True where one is known to be true."""
    return True if True in values else OPEN if OPEN in values else False


def implication(values):
    """True where the last is known to be true, or one before it to be false."""
    if values[-1] is True or False in values[:-1]:
        return True
    return OPEN if OPEN in values else False


def choice(values):
    """The branch that a known condition chooses."""
    return OPEN if values[0] is OPEN else values[1] if values[0] else values[2]


def distinct(values):
    """No two are equal."""
    return len(set(values)) == len(values)


# Integers.


def negation(values):
    """Unary minus."""
    return known(-values[0])


def absolute(values):
    """The integer without its sign."""
    return known(abs(values[0]))


def remainder_of(dividend, divisor):
    """The remainder, from 0 to below the divisor without its sign."""
    return dividend % abs(divisor) if divisor else OPEN


def quotient_of(dividend, divisor):
    """The quotient that goes with that remainder."""
    return known((dividend - remainder_of(dividend, divisor)) // divisor) if divisor else OPEN


# Reals. A real that is an integer is that integer: each number has one form, in lowest terms.


def ratio(numerator, denominator, *parts):
    """The quotient of two integers, if both and all other parts of the step to it are in range, and its denominator in lowest terms is."""
    if any(known(part) is OPEN for part in (numerator, denominator, *parts)):
        return OPEN
    result = Fraction(numerator, denominator)
    if result.denominator > LARGEST_DENOMINATOR:
        return OPEN
    return result.numerator if result.denominator == 1 else result


def terms(x, y):
    """Numerator and denominator of one number, and those of another."""
    return x.numerator, x.denominator, y.numerator, y.denominator


def sum_of(x, y):
    """The sum of two numbers."""
    a, b, c, d = terms(x, y)
    return ratio(a * d + c * b, b * d, a * d, c * b)


def difference_of(x, y):
    """The difference of two numbers."""
    a, b, c, d = terms(x, y)
    return ratio(a * d - c * b, b * d, a * d, c * b)


def product_of(x, y):
    """The product of two numbers."""
    a, b, c, d = terms(x, y)
    return ratio(a * c, b * d)


def real_quotient_of(x, y):
    """The quotient of two numbers; the sign of the divisor goes to the numerator."""
    a, b, c, d = terms(x, y)
    if c == 0:
        return OPEN
    return ratio(a * d, b * c) if c > 0 else ratio(-a * d, -b * c)


def negative(values):
    """Unary minus."""
    return ratio(-values[0].numerator, values[0].denominator)


def greatest_integer(values):
    """to_int: the greatest integer that is not above the number."""
    return values[0].numerator // values[0].denominator


def is_integer(values):
    """is_int: whether the number is an integer."""
    return values[0].denominator == 1


def decimal(text):
    """The number that a decimal spells."""
    whole, behind = text.split(".")
    digits = int(whole + behind)
    return OPEN if digits > HIGHEST or len(behind) > MOST_PLACES else ratio(digits, 10 ** len(behind))


# Bit vectors of m bits.


def signed(number, m):
    """The signed reading."""
    return number - (1 << m) if number >> (m - 1) else number


def folded(m, step):
    """From the left, modulo 2^m."""
    return from_left(lambda x, y: step(x, y) % (1 << m))


def divide(values, m):
    """bvudiv."""
    return values[0] // values[1] if values[1] else (1 << m) - 1


def remain(values):
    """bvurem."""
    return values[0] % values[1] if values[1] else values[0]


def divide_signed(values, m):
    """bvsdiv: rounded towards 0."""
    s, t = signed(values[0], m), signed(values[1], m)
    if t == 0:
        return 1 if s < 0 else (1 << m) - 1
    quotient = abs(s) // abs(t)
    return (quotient if (s < 0) == (t < 0) else -quotient) % (1 << m)


def remain_signed(values, m):
    """bvsrem: the remainder with the sign of the dividend."""
    s, t = signed(values[0], m), signed(values[1], m)
    if t == 0:
        return values[0]
    remainder = abs(s) % abs(t)
    return (-remainder if s < 0 else remainder) % (1 << m)


def modulo_signed(values, m):
    """bvsmod: the remainder with the sign of the divisor."""
    s, t = signed(values[0], m), signed(values[1], m)
    return (s % t if t else s) % (1 << m)


def shift_left(values, m):
    """bvshl."""
    return (values[0] << values[1]) % (1 << m) if values[1] < m else 0


def shift_right(values, m):
    """bvlshr."""
    return values[0] >> values[1] if values[1] < m else 0


def shift_right_signed(values, m):
    """bvashr: copies of the first bit come in."""
    return (signed(values[0], m) >> min(values[1], m)) % (1 << m)


def joined(values, widths):
    """concat: the first is the highest part."""
    result = 0
    for value, width in zip(values, widths):
        result = (result << width) | value
    return result


def extracted(values, high, low):
    """Bits high down to low."""
    return (values[0] >> low) % (1 << (high - low + 1))


def extended_signed(values, m, more):
    """Copies of the first bit before the argument."""
    return signed(values[0], m) % (1 << (m + more))


def beyond(number, m):
    """Whether no bit vector is this number."""
    return not 0 <= number < 1 << m


def beyond_signed(number, m):
    """Whether no signed reading is this number."""
    return not -(1 << (m - 1)) <= number < 1 << (m - 1)


def division_overflows(values, m):
    """bvsdivo: whether the quotient of the signed readings, rounded towards 0, is none; by 0 it is not asked."""
    s, t = signed(values[0], m), signed(values[1], m)
    if t == 0:
        return False
    return beyond_signed(abs(s) // abs(t) * (1 if (s < 0) == (t < 0) else -1), m)


def rotated_left(values, m, places):
    """The bits go to the left, and come in at the right."""
    places %= m
    return ((values[0] << places) | (values[0] >> (m - places))) % (1 << m)
