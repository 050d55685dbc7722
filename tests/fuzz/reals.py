"""What dialogues with reals are made of: numbers as solvers print them, numbers at the bounds of what is known, and faults."""
from fractions import Fraction

from flaws import templates
from sorts import INTS, LOGICS, REALS, WIDE
from text import DECIMAL, Atom
from trees import listed, numeral, symbol

WITH_REALS = sorted(name for name, theories in LOGICS[WIDE].items() if REALS in theories)
# Logics with Reals and without Ints, and logics without Reals.
PURE = sorted(name for name in WITH_REALS if INTS not in LOGICS[WIDE][name])
LACKING = sorted(name for name in LOGICS[WIDE] if name not in WITH_REALS)
# Those that scripts have most.
USUAL = "QF_LRA QF_LRA QF_UFLRA QF_RDL QF_NRA QF_LIRA QF_UFLIRA QF_NIRA ALL ALL".split()

OPERATORS = "/ to_real to_int is_int".split()
ON_NUMBERS = "- + * / <= < >= > = distinct ite to_real to_int is_int".split()

# Numerators and denominators about the bounds of what is known.
NUMERATORS = [2**127 - 1, 2**127 - 2, 2**126, 2**126 + 1, 3**80, 2**120, 2**119, 2**64, 2**64 - 1, 2**63, 2**63 - 1, 10**37, 1, 1, 2, 3]
DENOMINATORS = [2**120 - 1, 2**120 - 2, 2**119, 3**75, 5**51, 10**36, 2**64, 2**64 - 1, 2**63, 2**63 - 1, 2**60, 2**59, 1, 2, 3, 7]
TOO_LARGE = [2**120, 2**120 + 1, 10**37, 2**127 - 1, 2**126]
SMALL = [1, 1, 2, 3, 4, 5, 7, 8, 10, 100]


def decimal(text):
    """A decimal."""
    return Atom(DECIMAL, text)


def printed(rng, number, ints):
    """A number as a solver prints it, where there are Ints or none."""
    n, d = abs(number.numerator), number.denominator
    below = number < 0
    if d == 1:
        if not ints and rng.random() < 0.3:
            tree = numeral(n)
        elif rng.random() < 0.8:
            tree = decimal("%d.0" % n)
        else:
            tree = listed("/", n, 1) if rng.random() < 0.5 or not ints else listed("to_real", n)
    elif rng.random() < 0.4:
        # As cvc5 does it: its sign is that of the numerator.
        return listed("/", listed("-", n) if below else n, d)
    elif rng.random() < 0.6 or 10**6 % d:
        tree = listed("/", decimal("%d.0" % n), decimal("%d.0" % d))
    else:
        places = next(places for places in range(7) if 10**places % d == 0) + rng.choice((0, 0, 1, 2))
        digits = str(n * 10**places // d).rjust(places + 1, "0")
        tree = decimal(digits[:-places] + "." + digits[-places:])
    return listed("-", tree) if below else tree


def usual(rng):
    """A number that is far from all bounds."""
    return Fraction(rng.choice((0, 1, 1, 2, 3, 5, 7, 10, 22, rng.randrange(1000))), rng.choice(SMALL)) * rng.choice((1, 1, -1))


def signed(rng, number):
    """An integer that is written with a sign or without; the lowest one needs two."""
    kind = rng.random()
    if kind < 0.1:
        return listed("-", listed("-", 2**127 - 1), 1)
    return numeral(number) if kind < 0.6 else listed("-", number)


def edge(rng):
    """A quotient near the bounds, or a decimal."""
    kind = rng.random()
    if kind < 0.25:
        return edge_decimal(rng)
    numerator = rng.choice(NUMERATORS) if kind < 0.9 else rng.getrandbits(rng.choice((100, 126, 127, 128)))
    denominator = rng.choice(DENOMINATORS if rng.random() < 0.85 else TOO_LARGE)
    return listed("/", signed(rng, numerator), signed(rng, denominator))


def edge_decimal(rng):
    """A decimal with many digits."""
    places = rng.choice((1, 2, 30, 35, 36, 36, 37, 37, 38, 38, 39, 40, 60))
    kind = rng.random()
    if kind < 0.3:
        digits = str(rng.choice((1, 2, 4, 5, 8, 16, 25, 125, 10, 100, 10**37, 10**38, 2 * 10**38, 0)))
    elif kind < 0.6:
        digits = str(rng.choice((2**127 - 1, 2**127, 2**127 - 2, 2**120, 10 * (2**127 // 10), 10**39)))
    else:
        digits = "".join(rng.choice("0123456789") for _ in range(rng.choice((3, 20, 37, 38, 39, 45))))
    digits = digits.rjust(places + 1, "0")
    whole = digits[:-places].lstrip("0") or "0"
    return decimal(whole + "." + digits[-places:])


def halves(rng):
    """Two quotients whose denominators have a product near a bound, so that a sum may be known or open."""
    bits = rng.choice((119, 120, 126, 126, 127, 127, 128))
    here = rng.randint(1, bits - 1)
    first, second = 2**here - rng.choice((0, 0, 1)), 2 ** (bits - here) - rng.choice((0, 0, 1))
    numerators = [rng.choice((1, 1, 3, 2 ** rng.randint(0, 126) + rng.choice((0, 1)), rng.choice(NUMERATORS))) for _ in range(2)]
    return [listed("/", signed(rng, numerator), max(1, d)) for numerator, d in zip(numerators, (first, second))]


def edge_term(rng, ints):
    """A term over numbers near the bounds, and whether it is a formula."""
    kind = rng.random()
    if kind < 0.15:
        return edge(rng), False
    numbers = halves(rng) if rng.random() < 0.5 else [edge(rng), edge(rng)]
    if rng.random() < 0.15:
        numbers.append(rng.choice((decimal("0.0"), decimal("1.0"), edge(rng))))
    rng.shuffle(numbers)
    if kind < 0.2:
        return listed("-", numbers[0]), False
    if kind < 0.7:
        return listed(rng.choice("+-*/"), *numbers), False
    if kind < 0.9 or not ints:
        return listed(rng.choice(("<", "<=", ">", ">=", "=", "distinct")), *numbers), True
    if kind < 0.95:
        return listed("to_real", listed("to_int", numbers[0])), False
    return listed("is_int", numbers[0]), True


# Divisions by zero. SOME stands for a right term of some sort.
BY_ZERO = templates(
    """
    (= (/ 1 0) (/ 1 0)) (< (/ 1.0 0.0) 1.0) (= (/ 0.0 0.0) 0.0) (<= (/ 1 2 0) 0) (= (* 0 (/ 1 0)) 0.0) (or true (= (/ 1 0) 1.0))
    (and false (= (/ 1 0) 1.0)) (= (ite true 1.5 (/ 1 0)) 1.5) (= (ite false 1.5 (/ 1 0)) 1.5) (= (/ 3 (- 0.5 0.5)) 3.0)
    (let ((z (/ 1.5 0))) true) (= (/ 6 3 0 2) 1.0) (distinct (/ 1 0) (/ 2 0)) (=> (= (/ 1 0) 1.0) true) (= (/ 2 (/ 0 5)) 2.0)
    (< 1.0 (/ 1 (- 0.0)))
    """
)
# Terms that mix the sorts of numbers, and may or not; NAME is a function of a real, CONSTANT a real.
MIXES = templates(
    """
    (= (NAME 2) (NAME 2.0)) (= (NAME 1.0) 1) (= (NAME (+ 1 1)) 0) (= (NAME (+ 1 1.0)) 0.0) (= 1 1.0) (= 1.5 2 2.0) (distinct 1 1.0 2)
    (= (ite true 1 2.5) 1) (= (ite false 1 2.5) 2.5) (< 1 1.5 2) (= (+ 1 0.5 2) 3.5) (= (- 1 0.5) (/ 1 2)) (= (* 2 1.5) 3) (= (/ 3 2) 1.5)
    (= (/ 4 2) 2) (= (- CONSTANT 1) (+ CONSTANT (- 1))) (let ((i 1) (r 1.0)) (= i r)) (= (NAME (ite true 1 2)) 0) (= (NAME (ite true 1 2.0)) 0)
    (= true 1.0) (ite true 1.5 false) (+ 1.5 true) (< 1.5 #b1) (= (NAME CONSTANT) 1) (distinct (NAME CONSTANT) CONSTANT 1) (= 1 true 1.0)
    """
)
# Terms that lack a theory or have a wrong sort.
FAULTS = templates(
    """
    (= (abs 1.5) 1.5) (= (abs (- 1)) 1) (= (div 1.5 2) 1) (= (div 3 2.0) 1) (= (mod 3.0 2) 1) ((_ divisible 2) 4.0) ((_ divisible 2) (to_int 4.5))
    (= (/ 1) 1.0) (= (/ true 1) 1.0) (= / 1.0) (= (to_int 1 2) 1) (= (to_int true) 1) (= (to_real 1.5) 1.5) (= (to_real true) 1.0) (is_int 1.5 2.5)
    (is_int true) is_int (is_int) (to_int) (/) (= ((_ / 1) 1 2) 1.0) (= (_ to_int 1) 1) (= ((_ to_real 2) 1) 1.0) (= (+ 1.5) 1.5) (= (* 1.5) 1.5)
    (< 1.5) (= 1.5) (- 1.5) (= (- true) 1.5) (mod 1.5) (bvadd 1.5 #b1) (= 1.5 #b1) (not 1.5) (and true 1.5) (ite 1.5 1 2) (ite true 1.5 true)
    (ite 1 1.5 2) (is_int (/ 1 2)) (= (to_int (- 1.5)) (- 2)) (= (to_real 1) 1.0) (let ((/ 2)) (= (/ 4 2) 2)) (let ((/ 2)) (= / 2))
    (root-obj (+ (^ 2 2) 1) 1) (= (^ 2 2) 4.0) (! 1.5 :named l) (= (! 1.5 :named l) 1.5) (as 1.5 Real) (forall ((x Real)) true) (1.5 2) ((/) 1 2)
    """
)
# The first of both are rarer otherwise: what needs integers, and what needs the very sort.
FAULTS += FAULTS[:7] * 2
MIXES += MIXES[:4] * 4
# Commands about the sort.
COMMANDS = templates(
    """
    (declare-const NAME Real) (declare-const NAME |Real|) (declare-fun NAME (Real Int) Real) (declare-fun NAME (Int) Real) (define-fun NAME () Real 2)
    (define-fun NAME () Real 2.0) (define-fun NAME () Int 2.0) (define-fun NAME () Real (+ 1 1)) (define-fun NAME () Real (+ 1 1.0))
    (define-fun NAME ((x Real)) Real x) (define-fun NAME ((x Int)) Real x) (define-fun NAME ((x Int)) Real (to_real x)) (define-const NAME Real 1.5)
    (define-fun NAME ((x Real)) Real (* 2 x)) (define-fun NAME ((x Real)) Int (to_int x)) (define-sort NAME () Real) (declare-const NAME (Real))
    (declare-const NAME (Real Int)) (declare-const NAME (_ Real 1)) (declare-const NAME (_ Real)) (declare-const NAME real) (define-fun NAME () Bool 1.5)
    (declare-fun NAME ((Array Int Real)) Real) (declare-const NAME Reals) (define-fun NAME () Real (/ 1 3))
    """
)


def filled(tree, names):
    """A template in which these symbols stand for others."""
    if type(tree) is list:
        return [filled(part, names) for part in tree]
    return symbol(names[tree.text]) if tree.text in names else tree
