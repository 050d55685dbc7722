"""What dialogues with conversions and overflow predicates are made of: values at the corners, faults, names that are operators or free."""
from flaws import templates
from operators import FROM_INTS, ON_OVERFLOW, TO_INTS, operators_in
from sorts import BITS, BOOL, INTS, LOGICS, THEORIES, WIDE
from terms import check_definition
from text import is_symbol
from trees import copied, indexed, keyword, listed, numeral, symbol, word

OVERFLOWS = sorted(ON_OVERFLOW)
CONVERSIONS = sorted(TO_INTS) + sorted(FROM_INTS)
# All names of operators, by which free names are called where they are none.
OPERATORS = OVERFLOWS + CONVERSIONS

WITH_BITS = sorted(name for name, theories in LOGICS[WIDE].items() if BITS in theories)
# Logics with bit vectors and without Ints, and logics without bit vectors.
PURE = sorted(name for name in WITH_BITS if INTS not in LOGICS[WIDE][name])
LACKING = sorted(name for name in LOGICS[WIDE] if name not in WITH_BITS)
# Those with both, as scripts have them.
BOTH = "ALL ALL ALL QF_BVLIA QF_UFBVLIA BVNIA QF_AUFBVLIA QF_ABVLIA ALL_SUPPORTED".split()
USUAL = BOTH + "QF_BV QF_BV QF_UFBV QF_ABV".split()

WIDTHS = [1, 1, 2, 3, 4, 8, 32, 63, 64, 65, 127, 127, 128, 128]
# Those of which the second validator counts that they were reached.
CORNERS = (1, 63, 64, 65, 127, 128)


def corner(rng, width):
    """A number of so many bits, mostly the least, the largest or one next to them."""
    half, root = 1 << (width - 1), 1 << (width // 2)
    numbers = (0, 1, 2, -1, -2, half, half + 1, half - 1, half - 2, root, root - 1, root + 1, -root, rng.getrandbits(width))
    return rng.choice(numbers) % (1 << width)


def pair(rng, width):
    """Two numbers of so many bits, whose sum, product or difference is near a bound, mostly."""
    half, top = 1 << (width - 1), 1 << width
    kind = rng.random()
    first = corner(rng, width) if rng.random() < 0.5 else rng.getrandbits(rng.randint(1, width))
    step = rng.choice((-1, 0, 0, 1))
    if kind < 0.3:
        second = corner(rng, width)
    elif kind < 0.55:
        second = rng.choice((top, top, half, half, top - 1, half - 1, half + 1)) // max(1, first) + step
    elif kind < 0.65:
        # Products that are small again modulo 2^128, or nearly as many bits as there are.
        here = rng.randrange(width)
        first, second = 1 << here, 1 << min(width - 1, max(0, rng.choice((width - 2, width - 1, width, 128)) - here))
    elif kind < 0.85:
        second = rng.choice((top, half, half, 0)) - first + step
    else:
        second = first + rng.choice((0, half, -half)) + step
    signs = rng.choice(((1, 1), (1, 1), (-1, 1), (1, -1), (-1, -1)))
    return signs[0] * first % top, signs[1] * second % top


def integer(rng, width):
    """An integer about the bounds of a width, or of what is known."""
    half, top = 1 << (width - 1), 1 << width
    number = rng.choice((0, 1, 2, 3, 5, half, half - 1, half + 1, top, top - 1, top + 1, 2 * top + 3, rng.getrandbits(rng.randint(1, 127))))
    number = rng.choice((number, number, 2**127 - 1, 2**127 - 2, 2**126, 2**64, 2**64 - 1, 2**64 + 1, 10**38, rng.randrange(1000)))
    kind = rng.random()
    if kind < 0.08:
        # The lowest that is known, and the first that are not.
        lowest = listed("-", listed("-", 2**127 - 1), rng.choice((1, 1, 1, 2)))
        return lowest if rng.random() < 0.8 else numeral(2**127)
    return numeral(min(number, 2**127 - 1)) if kind < 0.55 else listed("-", min(number, 2**127 - 1))


# What the profile `wide` has to reach, and what both have to.
KINDS = ["operator " + name for name in OPERATORS]
KINDS += ["wide: %s %s" % (name, value) for name in OVERFLOWS for value in ("true", "false")]
KINDS += ["wide: %s of %d bits" % (kind, width) for kind in ("overflow", "conversion") for width in CORNERS]
KINDS += ["wide: %s of a number %s" % (name, size) for name in FROM_INTS for size in ("below 0", "too large")]
KINDS += ["wide: " + what for what in (
    "open by ubv_to_int", "open by bv2nat", "sbv_to_int below 0", "sbv_to_int of the lowest integer", "a conversion without Ints, F3",
    "a conversion without bit vectors, F3", "an overflow predicate without bit vectors, F3", "a wrong index of int_to_bv, F5",
    "a wrong index of int2bv, F5", "arguments of an overflow predicate, F4", "arguments of a conversion, F4",
)]
KINDS += [
    "wide: %s by the name of an overflow predicate or a conversion, F7" % what for what in ("a declaration", "a definition", "a label", "an item")
]
FREE = ["free name of a conversion or an overflow predicate: " + what for what in ("a declared name", "a definition", "a label")]

# Terms that are open, or decided though a part of them is open. BIG stands for a number of 128 bits that is no known integer.
OPENED = templates(
    """
    (= (ubv_to_int BIG) (ubv_to_int BIG)) (= (bv2nat BIG) (ubv_to_int BIG)) (> (bv2nat BIG) 0) (< (ubv_to_int BIG) 0)
    (or true (< (bv2nat BIG) 0)) (or (< (bv2nat BIG) 0) (= 1 2)) (and false (= (bv2nat BIG) 1)) (and (= (ubv_to_int BIG) 1) true)
    (ite true true (= (ubv_to_int BIG) 0)) (ite (< (bv2nat BIG) 0) true true) (= (ite false (bv2nat BIG) 7) 7) (= (ite true (bv2nat BIG) 7) 7)
    (=> (= (bv2nat BIG) 0) true) (=> false (= (ubv_to_int BIG) 0)) (=> true (= (ubv_to_int BIG) 0)) (= ((_ int2bv 128) (bv2nat BIG)) BIG)
    (= ((_ int_to_bv 1) (ubv_to_int BIG)) #b1) (<= (sbv_to_int BIG) 0) (= (sbv_to_int BIG) (sbv_to_int BIG)) (let ((n (bv2nat BIG))) true)
    (let ((n (ubv_to_int BIG))) (or (= n 0) true)) (= (+ (bv2nat BIG) 1) 0) (= (- (ubv_to_int BIG)) 0) (bvnego ((_ int2bv 8) (ubv_to_int BIG)))
    (bvuaddo BIG BIG) (bvusubo BIG BIG) (bvsaddo BIG BIG) (xor true (= (bv2nat BIG) 0)) (not (= (ubv_to_int BIG) 0)) (distinct (bv2nat BIG) 0 0)
    (= (bv2nat (bvnot BIG)) (- (- (sbv_to_int BIG)) 1)) (= (* 0 (bv2nat BIG)) 0) (= (ite (bvnego BIG) 1 2) 1) (= (mod (ubv_to_int BIG) 2) 0)
    (= (bv2nat ((_ extract 126 0) BIG)) (bv2nat ((_ extract 126 0) BIG))) ((_ divisible 2) (bv2nat BIG)) (= (abs (sbv_to_int BIG)) 1)
    """
)
# Terms that lack an argument, have one too many, one of a wrong sort or width, or a wrong index; or nearly. V stands for a vector, N for an
# integer, OVERFLOW and BINARY for predicates, TO and FROM for conversions, I for an index that is right.
FAULTS = templates(
    """
    (bvnego V V) (BINARY V) (BINARY V V V) (BINARY #b1 #b11) (BINARY #xff #b1) (OVERFLOW N) (BINARY V N) (BINARY N N) (OVERFLOW true) (bvnego)
    OVERFLOW (OVERFLOW) (= TO TO) (TO V) (= (TO V V) 0) (= (TO N) 0) (= (TO true) 0) (= (TO 1.5) 0) (TO) (= (TO V) V) (= (TO V) 1.5)
    (= ((_ FROM 8) V) #x00) (= ((_ FROM 8) 1.0) #x00) (= ((_ FROM 8) true) #x00) (= ((_ FROM 8) 1 2) #x00) (= ((_ FROM 8)) #x00) (_ FROM 8)
    (= (_ FROM 8) #x00) ((_ FROM 8) 1) (= ((_ FROM 8) 3) #b1) (= ((_ FROM 0) 3) #x03) (= ((_ FROM 129) 3) #x03) (= ((_ FROM n) 3) #x03)
    (= ((_ FROM 8 8) 3) #x03) (= ((_ FROM 18446744073709551616) 3) #x03) (= ((_ FROM 18446744073709551615) 3) #x03) (= ((_ FROM) 3) #x03)
    (= ((_ FROM "8") 3) #x03) (= ((_ FROM (8)) 3) #x03) (= ((_ FROM -8) 3) #x03) (= (FROM 3) #x03) (= FROM #x03) (= (FROM 8 3) #x03) (_ FROM 0)
    (= ((_ FROM 0) true) #x03) (= ((_ FROM n) V) #x03) (= ((_ FROM 0) unknown) #x03) (= ((_ OVERFLOW 8) V V) true) (= ((_ TO 8) V) 1) (_ TO 8)
    (= (TO (BINARY V V)) 0) (= (TO ((_ FROM I) N)) N) (= ((_ FROM I) (TO V)) ((_ FROM I) N)) (BINARY ((_ FROM 8) N) #x80) (not (OVERFLOW N))
    (let ((bvnego true)) bvnego) (let ((bv2nat 1)) (bv2nat V)) (let ((int2bv 1)) (= ((_ int2bv 8) int2bv) #x01)) (= (TO #b1 1) 0) (and OVERFLOW)
    (= ((_ FROM 128) N) ((_ FROM 127) N)) (concat ((_ FROM 128) N) #b1) (= (bvadd ((_ FROM 128) N) ((_ FROM 128) 1)) ((_ FROM 128) N))
    (= ((_ FROM 8) (+ 1 1.5)) #x02) (! (BINARY V V) :named bvsaddo) (! (BINARY V V) :named int2bv) (forall ((x Int)) (bvnego x)) (as bv2nat Int)
    """
)

# The first of them are rarer otherwise.
FAULTS += FAULTS[:21]


def filled(rng, tree, inventor):
    """A template in which symbols stand for right terms and names."""
    if type(tree) is list:
        return [filled(rng, part, inventor) for part in tree]
    text = tree.text if is_symbol(tree) else None
    if text == "BIG":
        return inventor.vector(rng.choice((2**127, 2**127, 2**127 + 1, 2**128 - 1, 2**127 + rng.getrandbits(127))), 128)
    if text == "V":
        return inventor.vector(corner(rng, 8), 8) if rng.random() < 0.7 else inventor.term(8, 2, {})
    if text == "N":
        return integer(rng, 8) if rng.random() < 0.8 else numeral(rng.randrange(300))
    if text == "I":
        return numeral(8 if rng.random() < 0.6 else rng.choice(WIDTHS))
    kinds = {"OVERFLOW": OVERFLOWS, "BINARY": OVERFLOWS[1:], "TO": sorted(TO_INTS), "FROM": FROM_INTS}
    return symbol(rng.choice(kinds[text])) if text in kinds else tree


# How many seeds in a row aim at what; in `base` these names are free.
COUNTS = {"overflow": 18, "conversion": 17, "opened": 12, "misfit": 24, "want": 10, "named": 19, "used": 8}
COUNTS_IN_BASE = {"named": 26, "used": 13}


class ConversionAims:
    """What the stories of a profile may aim at; the aims that need bit vectors do nothing where there are none."""

    def aim_now(self):
        """What the seed aims at."""
        if self.aim == "conversion":
            # Where a fault ends the report, it comes behind things that are right, or that the solver refused.
            for _ in range(3 if self.what in ("misfit", "want", "named", "used") else 1):
                if not self.over:
                    getattr(self, "aim_at_" + self.what)()
                self.turn += 29
        else:
            super().aim_now()

    def begin_with(self, logics):
        """The start again, in one of these logics or in none; whether the script goes on."""
        self.do(listed("reset"))
        if not self.over and self.rng.random() < 0.85:
            # A solver that knows the logic, so that it is set.
            self.do(listed("set-logic", self.rng.choice(logics)), symbol("success") if self.force.print_success else None)
        return not self.over

    def new_name(self):
        """A name that was not used."""
        self.fresh += 1
        return "r%d" % self.fresh

    def assert_and_check(self, tree, keep=False):
        """An assertion of a term, or of what it is equal to, and a check with a right model."""
        if not self.over:
            self.assert_tree(self.exact(tree), keep)
        self.check_numbers()

    def check_numbers(self):
        """A check with a right model, or with one in which a value is another."""
        self.right_check(["wrong"] * self.rng.choice((0, 0, 1, 2)))

    def has(self, *theories):
        """Whether the script goes on, and these theories are in force."""
        return not self.over and self.force.theories.issuperset((WIDE,) + theories)

    def vector_of(self, number, width):
        """A term of this value: a literal, or a constant that has it in the secret model."""
        name = self.new_name()
        if self.rng.random() < 0.5:
            self.do(listed("declare-const", name, self.inventor().sort_tree(width)))
            if not self.over and name in self.secret:
                tree = [word("define-fun"), symbol(name), [], self.inventor().sort_tree(width), self.inventor().vector(number, width)]
                self.secret[name] = (tree, *check_definition(self.model_context(), *tree[2:]))
                return symbol(name)
        return self.inventor().vector(number, width)

    def aim_at_overflow(self):
        """A predicate at values where it is true, and at values where it is false."""
        rng = self.rng
        if self.turn % 4 or self.over:
            self.begin_with(USUAL)
        for place, name in enumerate((OVERFLOWS + OVERFLOWS)[self.turn % 8 :][:3]):
            width = CORNERS[self.turn % 6] if place == 0 else rng.choice(WIDTHS)
            for wanted in (True, False):
                self.assert_overflow(name, wanted, width)
        self.check_numbers()

    def assert_overflow(self, name, wanted, width):
        """That a predicate is true, or false, at some values; and a check that assumes it."""
        rng = self.rng
        count = 1 if name == "bvnego" else 2
        for _ in range(60):
            values = list(pair(rng, width))[:count]
            if name == "bvsdivo" and rng.random() < 0.2:
                values = [1 << (width - 1), (1 << width) - 1]
            if ON_OVERFLOW[name].value(values, [width] * count) is wanted:
                break
        tree = [symbol(name)]
        for value in values:
            tree.append(self.vector_of(value, width) if self.has(BITS) else symbol("true"))
        if self.has(BITS):
            self.assert_tree(self.exact(tree) if rng.random() < 0.5 else tree, self.chance(0.1))
        if self.has(BITS) and rng.random() < 0.05:
            self.assume(tree)

    def assume(self, term):
        """A check that assumes a formula or its negation."""
        self.right_check([], self.check_of([copied(term) if self.rng.random() < 0.5 else listed("not", copied(term))]))

    def aim_at_conversion(self):
        """A conversion of a number at a corner, or there and back."""
        rng = self.rng
        if self.turn % 4 or self.over:
            self.begin_with(BOTH)
        for place, name in enumerate((CONVERSIONS + CONVERSIONS)[self.turn % 5 :][:4]):
            if self.has(BITS, INTS):
                self.assert_conversion(name, CORNERS[(self.turn + place) % 6] if place % 2 == 0 else rng.choice(WIDTHS))
        self.check_numbers()

    def assert_conversion(self, name, width):
        """What a conversion makes of a number at a corner, or of one there and back."""
        rng = self.rng
        if name in FROM_INTS:
            tree = [indexed(name, width), integer(rng, width)]
            if rng.random() < 0.3:
                tree = listed(rng.choice(sorted(TO_INTS)), tree)
        else:
            lowest = name == "sbv_to_int" and rng.random() < 0.2
            width = 128 if lowest else width
            tree = [symbol(name), self.vector_of(2**127 if lowest else corner(rng, width), width)]
            if rng.random() < 0.3:
                tree = [indexed(rng.choice(FROM_INTS), rng.choice(WIDTHS)), tree]
        if self.has(BITS, INTS):
            self.assert_tree(self.exact(tree), rng.random() < 0.5)

    def aim_at_opened(self):
        """A number of 128 bits that is no known integer, which decides or not."""
        if self.begin_with(BOTH) and self.has(BITS, INTS):
            tree = filled(self.rng, OPENED[self.turn % len(OPENED)], self.inventor())
            self.assert_and_check(tree, self.rng.random() < 0.8)

    def aim_at_misfit(self):
        """A wrong count of arguments, a wrong sort, a wrong width or a wrong index, or nearly."""
        if self.rng.random() < 0.7:
            self.begin_with(BOTH if self.rng.random() < 0.8 else USUAL)
        if not self.over:
            tree = filled(self.rng, FAULTS[self.turn % len(FAULTS)], self.inventor())
            if self.rng.random() < 0.2:
                tree = self.inventor().spoiled(self.inventor().term(BOOL, 4, {}), tree)
            self.assert_tree(tree)
        self.check_numbers()

    def aim_at_want(self):
        """An operator where a theory that it needs is not there."""
        rng = self.rng
        if not self.begin_with((PURE, LACKING, LACKING)[self.turn % 3]):
            return
        tree = filled(rng, rng.choice(FAULTS[:30] + OPENED), self.inventor())
        if self.turn % 3 == 0:
            # What lacks Ints alone.
            tree = rng.choice((listed("=", [symbol(rng.choice(CONVERSIONS[:3])), symbol("v")], "v"), [indexed("int2bv", 8), symbol("v")]))
            tree = [word("let"), [[symbol("v"), self.inventor().vector(3, 8)]], tree]
        elif self.turn % 3 == 2:
            tree = [symbol(rng.choice(OPERATORS))] + [symbol("true")] * rng.choice((1, 2))
        if self.turn // 3 % 3 == 0:
            item = [word("define-fun"), symbol("extra.item"), [], symbol("Bool"), tree]
            self.sat_with(lambda items: self.put(items, item))
        else:
            self.assert_tree(tree)

    def aim_at_named(self):
        """A new name that is an operator's, or is free in this logic or profile; and its use."""
        rng = self.rng
        name = symbol(OPERATORS[self.turn % len(OPERATORS)])
        kind = self.turn % 6
        if self.PROFILE == WIDE and not self.begin_with(rng.choice((USUAL, PURE, LACKING))):
            return
        self.take(name, kind)
        if kind == 4:
            self.do(listed("assert", [word("let"), [[name, symbol("true")]], rng.choice((name, [name, symbol("true")]))]))
        use = rng.choice((name, [name, symbol("true")], [name, self.inventor().leaf(self.inventor().sort(), {})]))
        if not self.over and rng.random() < 0.6 and kind < 5:
            self.do(listed("assert", listed("or", use, listed("not", copied(use)))))
        if self.over:
            return
        if kind < 5:
            self.check_numbers()
        else:
            item = [word("define-fun"), name, [], symbol("Bool"), symbol("true")]
            self.right_check()
            if not self.over:
                self.do(listed("check-sat"), symbol("sat"))
                self.do(listed("get-model"), [item] + self.model([]))

    def aim_at_used(self):
        """An item whose body uses an operator, or a name of an item that is one's."""
        rng = self.rng
        if self.PROFILE == WIDE and not self.begin_with(rng.choice((USUAL, PURE, LACKING))):
            return
        inventor = self.inventor()
        names = OVERFLOWS if rng.random() < 0.5 else OPERATORS
        name = names[self.turn % len(names)]
        if name in operators_in(THEORIES[WIDE]) and rng.random() < 0.7:
            width = rng.choice(WIDTHS)
            count = 2 if name in OVERFLOWS[1:] else 1
            body = [symbol(name)] + [inventor.vector(corner(rng, width), width) for _ in range(count)]
        else:
            body = [indexed(name, rng.choice(WIDTHS)), integer(rng, 8)]
        body = listed("=", body, copied(body)) if name not in OVERFLOWS else body
        items = [[word("define-fun"), symbol("extra.item"), [], symbol("Bool"), body]]
        if rng.random() < 0.3:
            items.insert(0, [word("define-fun"), symbol(name), [listed("x", "Bool")], symbol("Bool"), symbol("x")])
        if not self.over:
            self.do(listed("check-sat"), symbol("sat"))
        if not self.over:
            self.do(listed("get-model"), self.model([]) + items)
