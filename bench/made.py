"""Dialogues that are made together with their answers: a model is chosen, and each assertion is made so that it is true there.

Each function of KINDS tells a dialogue a script of about so many bytes. Where a solver could not find the model in any time, the script
says the values of its constants too (`known`): what is left to do is to read and to evaluate.
"""
from collections import namedtuple
from fractions import Fraction

WIDTHS = (1, 7, 8, 16, 32, 33, 64, 128)
DEEP = 980  # lists may be 1,000 deep
LEVELS = 9999  # there may be 10,000 levels, the first one among them
LONG = 10000  # bytes of a long name

# A constant or a variable: its sort is "Bool", "Int", "Real", or the width of its vectors.
Named = namedtuple("Named", "name sort value")


class Dialogue:
    """A script and the answers to it, as they are written to two files."""

    def __init__(self, script, answers):
        self.script, self.answers = script, answers
        self.size = self.checks = 0

    def say(self, *commands):
        for command in commands:
            self.size += self.script.write(command + "\n")

    def declare(self, constants, known=False):
        for constant in constants:
            self.say("(declare-const %s %s)" % (constant.name, sort_text(constant.sort)))
            if known:
                self.say("(assert (= %s %s))" % (constant.name, literal(constant.value, constant.sort)))

    def check(self, constants):
        self.say("(check-sat)", "(get-model)")
        self.checks += 1
        self.answers.write("sat\n(\n")
        for name, sort, value in constants:
            self.answers.write("  (define-fun %s () %s %s)\n" % (name, sort_text(sort), literal(value, sort)))
        self.answers.write(")\n")


def sort_text(sort):
    return sort if sort in ("Bool", "Int", "Real") else "(_ BitVec %d)" % sort


def literal(value, sort):
    if sort == "Bool":
        return "true" if value else "false"
    if sort == "Int":
        return str(value) if value >= 0 else "(- %d)" % -value
    if sort == "Real":
        top, below = abs(value.numerator), value.denominator
        text = "%d.0" % top if below == 1 else "(/ %d.0 %d.0)" % (top, below)
        return text if value >= 0 else "(- %s)" % text
    return "#x%0*x" % (sort // 4, value) if sort % 4 == 0 else "#b" + format(value, "0%db" % sort)


def some_value(sort, random):
    if sort == "Bool":
        return random.random() < 0.5
    if sort == "Real":
        return Fraction(random.randint(-(10**6), 10**6), random.randint(1, 1000))
    return random.randint(-(10**9), 10**9) if sort == "Int" else random.getrandbits(sort)


def some_constants(sorts, count, random):
    return [Named("c%d" % i, sort, some_value(sort, random)) for i in range(count) for sort in (sorts[i % len(sorts)],)]


def signed(value, width):
    return value - (value >> (width - 1) << width)


def signed_quotient(a, b, width):
    a, b = signed(a, width), signed(b, width)
    if b == 0:
        return -1 if a >= 0 else 1
    return abs(a) // abs(b) if (a < 0) == (b < 0) else -(abs(a) // abs(b))


# What each operator gives for two vectors of a width, up to a multiple of 2^width.
PLAIN = {
    "bvadd": lambda a, b, width: a + b,
    "bvsub": lambda a, b, width: a - b,
    "bvand": lambda a, b, width: a & b,
    "bvor": lambda a, b, width: a | b,
    "bvxor": lambda a, b, width: a ^ b,
    "bvnand": lambda a, b, width: ~(a & b),
    "bvnor": lambda a, b, width: ~(a | b),
    "bvxnor": lambda a, b, width: ~(a ^ b),
    "bvshl": lambda a, b, width: a << b if b < width else 0,
    "bvlshr": lambda a, b, width: a >> min(b, width),
    "bvashr": lambda a, b, width: signed(a, width) >> min(b, width),
}
PRODUCTS = {
    "bvmul": lambda a, b, width: a * b,
    "bvudiv": lambda a, b, width: a // b if b else -1,
    "bvurem": lambda a, b, width: a % b if b else a,
    "bvsdiv": signed_quotient,
    "bvsrem": lambda a, b, width: signed(a, width) - signed_quotient(a, b, width) * signed(b, width) if b else a,
    "bvsmod": lambda a, b, width: signed(a, width) % signed(b, width) if b else a,
}
RELATIONS = {
    "=": lambda a, b, width: a == b,
    "distinct": lambda a, b, width: a != b,
    "bvult": lambda a, b, width: a < b,
    "bvule": lambda a, b, width: a <= b,
    "bvugt": lambda a, b, width: a > b,
    "bvuge": lambda a, b, width: a >= b,
    "bvslt": lambda a, b, width: signed(a, width) < signed(b, width),
    "bvsle": lambda a, b, width: signed(a, width) <= signed(b, width),
    "bvsgt": lambda a, b, width: signed(a, width) > signed(b, width),
    "bvsge": lambda a, b, width: signed(a, width) >= signed(b, width),
}
CONNECTIVES = {
    "and": lambda a, b: a and b,
    "or": lambda a, b: a or b,
    "xor": lambda a, b: a != b,
    "=>": lambda a, b: not a or b,
}


class Terms:
    """Random terms over what is named, each as its text and its value."""

    def __init__(self, random, operators):
        self.random = random
        self.operators = list(operators.items())
        self.named = {sort: [] for sort in WIDTHS + ("Bool",)}

    def name(self, things, times=1):
        for thing in things:
            self.named[thing.sort] += [(thing.name, thing.value)] * times

    def one_of(self, things):
        return things[int(self.random.random() * len(things))]

    def leaf(self, sort):
        if self.named[sort] and self.random.random() < 0.85:
            return self.one_of(self.named[sort])
        value = some_value(sort, self.random)
        return literal(value, sort), value

    def term(self, sort, depth):
        return self.truth(depth) if sort == "Bool" else self.vector(sort, depth)

    def vector(self, width, depth):
        if depth <= 0:
            return self.leaf(width) if width in self.named else self.cut(width, 0)
        choice = self.random.random()
        if choice < 0.6:
            name, function = self.one_of(self.operators)
            a, x = self.vector(width, depth - 1)
            b, y = self.vector(width, depth - 1 if choice < 0.4 else 0)
            return "(%s %s %s)" % (name, a, b), function(x, y, width) % 2**width
        if choice < 0.7:
            a, x = self.vector(width, depth - 1)
            return ("(bvnot %s)" % a, ~x % 2**width) if choice < 0.66 else ("(bvneg %s)" % a, -x % 2**width)
        if choice < 0.78 and width > 1:
            low = 1 + int(self.random.random() * (width - 1))
            a, x = self.vector(width - low, depth - 1)
            if choice < 0.73:
                b, y = self.vector(low, depth - 2)
                return "(concat %s %s)" % (a, b), x << low | y
            if choice < 0.75:
                return "((_ zero_extend %d) %s)" % (low, a), x
            return "((_ sign_extend %d) %s)" % (low, a), signed(x, width - low) % 2**width
        if choice < 0.84:
            return self.cut(width, depth - 1)
        if choice < 0.88:
            places = int(self.random.random() * 2 * width)
            a, x = self.vector(width, depth - 1)
            left = places % width if choice < 0.86 else -places % width
            turned = (x << left | x >> (width - left)) % 2**width
            return "((_ rotate_%s %d) %s)" % ("left" if choice < 0.86 else "right", places, a), turned
        return self.choice(width, depth)

    def cut(self, width, depth):
        """a part of a vector that is wider, or as wide"""
        wide = self.one_of([other for other in WIDTHS if other >= width])
        low = int(self.random.random() * (wide - width + 1))
        a, x = self.vector(wide, depth)
        return "((_ extract %d %d) %s)" % (low + width - 1, low, a), (x >> low) % 2**width

    def choice(self, width, depth):
        condition, truth = self.truth(depth - 2)
        a, x = self.vector(width, depth - 1)
        b, y = self.vector(width, depth - 1)
        return "(ite %s %s %s)" % (condition, a, b), x if truth else y

    def truth(self, depth):
        if depth <= 0:
            return self.leaf("Bool")
        choice = self.random.random()
        if choice < 0.5:
            width = self.one_of(WIDTHS)
            name, function = self.one_of(RELATION_ITEMS)
            a, x = self.vector(width, depth - 1)
            b, y = self.vector(width, depth - 1)
            return "(%s %s %s)" % (name, a, b), function(x, y, width)
        a, x = self.truth(depth - 1)
        if choice < 0.6:
            return "(not %s)" % a, not x
        name, function = self.one_of(CONNECTIVE_ITEMS)
        b, y = self.truth(depth - 1)
        return "(%s %s %s)" % (name, a, b), function(x, y)

    def formula(self, depth):
        """a true one, below one to six levels of let"""
        named = {sort: len(things) for sort, things in self.named.items()}
        count = 0
        opened = []
        for _ in range(1 + int(self.random.random() * 6)):
            bound = []
            for _ in range(1 + int(self.random.random() * 3)):
                sort = self.one_of(WIDTHS + ("Bool",))
                text, value = self.term(sort, depth)
                bound.append((text, Named("v%d" % count, sort, value)))
                count += 1
            opened.append("(let (%s) " % " ".join("(%s %s)" % (variable.name, text) for text, variable in bound))
            self.name((variable for _, variable in bound), times=3)
        width = self.one_of(WIDTHS)
        text, value = self.vector(width, depth)
        other, truth = self.truth(depth)
        equation = "(= %s %s)" % (text, literal(value, width))
        body = self.one_of((equation, "(and %s %s)" % (equation, other if truth else "(not %s)" % other), "(or %s %s)" % (other, equation)))
        for sort, length in named.items():
            del self.named[sort][length:]
        return "".join(opened) + body + ")" * len(opened)


RELATION_ITEMS = list(RELATIONS.items())
CONNECTIVE_ITEMS = list(CONNECTIVES.items())


def bv(dialogue, size, random):
    """random assertions with all operators on vectors of eight widths, and levels of let"""
    dialogue.say("(set-logic QF_BV)")
    constants = some_constants(WIDTHS + ("Bool",), max(18, min(20000, size // 5000)), random)
    dialogue.declare(constants, known=True)
    terms = Terms(random, {**PLAIN, **PRODUCTS})
    terms.name(constants)
    while dialogue.size < size:
        dialogue.say("(assert %s)" % terms.formula(3))
    dialogue.check(constants)


def integer(constants, random, depth):
    """a linear term, as its text and its value"""
    choice = random.random()
    if depth == 0 or choice < 0.2:
        if random.random() < 0.7:
            constant = constants[int(random.random() * len(constants))]
            return constant.name, constant.value
        value = random.randint(0, 1000)
        return str(value), value
    a, x = integer(constants, random, depth - 1)
    if choice < 0.55:
        others = [integer(constants, random, depth - 1) for _ in range(1 + int(random.random() * 4))]
        return "(+ %s %s)" % (a, " ".join(b for b, _ in others)), x + sum(y for _, y in others)
    if choice < 0.7:
        factor = random.randint(2, 50)
        return "(* %d %s)" % (factor, a), factor * x
    if choice < 0.8:
        divisor = random.randint(2, 97)
        return ("(div %s %d)" % (a, divisor), x // divisor) if choice < 0.75 else ("(mod %s %d)" % (a, divisor), x % divisor)
    b, y = integer(constants, random, depth - 1)
    if choice < 0.9:
        return "(- %s %s)" % (a, b), x - y
    return "(ite (<= %s %s) %s (abs %s))" % (a, b, a, b), x if x <= y else abs(y)


def lia(dialogue, size, random):
    """sums, products with numerals, div, mod and comparisons of integers"""
    dialogue.say("(set-logic QF_LIA)")
    constants = some_constants(("Int",), max(16, min(20000, size // 5000)), random)
    dialogue.declare(constants, known=True)
    while dialogue.size < size:
        a, x = integer(constants, random, 4)
        b, y = integer(constants, random, 3)
        relation = "<=" if x <= y else ">"
        dialogue.say("(assert (let ((s %s) (t %s)) (and (%s s t) (= s %s))))" % (a, b, relation, literal(x, "Int")))
    dialogue.check(constants)


def lra(dialogue, size, random):
    """a model of fractions, as large as the script, in sums with numerals that are compared, and quotients"""
    dialogue.say("(set-logic QF_LRA)")
    constants = some_constants(("Real",), max(16, size // 150), random)
    dialogue.declare(constants)
    for a, b, c in zip(constants, constants[1:] + constants[:1], constants[2:] + constants[:2]):
        factor = random.randint(2, 9)
        left, right = a.value * factor + b.value, c.value / factor
        relation = "<" if left < right else ">="
        dialogue.say("(assert (%s (+ (* %d %s) %s) (/ %s %d)))" % (relation, factor, a.name, b.name, c.name, factor))
    dialogue.check(constants)


def inc(dialogue, size, random):
    """rounds of push, declaration, two assertions, check, model and pop, over twenty constants with another value in each round"""
    dialogue.say("(set-logic QF_BV)")
    sorts = (8, 32, 64, "Bool")
    dialogue.declare(some_constants(sorts, 20, random))
    terms = Terms(random, PLAIN)
    rounds = 0
    while dialogue.size < size:
        rounds += 1
        constants = some_constants(sorts, 20, random) + [Named("r%d" % (rounds % 7), 16, random.getrandbits(16))]
        for things in terms.named.values():
            things.clear()
        terms.name(constants)
        dialogue.say("(push 1)")
        dialogue.declare(constants[20:])
        for _ in range(2):
            width = terms.one_of((8, 16, 32, 64))
            text, value = terms.vector(width, 3)
            dialogue.say("(assert (= %s %s))" % (text, literal(value, width)))
        dialogue.check(constants)
        dialogue.say("(pop 1)")


def chain(dialogue, size, random):
    """five assertions, each one operator with very many arguments"""
    dialogue.say("(set-logic QF_BV)")
    vector, truth = constants = [Named("c", 32, random.getrandbits(32)), Named("p", "Bool", True)]
    dialogue.declare(constants, known=True)
    count = size // 24
    dialogue.say("(assert (= %s))" % " ".join([vector.name] * count))
    dialogue.say("(assert (and %s))" % " ".join([truth.name] * count))
    dialogue.say("(assert (or %s %s))" % (" ".join(["(bvult c c)"] * count), truth.name))
    dialogue.say("(assert (= (bvadd %s) %s))" % (" ".join([vector.name] * count), literal(vector.value * count % 2**32, 32)))
    dialogue.say("(assert (=> %s))" % " ".join([truth.name] * count))
    dialogue.check(constants)


def consts(dialogue, size, random):
    """very many constants, of which the model has another order, and an assertion for each ten"""
    dialogue.say("(set-logic ALL)")
    constants = some_constants((32, "Bool", 8, "Int", 128, 1), size // 48, random)
    dialogue.declare(constants)
    for place in range(0, len(constants), 10):
        a, b = constants[place], constants[place * 7919 % len(constants)]
        dialogue.say("(assert (and (= %s %s) (= %s %s)))" % (a.name, literal(a.value, a.sort), literal(b.value, b.sort), b.name))
    random.shuffle(constants)
    dialogue.check(constants)


def labels(dialogue, size, random):
    """labelled assertions, half of which name the label of the one before"""
    dialogue.say("(set-logic QF_BV)")
    constants = some_constants((16,), 10, random)
    dialogue.declare(constants)
    count = 0
    while dialogue.size < size:
        constant = constants[count % 10]
        equation = "(= %s %s)" % (constant.name, literal(constant.value, 16))
        text = "(and l%d %s)" % (count - 1, equation) if count % 2 else equation
        dialogue.say("(assert (! %s :named l%d))" % (text, count))
        count += 1
    dialogue.check(constants)


def deeplet(dialogue, size, random):
    """lets that are 980 deep, in each of which the variable of the one before is used twice"""
    dialogue.say("(set-logic QF_BV)")
    first, second = constants = some_constants((64,), 2, random)
    dialogue.declare(constants, known=True)
    while dialogue.size < size:
        value = (first.value ^ dialogue.size) % 2**64
        parts = ["(let ((v0 (bvxor c0 %s))) " % literal(dialogue.size, 64)]
        for level in range(1, DEEP):
            parts.append("(let ((v%d (bvadd v%d (bvxor v%d c1)))) " % (level, level - 1, level - 1))
            value = (value + (value ^ second.value)) % 2**64
        dialogue.say("(assert %s(= v%d %s)%s)" % ("".join(parts), DEEP - 1, literal(value, 64), ")" * DEEP))
    dialogue.check(constants)


def widelet(dialogue, size, random):
    """one let of very many bindings, and a body that uses them all"""
    dialogue.say("(set-logic QF_BV)")
    constants = some_constants((32,), 3, random)
    dialogue.declare(constants, known=True)
    bindings = []
    sum_of_all = 0
    for place in range(size // 39):
        constant, other = constants[place % 3], random.getrandbits(32)
        bindings.append("(w%d (bvadd %s %s))" % (place, constant.name, literal(other, 32)))
        sum_of_all ^= (constant.value + other) % 2**32
    names = " ".join("w%d" % place for place in range(len(bindings)))
    dialogue.say("(assert (let (%s) (= (bvxor %s) %s)))" % (" ".join(bindings), names, literal(sum_of_all, 32)))
    dialogue.check(constants)


def names(dialogue, size, random):
    """constants with names of 10,000 bytes, each in one assertion"""
    dialogue.say("(set-logic QF_BV)")
    constants = []
    while dialogue.size < size:
        name = "n%d_" % len(constants) + "".join(random.choices("abcdefghijklmnopqrstuvwxyz0123456789_", k=LONG))
        constants.append(Named(name[:LONG], 16, random.getrandbits(16)))
        dialogue.declare(constants[-1:], known=True)
    dialogue.check(constants)


def levels(dialogue, size, random):
    """as many levels as there may be, each of a push and two assertions; a check, and a pop of all"""
    dialogue.say("(set-logic QF_BV)")
    constants = some_constants((16, "Bool"), 20, random)
    dialogue.declare(constants, known=True)
    while dialogue.size < size:
        level = 0
        while level < LEVELS and dialogue.size < size:
            first, second = random.sample(constants, 2)
            dialogue.say("(push 1)")
            for constant in (first, second):
                dialogue.say("(assert (= %s %s))" % (constant.name, literal(constant.value, constant.sort)))
            level += 1
        dialogue.check(constants)
        dialogue.say("(pop %d)" % level)


KINDS = {function.__name__: function for function in (bv, lia, lra, inc, chain, consts, labels, deeplet, widelet, names, levels)}
