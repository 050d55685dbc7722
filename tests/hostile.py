#!/usr/bin/env python3
"""hostile.py [--steps N] [--part N] [--stack KB] [--bound] [NAME ..]: runs the program on texts that are made to take much, or large and
honest, and prints what each takes: seconds of the processor and memory, at a quarter, at half and at all of its size.

--part N makes each N times smaller, and --stack limits the machine's stack. With --bound the status is 1 where the whole takes more than its
shape may: a second, or what stands beside the shape; or more than its memory; and where it does not end with the status of its report, or
takes too many times what it takes where it is not explained. Needs what `rt ci` has built, or another program: SMTCHECK names it."""
import argparse
import os
import random
import sys
import tempfile
from collections import namedtuple

from measured import can_measure, run

TOP = os.path.dirname(os.path.dirname(os.path.abspath(__file__)))
DECLARED = "(declare-const p Bool)"
MODEL = "((define-fun p () Bool true))"
FALSE = "((define-fun p () Bool false))"
ASK = "(check-sat)(get-model)"

# A shape: what makes its texts from a size, that size, the most seconds where some are promised, and the most bytes of memory for each byte
# beside those that any program has: none where nothing stays in force. Then the statuses of its reports, whether they are explained, and options.
Shape = namedtuple("Shape", "make size seconds memory statuses explained options", defaults=((0, 1, 2), False, ()))


def models_over_an_unused_body(n):
    """Models of a script whose only constant is evaluated once for each, beside a large body that nothing calls."""
    models = n * 38 // 250
    script = "(define-fun f ((x Bool)) Bool (and" + " x" * n + "))(define-fun c () Bool true)(assert c)(check-sat)" + "(get-model)" * models
    return script, "sat" + "()" * models


def assumptions_with_models(n):
    """Checks that assume a hundred literals each, with a model."""
    return DECLARED + ("(check-sat-assuming (" + "p " * 100 + "))(get-model)") * n, ("sat" + MODEL) * n


def assumptions(n):
    """Checks that assume a thousand literals each."""
    return DECLARED + ("(check-sat-assuming (" + "p " * 1000 + "))") * n, "unsat " * n


def honest_assumptions(n):
    """An incremental script: each check assumes 100 of 200 constants."""
    rng = random.Random(1)
    names = ["c%d" % i for i in range(200)]
    checks = ["(check-sat-assuming (%s))\n" % " ".join(rng.sample(names, 100)) for _ in range(1000)]
    script = "".join("(declare-const %s Bool)\n" % name for name in names)
    script += "(assert (or %s))\n" % " ".join(names) + "".join(checks[i % 1000] for i in range(n))
    return script, "unsat\n" * n


def honest_models(n):
    """The same, where each check has a model of all constants."""
    rng = random.Random(1)
    names = ["c%d" % i for i in range(200)]
    checks, models = [], []
    for _ in range(100):
        assumed = rng.sample(names, 100)
        checks.append("(check-sat-assuming (%s))\n(get-model)\n" % " ".join(assumed))
        values = [(name, name in assumed or rng.random() < 0.5) for name in names]
        models.append("sat\n(%s)\n" % "".join("(define-fun %s () Bool %s)" % (name, str(value).lower()) for name, value in values))
    script = "".join("(declare-const %s Bool)\n" % name for name in names) + "(assert (or %s))\n" % " ".join(names)
    return script + "".join(checks[i % 100] for i in range(n)), "".join(models[i % 100] for i in range(n))


def global_declarations(n):
    """Assertions of levels that are gone, under global declarations."""
    begin = "(set-option :global-declarations true)" + DECLARED
    return begin + ("(push 1)(assert (and " + "p " * 100 + "))" + ASK + "(pop 1)") * n, ("sat" + MODEL) * n


def doubling_functions(n):
    """Models of two million steps each."""
    bodies = ["(+ x x)"] + ["(f%d (f%d x))" % (i - 1, i - 1) for i in range(1, 21)]
    script = "".join("(define-fun f%d ((x Int)) Int %s)" % (i, body) for i, body in enumerate(bodies))
    return script + "(assert (= (f20 0) 0))" + ASK * n, "sat ()\n" * n


def empty_models(n):
    """Checks with models that define nothing, of as many names."""
    return "".join("(declare-const c%d Bool)" % i for i in range(n)) + ASK * n, "sat ()" * n


def wide_model(n):
    """A model with one wide body of one-letter parts."""
    return DECLARED + "(assert (not p))" + ASK, "sat ((define-fun p () Bool (distinct" + " 7" * n + ")))"


def wide_script(n):
    """An assertion with one-letter parts."""
    return DECLARED + "(assert (and" + " p" * n + "))" + ASK, "sat" + MODEL


def deep_and_wide(n):
    """A wide term within the deepest one."""
    return "(assert " + "(let ((x true)) " * 990 + "(and" + " x" * n + ")" + ")" * 991, ""


def long_literals(n):
    """Literals of 128 digits, which are evaluated many times."""
    script = "(define-fun g0 ((b Bool)) Bool (=" + (" #b" + "1" * 128) * n + "))"
    script += "".join("(define-fun g%d ((b Bool)) Bool (and (g%d b) (g%d b)))" % (i, i - 1, i - 1) for i in range(1, 16))
    return script + "(assert (g15 true))" + ASK, "sat ()"


def levels(n):
    """Ten thousand levels, begun and ended at once."""
    return "(push 10000)(pop 10000)" * n, ""


def levels_beside_names(n):
    """The same, where a name and an assertion stand before and within."""
    return DECLARED + "(push 9999)(assert p)(push 1)(pop 10000)" * n, ""


def chain(n, depth):
    """Definitions of which each is the one before, within so many others: each is false where their number is even."""
    bodies = [("(not " * depth, "h%d" % (i - 1) if i else "false", ")" * depth) for i in range(n)]
    return "".join("(define-fun h%d () Bool %s%s%s)" % (i, *body) for i, body in enumerate(bodies))


def model_of_deep_items(n):
    """A model of items that are deep together."""
    return DECLARED + "(assert p)" + ASK, "sat (%s(define-fun p () Bool h%d))" % (chain(n, 980), n - 1)


def model_of_many_items(n):
    """The same of many items that are not deep."""
    return DECLARED + "(assert p)" + ASK, "sat (%s(define-fun p () Bool h%d))" % (chain(n, 2), n - 1)


def deep_definitions(n):
    """A script whose definitions are deep together."""
    return chain(n, 980) + "(assert h%d)" % (n - 1) + ASK, "sat ()"


def honest_definitions(n):
    """Constants of which each adds to the one before, as programs write them."""
    script = "(define-fun x0 () (_ BitVec 32) #x00000001)"
    script += "".join("(define-fun x%d () (_ BitVec 32) (bvadd x%d #x00000001))" % (i, i - 1) for i in range(1, n))
    return script + "(assert (= x%d #x00000000))" % (n - 1) + ASK, "sat ()"


def trees_in_an_attribute(n):
    """A value of an attribute that would be a label of a term, which is not checked: in it a function without its argument."""
    calls = "".join("(define-fun f%d ((f%d Bool)) Bool f%d)" % (i, i - 1, i - 1) for i in range(1, n))
    script = DECLARED + "(declare-const z Bool)(define-fun f0 ((x Bool)) Bool true)" + calls
    script += "(assert (! p :a ((! f%d :named z))))" % (n - 1)
    script += "(assert (= (not p) (and z %s)))" % " ".join("(f%d p)" % i for i in range(n)) + ASK
    return script, "sat ((define-fun z () Bool true)(define-fun p () Bool true))"


def wide_and_ill_sorted(n):
    """A term whose last argument is of a wrong sort."""
    return DECLARED + "(assert (and" + " p" * n + " 1))", ""


def many_sorts(n):
    """A term whose arguments are of as many sorts."""
    names = range(n)
    declared = "".join("(declare-sort S%d 0)(declare-const c%d S%d)" % (i, i, i) for i in names)
    return declared + "(assert (= %s))" % " ".join("c%d" % i for i in names), ""


def levels_before_checks(n):
    """Many levels, and then checks that are refuted."""
    return "(push 10000)(pop 10000)" * n + "(assert false)" + ASK * 20, "sat ()" * 20


def deep_function(n):
    """Functions that are deep together, under checks that are refuted."""
    bodies = [("(not " * 980, "(f%d x)" % (i - 1) if i else "x", ")" * 980) for i in range(n)]
    script = DECLARED + "".join("(define-fun f%d ((x Bool)) Bool %s%s%s)" % (i, *body) for i, body in enumerate(bodies))
    return script + "(assert (f%d p))" % (n - 1) + ASK * 4, ("sat" + FALSE) * 4


def global_label(n):
    """A wide assertion with a label, under global declarations, whose levels are gone."""
    script = "(set-option :global-declarations true)" + DECLARED + "(push 9000)(assert (! (and" + " p" * n + ") :named a))"
    return script + "(pop 1)" * 9000 + "(assert a)" + ASK, "sat" + FALSE


def wide_disjunction(n):
    """A wide assertion that is false."""
    return DECLARED + "(assert (or" + " p" * n + "))" + ASK, "sat" + FALSE


def deep_conjunction(n):
    """A deep assertion that is false."""
    return DECLARED + "(assert " + "(and " * n + "p" + " p)" * n + ")" + ASK, "sat" + FALSE


def deep_choices(n):
    """The same of choices."""
    return DECLARED + "(assert " + "(ite " * n + "p" + " p p)" * n + ")" + ASK, "sat" + FALSE


def many_assertions(n):
    """Many assertions, of which the last is false."""
    return DECLARED + "(assert (or p (not p)))\n" * n + "(assert p)" + ASK, "sat" + FALSE


def many_refuted_checks(n):
    """Many checks of many assertions, each refuted by the last one."""
    return DECLARED + "(assert (or p (not p)))" * 1000 + "(assert p)" + ASK * n, ("sat" + FALSE) * n


def stored(sort, default, writes):
    """An array that is written at some indexes."""
    tree = "((as const %s) %s)" % (sort, default)
    return "(store " * len(writes) + tree + "".join(" %s %s)" % write for write in writes)


def compared(sort, default, writes, n, before=""):
    """Equalities of two arrays that are written alike, in opposite orders."""
    script = before + "(declare-const a %s)(declare-const b %s)" % (sort, sort)
    script += "(define-fun f ((x %s) (y %s)) Bool (and%s))" % (sort, sort, " (= x y)" * 100)
    model = "".join("(define-fun %s () %s %s)" % (name, sort, stored(sort, default, order)) for name, order in (("a", writes), ("b", writes[::-1])))
    return script + "(assert (and%s))" % (" (f a b)" * (n // 100 + 2)) + ASK, "sat (%s)" % model


def equal_arrays(n):
    """Equalities of arrays by integers."""
    return compared("(Array Int Int)", "0", [(i, i + 1) for i in range(1000)], n)


def equal_arrays_of_arrays(n, written=63):
    """The same of arrays of arrays, as large as may be compared."""
    inner = "(Array Int Int)"
    writes = [(i, "((as const %s) %d)" % (inner, i + 1)) for i in range(written)]
    return compared("(Array Int %s)" % inner, "((as const %s) 0)" % inner, writes, n)


def larger_arrays_of_arrays(n):
    """The same of larger ones, whose equality is open."""
    return equal_arrays_of_arrays(n, 1000)


def equal_arrays_by_names(n):
    """The same of arrays by a declared sort."""
    return compared("(Array U Int)", "0", [("U!val!%d" % i, i + 1) for i in range(127)], n, "(declare-sort U 0)")


def stores(n):
    """Arrays by vectors of 128 bits, each with sixty stores of its own."""
    sort = "(Array (_ BitVec 128) Int)"
    script = "(declare-const a %s)(define-fun f ((k Int)) %s %s)" % (
        sort, sort, "(store " * 60 + "a" + "".join(" #x%032x k)" % (i << 121) for i in range(60)))
    reads = "".join(" (= (select (f %d) #x%032x) %d)" % (i, i % 60 << 121, i) for i in range(n // 60 + 2))
    return script + "(assert (and%s))" % reads + ASK, "sat ((define-fun a () %s ((as const %s) 0)))" % (sort, sort)


def read_memory(n, shift):
    """A memory over vectors of 32 bits that a model writes at a tenth as many places as the assertions read."""
    sort = "(Array (_ BitVec 32) (_ BitVec 8))"
    places = ["#x%08x" % (i << shift) for i in range(n // 10 + 2)]
    values = ["#x%02x" % (i % 251) for i in range(len(places))]
    model = stored(sort, "#xff", list(zip(places, values)))
    chosen = [i * 7919 % len(places) for i in range(n)]
    reads = "".join("(assert (= (select m %s) %s))" % (places[i], values[i]) for i in chosen)
    return "(declare-const m %s)" % sort + reads + ASK, "sat ((define-fun m () %s %s))" % (sort, model)


def memory(n):
    """The same, at the lowest places."""
    return read_memory(n, 0)


def high_memory(n):
    """The same, at places that differ in their high bits alone."""
    return read_memory(n, 18)


WIDE = ("--profile", "wide")
# (a constant's body counts at each use, though it is evaluated once)
ANY_STEPS = (*WIDE, "--steps", "1000000000000")
SHAPES = {
    "unused body": Shape(models_over_an_unused_body, 250_000, 1, 200),
    "assumptions, models": Shape(assumptions_with_models, 16_000, 1, 0),
    "assumptions": Shape(assumptions, 2_500, 1, 0),
    "honest assumptions": Shape(honest_assumptions, 135_000, 3, 0),
    "honest models": Shape(honest_models, 8_000, 3, 0),
    "empty models": Shape(empty_models, 200_000, 2, 200),
    "global declarations": Shape(global_declarations, 16_000, 1, 0),
    "doubling functions": Shape(doubling_functions, 100, None, 200),
    "wide model": Shape(wide_model, 2_500_000, 1, 200),
    "wide script": Shape(wide_script, 2_500_000, 1, 200),
    "deep and wide": Shape(deep_and_wide, 40_000, 1, 200),
    "long literals": Shape(long_literals, 250, None, 200),
    "levels": Shape(levels, 45_000, 1, 0),
    "levels beside names": Shape(levels_beside_names, 25_000, 1, 0),
    "deep items": Shape(model_of_deep_items, 14, 2, 200, (1,), True),
    "many items": Shape(model_of_many_items, 5_000, 2, 200, (1,), True),
    "deep definitions": Shape(deep_definitions, 13, 2, 200, (1,), True),
    "honest definitions": Shape(honest_definitions, 5_000, 2, 200, (1,), True),
    "trees in an attribute": Shape(trees_in_an_attribute, 5_000, 2, 200, (1,), True),
    "ill sorted": Shape(wide_and_ill_sorted, 500_000, 2, 200, (3,), True),
    "many sorts": Shape(many_sorts, 1_600, 2, 200, (3,), True),
    "levels before checks": Shape(levels_before_checks, 40_000, 2, 200, (1,), True),
    "deep function": Shape(deep_function, 8, 2, 200, (1,), True),
    "global label": Shape(global_label, 375_000, 2, 200, (1,), True),
    "wide disjunction": Shape(wide_disjunction, 2_500_000, 3, 200, (1,), True),
    "deep conjunction": Shape(deep_conjunction, 300_000, 3, 200, (1,), True),
    "deep choices": Shape(deep_choices, 300_000, 3, 200, (1,), True),
    "many assertions": Shape(many_assertions, 1_000_000, 6, 200, (1,), True),
    "many refuted checks": Shape(many_refuted_checks, 3_000, 6, 200, (1,), True),
    "equal arrays": Shape(equal_arrays, 3_000_000, 3, 200, (0,), False, ANY_STEPS),
    "arrays of arrays": Shape(equal_arrays_of_arrays, 30_000, 15, 500, (0,), False, ANY_STEPS),
    "arrays by names": Shape(equal_arrays_by_names, 30_000, 10, 500, (0,), False, ANY_STEPS),
    "larger arrays": Shape(larger_arrays_of_arrays, 30_000, 1, 500, (2,), False, ANY_STEPS),
    "stores": Shape(stores, 90_000, 20, 5_000, (0,), False, ANY_STEPS),
    "memory": Shape(memory, 100_000, 1, 200, (0,), False, ANY_STEPS),
    "high memory": Shape(high_memory, 100_000, 3, 200, (0,), False, ANY_STEPS),
}
# What any program has: bytes of memory that no text accounts for.
OWN = 10_000_000
# An explained run takes at most so many times the seconds and the memory of the run without its explanation, and so many seconds more.
TIMES = 3
MORE = 0.1
# A run that takes so many seconds is ended.
PATIENCE = 120


def measured(words, shape, size, work, patience):
    """How many bytes a shape of this size has, and what the program takes for it."""
    texts = shape.make(max(1, size))
    names = []
    for text, name in zip(texts, ("script", "answers")):
        names.append(os.path.join(work, name))
        with open(names[-1], "w", encoding="ascii") as out:
            out.write(text)
    return sum(map(len, texts)), run(words + names, (), patience)


def main():
    parser = argparse.ArgumentParser(description=__doc__, formatter_class=argparse.RawDescriptionHelpFormatter)
    parser.add_argument("names", nargs="*", choices=[[], *SHAPES], metavar="NAME", help="the shapes: " + "; ".join(SHAPES))
    parser.add_argument("--steps")
    parser.add_argument("--part", type=int, default=1)
    parser.add_argument("--stack", type=int)
    parser.add_argument("--bound", action="store_true")
    parser.add_argument("--patience", type=int, default=PATIENCE)
    chosen = parser.parse_args()
    if not can_measure():
        print("hostile: skipped, a program's memory can't be measured here", file=sys.stderr)
        return 0
    words = [os.environ.get("SMTCHECK", TOP + "/crates/smtcheck/out/smtcheck"), "--print-success", "off"]
    words += ["--steps", chosen.steps] if chosen.steps else []
    if chosen.stack:
        words = ["sh", "-c", 'ulimit -s "$0"; exec "$@"', str(chosen.stack), *words]
    wrong = 0
    with tempfile.TemporaryDirectory() as work:
        for name in chosen.names or SHAPES:
            shape = SHAPES[name]
            cells = []
            for part in (1,) if chosen.bound else (4, 2, 1):
                explained = [*WIDE, "--explain"] if shape.explained else list(shape.options)
                size, took = measured(words + explained, shape, shape.size // part // chosen.part, work, chosen.patience)
                cells.append("%6.2f s" % took.seconds)
                if took.status not in shape.statuses:
                    cells[-1] = "status %d after %.1f s" % (took.status, took.seconds)
                    wrong |= chosen.bound
            print("%-21s %5.1f MB: %s, %6.1f MB of memory, %5.1f bytes a byte: %s" % (
                name, size / 1e6, " ".join(cells), took.memory / 1e6, took.memory / size, took.last), flush=True)
            if chosen.bound and shape.explained:
                _, plain = measured(words + [*WIDE], shape, shape.size // chosen.part, work, chosen.patience)
                seconds = took.seconds
                # (what else runs may take the processor's caches: the least of three is the run's own)
                for _ in range(2):
                    if seconds > TIMES * plain.seconds + MORE:
                        seconds = min(seconds, measured(words + explained, shape, shape.size // chosen.part, work, chosen.patience)[1].seconds)
                if seconds > TIMES * plain.seconds + MORE or took.memory > TIMES * plain.memory + OWN:
                    print("hostile: %s: without its explanation %.2f s, %.1f MB" % (name, plain.seconds, plain.memory / 1e6))
                    wrong = 1
            if chosen.bound and (took.seconds > (shape.seconds or chosen.patience) or took.memory > OWN + shape.memory * size):
                print("hostile: %s: more than it may take" % name)
                wrong = 1
    return wrong


if __name__ == "__main__":
    sys.exit(main())
