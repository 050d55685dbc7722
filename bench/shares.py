#!/usr/bin/env python3
"""Counts how many of a solver's models are confirmed, by kind of script: shares.py [--scripts N] [--seed N] [--profile P] [--kind K] NAME=COMMAND..

It invents N scripts (40) of each kind, or of the kinds whose names have the word K; some kinds in the profile `wide` alone. Each
script has one assertion or more. Each solver answers each script twice: first without models, and then with a `get-model` behind each check that was
answered `sat`, since some print nothing for a model behind `unsat`. A solver has 10 seconds for each run. The table has, for each kind and
solver, `confirmed of sat`, and what else was found, in the profile `base` or in that which is named. SMTCHECK names the program.
"""
import argparse
import os
import random
import re
import shlex
import subprocess
import sys
import tempfile
from typing import Callable, Dict, List, Sequence, Tuple

BITS = (1, 4, 8, 32)
MORE_BITS = (*BITS, 64, 128)
DECLARED = ("U", "V")  # sorts that a script declares
WIDE = ("arrays", "conversions", "declared", "overflow", "reals")  # how kinds begin that are in the profile `wide` alone

# Conversions of vectors to integers, and back: the older names, and those of SMT-LIB 2.7.
OLDER = (("bv2nat",), "int2bv")
NEWER = (("ubv_to_int", "sbv_to_int"), "int_to_bv")
OVERFLOWS = ("bvuaddo", "bvsaddo", "bvumulo", "bvsmulo", "bvusubo", "bvssubo", "bvsdivo", "bvnego")


class Terms:
    """Random terms over the names of a script."""

    def __init__(
        self,
        seed: int,
        sorts: Sequence[str],
        products: bool = False,
        divides: str = "",
        functions: bool = False,
        converts: Tuple[Sequence[str], str] = ((), ""),
        overflows: bool = False,
        arrays: Sequence[Tuple[str, str]] = (),
    ) -> None:
        self.arrays = {f"(Array {index} {element})": (index, element) for index, element in arrays}
        self.random, self.sorts, self.products, self.divides = random.Random(seed), [*sorts, *self.arrays], products, divides
        self.names: Dict[str, List[str]] = {sort: [f"{letter}{index}" for index in range(3)] for letter, sort in zip("pqrs", ["Bool", *self.sorts])}
        self.functions, self.converts, self.overflows = functions, converts, overflows

    def declarations(self) -> List[str]:
        """The declarations of the names."""
        told = [f"(declare-sort {sort} 0)" for sort in self.sorts if sort in DECLARED]
        told += [f"(declare-const {name} {sort})" for sort, names in self.names.items() for name in names]
        if self.functions:
            told += [f"(declare-fun f{index} ({sort} Bool) {sort})" for index, sort in enumerate(self.names)]
        return told

    def of(self, sort: str, depth: int) -> str:
        """A term of the sort."""
        if depth == 0 or self.random.random() < 0.1:
            return self.leaf(sort)
        if self.functions and self.random.random() < 0.3:
            return f"(f{list(self.names).index(sort)} {self.of(sort, depth - 1)} {self.of('Bool', 0)})"
        if self.random.random() < 0.1:
            return f"(ite {self.of('Bool', depth - 1)} {self.of(sort, depth - 1)} {self.of(sort, depth - 1)})"
        holding = [array for array, (_, element) in self.arrays.items() if element == sort]
        if holding and self.random.random() < 0.4:
            array = self.random.choice(holding)
            return f"(select {self.of(array, depth - 1)} {self.of(self.arrays[array][0], depth - 1)})"
        if sort in self.arrays:
            index, element = self.arrays[sort]
            return f"(store {self.of(sort, depth - 1)} {self.of(index, depth - 1)} {self.of(element, depth - 1)})"
        if sort in DECLARED:
            return self.leaf(sort)
        if sort == "Real":
            return self.real(depth)
        return self.formula(depth) if sort == "Bool" else self.integer(depth) if sort == "Int" else self.vector(sort, depth)

    def leaf(self, sort: str) -> str:
        """A name, or a value."""
        if self.random.random() < 0.7 or sort in ("Bool", *DECLARED, *self.arrays):
            return self.random.choice(self.names[sort])
        if sort == "Int":
            return str(self.random.randrange(12))
        if sort == "Real":
            return self.number()
        width = int(sort.split()[-1][:-1])
        return "#b" + format(self.random.randrange(2**width), f"0{width}b")

    def formula(self, depth: int) -> str:
        """A formula."""
        if self.sorts and self.random.random() < 0.6:
            sort = self.random.choice(self.sorts)
            if "Int" in self.sorts and sort == "Real" and self.random.random() < 0.2:
                return f"(is_int {self.of(sort, depth - 1)})"
            if self.overflows and self.random.random() < 0.5:
                sign = self.random.choice(OVERFLOWS)
                claim = f"({sign} {' '.join(self.of(sort, depth - 1) for _ in range(1 if sign == 'bvnego' else 2))})"
                return f"(= {self.leaf('Bool')} {claim})" if self.random.random() < 0.7 else claim
            signs = ("<=", "<", "=", "distinct") if sort in ("Int", "Real") else ("=", "distinct") if sort in (*DECLARED, *self.arrays) else ("bvult", "bvsle", "=", "distinct")
            return f"({self.random.choice(signs)} {self.of(sort, depth - 1)} {self.of(sort, depth - 1)})"
        if self.random.random() < 0.2:
            return f"(not {self.of('Bool', depth - 1)})"
        return f"({self.random.choice(('and', 'or', '=>', 'xor', '='))} {self.of('Bool', depth - 1)} {self.of('Bool', depth - 1)})"

    def integer(self, depth: int) -> str:
        """A term of integers, of reals too if the script has some, and of vectors if it converts them."""
        if "Real" in self.sorts and self.random.random() < 0.2:
            return f"(to_int {self.of('Real', depth - 1)})"
        if self.converts[1] and self.random.random() < 0.4:
            return f"({self.random.choice(self.converts[0])} {self.of(self.sorts[0], depth - 1)})"
        if self.divides and self.random.random() < 0.4:
            by = str(self.random.randrange(1, 9)) if self.divides == "numeral" else self.of("Int", depth - 1)
            return f"({self.random.choice(('div', 'mod'))} {self.of('Int', depth - 1)} {by})"
        if self.products and self.random.random() < 0.4:
            return f"(* {self.of('Int', depth - 1)} {self.of('Int', depth - 1)})"
        if self.random.random() < 0.2:
            return f"(* {self.random.randrange(2, 9)} {self.of('Int', depth - 1)})"
        return f"({self.random.choice('+-')} {self.of('Int', depth - 1)} {self.of('Int', depth - 1)})"

    def number(self) -> str:
        """A number of the sort Real: a decimal or a fraction."""
        whole = self.random.randrange(12)
        if self.random.random() < 0.3:
            return f"(/ {whole} {self.random.randrange(2, 12)})"
        return f"{whole}.{self.random.choice((0, 0, 5, 25, 125, 3))}"

    def real(self, depth: int) -> str:
        """A term of reals, in which integers are mixed if the script has some."""
        kind = self.random.random()
        if self.divides and kind < 0.3:
            return f"(/ {self.of('Real', depth - 1)} {self.of('Real', depth - 1)})"
        if self.products and kind < 0.3:
            return f"(* {self.of('Real', depth - 1)} {self.of('Real', depth - 1)})"
        if "Int" in self.sorts and kind < 0.3:
            return self.random.choice(("(to_real {0})", "(+ {0} {1})", "(- {1} {0})", "(* {1} 3)")).format(self.of("Int", depth - 1), self.of("Real", depth - 1))
        if kind < 0.5:
            return f"(* {self.number()} {self.of('Real', depth - 1)})"
        return f"({self.random.choice('+-')} {self.of('Real', depth - 1)} {self.of('Real', depth - 1)})"

    def vector(self, sort: str, depth: int) -> str:
        """A term of bit vectors, of integers too if the script converts them."""
        if self.converts[1] and self.random.random() < 0.25:
            return f"((_ {self.converts[1]} {sort.split()[-1]} {self.of('Int', depth - 1)})"
        signs = ("bvadd", "bvsub", "bvmul", "bvand", "bvor", "bvxor", "bvudiv", "bvurem", "bvshl", "bvlshr", "bvashr", "bvsdiv")
        return f"({self.random.choice(signs)} {self.of(sort, depth - 1)} {self.of(sort, depth - 1)})"


def plain(terms: Terms) -> List[str]:
    """Four assertions and one check."""
    return [*terms.declarations(), *(f"(assert {terms.of('Bool', 3)})" for _ in range(4)), "(check-sat)"]


def levels(terms: Terms) -> List[str]:
    """Ten assertions at up to three levels, with a check behind each second one."""
    told, depth = terms.declarations(), 0
    for index in range(10):
        if depth < 3 and terms.random.random() < 0.5:
            told, depth = [*told, "(push 1)"], depth + 1
        elif depth and terms.random.random() < 0.4:
            told, depth = [*told, "(pop 1)"], depth - 1
        told.append(f"(assert {terms.of('Bool', 2)})")
        if index % 2:
            told.append("(check-sat)")
    return told


def defined(terms: Terms, parameters: str) -> List[str]:
    """As plain, with a definition of which each assertion makes use."""
    use = f"(g {terms.random.choice(terms.names['Bool'])})" if parameters else "g"
    told = [*terms.declarations(), f"(define-fun g ({parameters}) Bool {terms.of('Bool', 2)})"]
    return [*told, *(f"(assert (or {use} {terms.of('Bool', 2)}))" for _ in range(4)), "(check-sat)"]


def differences(terms: Terms) -> List[str]:
    """Eight bounds of differences between reals, with large numerals and fractions, of which each second one may hold or not."""
    told, names = terms.declarations(), terms.names["Real"]
    for index in range(8):
        bound = terms.random.choice((str(terms.random.randrange(10**terms.random.choice((1, 3, 9, 18, 36)))), terms.number()))
        bound = f"(- {bound})" if terms.random.random() < 0.3 else bound
        claim = f"({terms.random.choice(('<=', '<', '>='))} (- {' '.join(terms.random.sample(names, 2))}) {bound})"
        told.append(f"(assert (or {claim} {terms.random.choice(terms.names['Bool'])}))" if index % 2 else f"(assert {claim})")
    return [*told, "(check-sat)"]


def labelled(terms: Terms) -> List[str]:
    """As plain, with a label on every assertion."""
    return [*terms.declarations(), *(f"(assert (! {terms.of('Bool', 3)} :named l{index}))" for index in range(4)), "(check-sat)"]


def vectors(seed: int, bits: Sequence[int] = BITS) -> List[str]:
    """The sort of bit vectors of a script."""
    return [f"(_ BitVec {bits[seed % len(bits)]})"]


def converted(seed: int, converts: Tuple[Sequence[str], str], functions: bool = False) -> List[str]:
    """As plain, over vectors and integers that are made of one another."""
    return plain(Terms(seed, [*vectors(seed, MORE_BITS), "Int"], functions=functions, converts=converts))


KINDS: Tuple[Tuple[str, str, Callable[[int], List[str]]], ...] = (
    ("truth values and a function over them", "QF_UF", lambda seed: plain(Terms(seed, [], functions=True))),
    ("integers, divided by numerals", "QF_LIA", lambda seed: plain(Terms(seed, ["Int"], divides="numeral"))),
    ("integers and products", "QF_NIA", lambda seed: plain(Terms(seed, ["Int"], products=True))),
    ("integers divided by variables", "QF_NIA", lambda seed: plain(Terms(seed, ["Int"], divides="term"))),
    ("integers and functions", "QF_UFLIA", lambda seed: plain(Terms(seed, ["Int"], functions=True))),
    ("bit vectors", "QF_BV", lambda seed: plain(Terms(seed, vectors(seed)))),
    ("bit vectors and functions", "QF_UFBV", lambda seed: plain(Terms(seed, vectors(seed), functions=True))),
    ("integers, with `push` and `pop`", "QF_LIA", lambda seed: levels(Terms(seed, ["Int"]))),
    ("bit vectors, with `push` and `pop`", "QF_BV", lambda seed: levels(Terms(seed, vectors(seed)))),
    ("functions that the script defines", "QF_BV", lambda seed: defined(Terms(seed, vectors(seed)), "(b Bool)")),
    ("constants that the script defines", "QF_BV", lambda seed: defined(Terms(seed, vectors(seed)), "")),
    ("labels on every assertion", "QF_BV", lambda seed: labelled(Terms(seed, vectors(seed)))),
    ("reals", "QF_LRA", lambda seed: plain(Terms(seed, ["Real"]))),
    ("reals, bounds of differences", "QF_RDL", lambda seed: differences(Terms(seed, ["Real"]))),
    ("reals and functions", "QF_UFLRA", lambda seed: plain(Terms(seed, ["Real"], functions=True))),
    ("reals and integers", "QF_LIRA", lambda seed: plain(Terms(seed, ["Real", "Int"]))),
    ("reals and products", "QF_NRA", lambda seed: plain(Terms(seed, ["Real"], products=True))),
    ("reals divided by variables", "QF_NRA", lambda seed: plain(Terms(seed, ["Real"], divides="term"))),
    ("conversions by the older names", "ALL", lambda seed: converted(seed, OLDER)),
    ("conversions by the older names, and functions", "ALL", lambda seed: converted(seed, OLDER, functions=True)),
    ("conversions", "ALL", lambda seed: converted(seed, NEWER)),
    ("conversions and functions", "ALL", lambda seed: converted(seed, NEWER, functions=True)),
    ("overflow predicates", "QF_BV", lambda seed: plain(Terms(seed, vectors(seed, MORE_BITS), overflows=True))),
    ("arrays by declared sorts", "QF_AX", lambda seed: plain(Terms(seed, DECLARED, arrays=[DECLARED]))),
    ("arrays of integers", "QF_ALIA", lambda seed: plain(Terms(seed, ["Int"], arrays=[("Int", "Int")]))),
    ("arrays of vectors", "QF_ABV", lambda seed: plain(Terms(seed, vectors(seed), arrays=[tuple(vectors(seed) * 2)]))),
    ("arrays and functions", "QF_AUFLIA", lambda seed: plain(Terms(seed, ["Int"], functions=True, arrays=[("Int", "Int")]))),
    ("arrays of arrays", "QF_ALIA", lambda seed: plain(Terms(seed, ["Int"], arrays=[("Int", "Int"), ("Int", "(Array Int Int)")]))),
    ("declared sorts and functions", "QF_UF", lambda seed: plain(Terms(seed, DECLARED[: 1 + seed % 2], functions=True))),
)


def answered(command: Sequence[str], script: str, folder: str) -> str:
    """What the solver prints for a script, within 10 seconds."""
    name = os.path.join(folder, "script.smt2")
    with open(name, "w") as file:
        file.write(script)
    try:
        done = subprocess.run([*command, name], stdout=subprocess.PIPE, stderr=subprocess.DEVNULL, stdin=subprocess.DEVNULL, timeout=10)
    except subprocess.TimeoutExpired as stopped:
        return (stopped.stdout or b"").decode("utf-8", "replace")
    return done.stdout.decode("utf-8", "replace")


def found(program: Sequence[str], command: Sequence[str], logic: str, body: List[str]) -> Dict[str, int]:
    """What is found of one script: how many checks of each finding, or that the dialogue was refused."""
    head = f"(set-option :produce-models true)\n(set-logic {logic})\n"
    with tempfile.TemporaryDirectory() as folder:
        said = iter(answered(command, head + "\n".join([*body, "(exit)", ""]), folder).split())
        asked = [line + "(get-model)" if line == "(check-sat)" and next(said, "") == "sat" else line for line in body]
        answers = answered(command, head + "\n".join([*asked, "(exit)", ""]), folder)
        name = os.path.join(folder, "answers.txt")
        with open(name, "w") as file:
            file.write(answers)
        words = [*program, "--print-success", "off", os.path.join(folder, "script.smt2"), name]
        report = subprocess.run(words, stdout=subprocess.PIPE, stdin=subprocess.DEVNULL).stdout.decode("ascii").splitlines()
    counts: Dict[str, int] = {}
    for line in report:
        if line.startswith("fault "):
            key = "refused " + line.split()[1]
        elif ": sat" in line:
            key = "confirmed" if line.endswith("sat, confirmed") else "refuted" if "refuted" in line else "item" if "item" in line else "no model" if line.endswith("no model") else "other"
        else:
            continue
        counts[key] = counts.get(key, 0) + 1
    return counts


def main() -> int:
    """Prints the table."""
    parser = argparse.ArgumentParser(description=(__doc__ or "").split("\n", 1)[0])
    parser.add_argument("--scripts", type=int, default=40)
    parser.add_argument("--seed", type=int, default=1)
    parser.add_argument("--profile", choices=("base", "wide"), default="base")
    parser.add_argument("--kind", default="")
    parser.add_argument("solvers", nargs="+", metavar="NAME=COMMAND")
    given = parser.parse_args()
    program = [os.environ.get("SMTCHECK", "smtcheck"), "--profile", given.profile]
    solvers = [(word.split("=", 1)[0], shlex.split(word.split("=", 1)[1])) for word in given.solvers]
    print("| kind of script | " + " | ".join(name for name, _ in solvers) + " |")
    print("|---" * (len(solvers) + 1) + "|")
    refuted = 0
    kinds = [row for row in KINDS if given.kind in row[0] and (given.profile == "wide" or not row[0].startswith(WIDE))]
    for kind, logic, body in kinds:
        cells = []
        for _, command in solvers:
            counts: Dict[str, int] = {}
            for index in range(given.scripts):
                for key, count in found(program, command, logic, body(given.seed * 1000 + index)).items():
                    counts[key] = counts.get(key, 0) + count
            refuted += counts.get("refuted", 0)
            sat = sum(count for key, count in counts.items() if not key.startswith("refused"))
            rest = [f"{count} {key}" for key, count in sorted(counts.items()) if re.match("refused|refuted", key)]
            cells.append(", ".join([f"{counts.get('confirmed', 0)} of {sat}" if sat else "-", *rest]))
        print(f"| {kind} (`{logic}`) | " + " | ".join(cells) + " |", flush=True)
    return 1 if refuted else 0


if __name__ == "__main__":
    sys.exit(main())
