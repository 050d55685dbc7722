"""Compares what `--explain=json` tells with a scanner of its own and with the second validator's evaluator, and the text with the objects.

explain.py PROGRAM [COUNT]: the dialogues in crates/dialogue_rows/data with a changed model, a script of 1,536 lines, hostile names, and
COUNT invented dialogues, or 100, that are refuted, half of them in each profile. At each place told stands what is told to stand there, each part
has the value told and so has each term in it, and just those assertions are told false that are. Says what is wrong, or nothing.
"""
import os
import random
import re
import sys
import tempfile

TOP = os.path.join(os.path.dirname(os.path.abspath(__file__)), "..")
sys.path.insert(0, os.path.join(TOP, "tests", "fuzz"))
sys.setrecursionlimit(100000)

from dialogues import invent
from explain_forms import Wrong, check_forms, lines_of, run
from models import Structure, bodies_of
from rows import dialogues_of
from script import Assertion, Definition, Force, command_of
from sorts import BASE, BOOL, INT, REAL, WIDE, Faulty, Free
from terms import Checker, Context
from text import KEYWORD, STRING, SYMBOL, Atom, begins_with, is_kind, is_symbol, read
from validator import NONE, is_no_effect, takes, with_deep_stack
from values import OPEN
from wide import invent_wide

BLANK = re.compile(rb"(?:[ \t\r\n]+|;[^\r\n]*)*")
TOKEN = re.compile(rb'"(?:[^"]|"")*"|\|[^|]*\||[^ \t\r\n();"|]+')


def spans(text, begin=0, end=None):
    """Where the trees of a text begin and end, between two bytes of it."""
    end = len(text) if end is None else end
    found, depth, place = [], 0, begin
    while True:
        place = BLANK.match(text, place).end()
        if place >= end:
            return found
        byte, first = text[place : place + 1], place
        if byte == b"(":
            depth += 1
            place += 1
        elif byte == b")":
            depth -= 1
            place += 1
        else:
            token = TOKEN.match(text, place)
            place = token.end() if token else place + 1
        if depth == (byte == b"("):
            if byte != b")":
                found.append([first, place])
            found[-1][1] = place


def with_texts(script, answers, prints, more, work):
    """What `work` gives on a folder with these two texts, and the words that name them."""
    with tempfile.TemporaryDirectory() as folder:
        for name, text in (("s.smt2", script), ("a.txt", answers)):
            with open(os.path.join(folder, name), "wb") as file:
                file.write(text)
        return work(folder, ["--print-success", "on" if prints else "off", *more, "s.smt2", "a.txt"])


def is_refuted(program, script, answers, prints, more=()):
    """Whether a check is refuted."""
    return b" refuted by " in with_texts(script, answers, prints, more, lambda *given: run(program, *given)[0])


def explained(program, script, answers, prints, more=()):
    """The lines of the report and the objects of the explanation, whose other forms say the same."""
    return with_texts(script, answers, prints, more, lambda *given: check_forms(program, *given)[:2])


class Text:
    """A text, with where its trees begin and end, and where its lines begin."""

    def __init__(self, text):
        self.text = text
        self.trees = spans(text)
        self.lines = [0] + [found.end() for found in re.finditer(b"\n", text)]

    def byte(self, spot):
        """The byte of a place."""
        ends = self.lines[1:] + [len(self.text) + 1]
        if spot["line"] > len(ends) or self.lines[spot["line"] - 1] + spot["column"] > ends[spot["line"] - 1]:
            raise Wrong("there is no such place: %s" % spot)
        if spot["byte"] != self.lines[spot["line"] - 1] + spot["column"] - 1:
            raise Wrong("another byte: %s" % spot)
        return spot["byte"]

    def tree(self, spot, deep):
        """The tree that begins at a place, at the top or, where it may be `deep`, just below."""
        byte = self.byte(spot)
        for begin, end in self.trees:
            if begin < byte < end and deep:
                return Text(self.text[: end - 1]).tree_in(begin + 1, byte)
            if begin == byte:
                return read(self.text[begin:end]).trees[0]
        raise Wrong("no tree begins there: %s" % spot)

    def tree_in(self, begin, byte):
        """The tree that begins at a byte, among those of a list that begin behind another byte."""
        for first, end in spans(self.text, begin):
            if first == byte:
                return read(self.text[first:end]).trees[0]
        raise Wrong("no tree begins at byte %d" % byte)

    def atom(self, spot):
        """The atom that stands at a place."""
        found = TOKEN.match(self.text, self.byte(spot))
        if not found:
            raise Wrong("no atom is there: %s" % spot)
        return read(found.group()).trees[0]


def is_cut(text):
    """Whether something may be left out of a text."""
    return " .. " in text or len(text) > 196


def plain(text):
    """A text with the bytes whose numbers are told."""
    return re.sub(r"\\x([0-9a-f]{2})", lambda found: chr(int(found.group(1), 16)), text)


def trees_of(text):
    """The trees that are told."""
    return read(plain(text).encode("latin-1")).trees


def as_told(tree):
    """A tree without what its strings say."""
    if type(tree) is list:
        return list(map(as_told, tree))
    return Atom(STRING, "..") if tree.kind is STRING else tree


def is_told(text, tree):
    """Whether a text is that of a tree, as far as it is whole."""
    return is_cut(text) or trees_of(text) == [as_told(tree)]


def brings(tree, name):
    """Whether a command or an item defines a name, or has it as a label."""
    if is_cut(name):
        return True
    (atom,) = trees_of(name)
    if type(tree) is list and len(tree) == 4 or len(tree) == 5:
        return tree[1] == atom
    labels, left = [], [tree]
    while left:
        each = left.pop()
        if type(each) is list:
            left += each
            labels += [label for key, label in zip(each, each[1:]) if key == Atom(KEYWORD, ":named")]
    return atom in labels


PARTS = {"false": False, "true": True, "open": OPEN}


def check_place(texts, told, remark):
    """At the place of a remark stands what it tells of."""
    kind, spot = remark["kind"], remark["spot"]
    text = texts[spot["file"]]
    (claim,) = [each["spot"] for each in told["remarks"] if each["kind"] == ("claim" if kind in PARTS else "check")] or [None]
    byte = text.byte(spot)
    right = True
    if remark["command"] is not None:
        right = spot["file"] == "s.smt2" and byte == text.trees[remark["command"] - 1][0] and is_told(remark["text"], text.tree(spot, False))
    elif kind in PARTS:
        right = spot == claim if remark["in"] is None else brings(text.tree(spot, spot["file"] == "a.txt"), remark["in"])
    elif kind in ("claim", "also false"):
        right = spot == claim
    elif kind in ("item", "bound before", "answer", "next answer"):
        right = spot["file"] == "a.txt" and is_told(remark["text"], text.tree(spot, kind in ("item", "bound before")))
    elif kind == "model":
        right = spot["file"] == "a.txt" and type(text.tree(spot, False)) is list
    elif kind == "label":
        right = is_told(remark["text"], text.atom(spot))
    elif kind == "in use":
        (label,) = [each["text"] for each in told["remarks"] if each["kind"] == "label"]
        right = is_told(label, text.atom(spot))
    elif kind == "the answers end":
        right = spot["file"] == "a.txt" and byte == len(text.text)
    if not right:
        raise Wrong("something else stands there: %s" % remark)


def check_numbers(texts, line, told):
    """The remarks tell of the numbers in the line of the report."""
    numbers = list(map(int, re.findall(r"(?:command|answer|item|assumption|byte) (\d+)", line)))
    first, rest = told["remarks"][0], {remark["kind"]: remark for remark in reversed(told["remarks"])}
    last = numbers[-1]
    if told["outcome"] == "text-fault":
        name = "s.smt2" if "in the script" in line else "a.txt"
        right = first["spot"]["file"] == name and texts[name].byte(first["spot"]) == last
    elif told["outcome"] == "extra-answer":
        right = texts["a.txt"].byte(first["spot"]) == texts["a.txt"].trees[last - 1][0]
    else:
        right = first["command"] == numbers[0]
    if told["outcome"] == "unexpected-answer":
        right = right and texts["a.txt"].byte(rest["next answer"]["spot"]) == texts["a.txt"].trees[last - 1][0]
    elif told["outcome"] == "item-fault":
        right = right and rest["item"]["number"] == last
    elif told["outcome"] == "lacks":
        right = right and rest["lacks"]["command"] == last
    elif "claim" in rest:
        is_right = rest["claim"]["text"] == "assumption %d of the check" % last
        right = right and (is_right if " assumption " in line else rest["claim"]["command"] == last)
    if not right:
        raise Wrong("%s: %s" % (line, told["remarks"]))


def check_places(script, answers, report, objects):
    """At each place stands what is told to stand there. How many remarks have a place."""
    texts = {"s.smt2": Text(script), "a.txt": Text(answers)}
    count = 0
    for line, told in zip(report, objects):
        if told["remarks"]:
            check_numbers(texts, line, told)
        for remark in told["remarks"]:
            if remark["spot"] is not None:
                check_place(texts, told, remark)
                count += 1
            for item in remark["items"]:
                if item["spot"]["file"] != "a.txt" or not brings(texts["a.txt"].tree(item["spot"], True), item["name"]):
                    raise Wrong("another item stands there: %s" % item)
    return count


# A value that a term can name where nothing tells its sort.
NAMED = re.compile(r"true|false|\(- \d+\)|\d+|#b[01]+|#x[0-9a-f]+")


# A value that no term is: its digits are over the largest integer that has a value.
LOWEST = "(- %d)" % 2**127


def check_part(world, remark):
    """A part has the value that is told of it, and so has each term in it. Whether it was looked at."""
    values = remark["values"]
    names = {plain(each["term"]): each["value"] for each in values if plain(each["term"]).strip("|") in world.variables}
    if any(value == LOWEST or not NAMED.fullmatch(value) for value in names.values()) or is_cut(remark["text"]) or any(map(is_cut, names)):
        return False
    if world.value(plain(remark["text"]), names)[1] is not PARTS[remark["kind"]]:
        raise Wrong("%s: it is %s" % (remark, world.value(plain(remark["text"]), names)))
    for each in values:
        for term in (each["term"], each["given"]):
            if term is not None and not is_cut(term) and world.told(plain(term), names) != plain(each["value"]):
                raise Wrong("%s: %s is %s" % (remark, term, world.told(plain(term), names)))
    return True


def check_others(world, told, claim):
    """Just those claims behind the one of the report are told false that are, as far as there is room."""
    found = []
    for remark in told["remarks"]:
        if remark["kind"] == "also false" and remark["command"] is not None:
            found.append("command %d" % remark["command"])
        elif remark["kind"] == "also false":
            number, literal = re.fullmatch(r"assumption (\d+) (.*)", remark["text"]).groups()
            found.append("assumption " + number)
            if not is_told(literal, world.literals[int(number) - 1]):
                raise Wrong("another literal: %s" % remark)
    first = re.match(r"assumption \d+", claim["text"])
    behind = world.false_claims()
    wanted = behind[behind.index(first.group() if first else "command %d" % claim["command"]) + 1 :]
    if found != wanted and (found != wanted[: len(found)] or len(told["remarks"]) < 198):
        raise Wrong("false too are %s, and told is %s" % (wanted, found))


def check_values(script, answers, prints, report, objects, profile=BASE):
    """The parts and the values told are right, by the other evaluator over the model of the check. How many parts were looked at."""
    checked = 0
    for line, told in zip(report, objects):
        model = re.search(r" model of command (\d+): (?:refuted|assertion|assumption)", line)
        if not model:
            continue
        world = World(script, answers, prints, told["remarks"][0]["command"], int(model.group(1)), profile)
        (claim,) = [remark for remark in told["remarks"] if remark["kind"] == "claim"]
        (place,) = [remark["spot"] for remark in told["remarks"] if remark["kind"] == "model"]
        if Text(answers).byte(place) != spans(answers)[world.printed][0]:
            raise Wrong("another model: %s" % place)
        if told["outcome"] == "refuted":
            check_others(world, told, claim)
        for remark in told["remarks"]:
            # (an item may use what no name of the script stands for)
            if remark["kind"] in PARTS and remark["spot"]["file"] == "s.smt2":
                checked += check_part(world, remark)
    return checked


def bare(tree):
    """A tree without its annotations."""
    if type(tree) is not list:
        return tree
    if begins_with(tree, "!"):
        return bare(tree[1])
    return [bare(each) for each in tree]


def bound_in(trees):
    """The names that are bound in trees, and others: the first symbols of lists of two."""
    names, left = set(), list(trees)
    while left:
        tree = left.pop()
        if type(tree) is list:
            left += tree
            if len(tree) == 2 and is_symbol(tree[0]):
                names.add(tree[0].text)
    return names


class World:
    """What is in force at a check, and the model that answers a command."""

    def __init__(self, script, answers, prints, check, model, profile):
        self.force = Force(prints, profile)
        given, trees = read(answers).trees, read(script).trees
        self.variables = bound_in(trees + given)
        place = 0
        for number, command in enumerate([command_of(tree, profile) for tree in trees[:model]], 1):
            need, fits = takes(command, self.force.print_success, profile)
            answer = None
            if need is not NONE and place < len(given) and fits(given[place]):
                answer = given[place]
                place += 1
            if number < check and (answer is None or not is_no_effect(answer)):
                self.force.take(number, command)
            elif number == check:
                self.assumed = self.force.take(number, command)
                self.literals = command.parts[0] if command.parts else []
        # The number of the answer that is the model, from 0.
        self.printed = place - 1
        bodies = dict(bodies_of(given[self.printed], self.force))
        for thing in self.force.of_kind(Definition):
            bodies[thing.name] = thing.body
        self.structure = Structure(bodies)

    def value(self, text, names):
        """The sort and the value of a term, where these names have these values."""
        force = self.force
        context = Context(force.theories, force.abbreviations, force.ranks, force.profile == WIDE, force.ranks)
        bound = " ".join("(%s %s)" % pair for pair in names.items())
        tree = read(("(let (%s) %s)" % (bound, text) if bound else text).encode("latin-1")).trees[0]
        sort, node = Checker(context, []).check(bare(tree), {})
        return sort, self.structure.value(node, {})

    def told(self, text, names):
        """The value of a term as it is told."""
        sort, value = self.value(text, names)
        if value is OPEN:
            return "open"
        if sort == BOOL:
            return "true" if value else "false"
        if sort == INT:
            return "%d" % value if value >= 0 else "(- %d)" % -value
        if sort == REAL:
            top, below = abs(value.numerator), value.denominator
            text = "%d.0" % top if below == 1 else "(/ %d %d)" % (top, below)
            return text if value >= 0 else "(- %s)" % text
        if type(sort) is Free:
            return value.name if read(value.name.encode("latin-1")).trees == [Atom(SYMBOL, value.name)] else "|%s|" % value.name
        return "#x%0*x" % (sort // 4, value) if sort % 4 == 0 else "#b{:0{}b}".format(value, sort)

    def false_claims(self):
        """The claims that are false, in order."""
        claims = [("command %d" % each.command, each.node) for each in self.force.of_kind(Assertion)]
        claims += [("assumption %d" % number, node) for number, node in enumerate(self.assumed, 1)]
        return [name for name, node in claims if self.structure.value(node, {}) is False]


def spoiled(answers, random_source):
    """The answers with one value of a model changed, or None."""
    places = [found for found in re.finditer(rb"(?<=[ )])(true|false|\d+|#b[01]+)(?=\)+\s)", answers)]
    if not places:
        return None
    found = random_source.choice(places)
    old = found.group()
    if old in (b"true", b"false"):
        new = b"false" if old == b"true" else b"true"
    elif old.startswith(b"#b"):
        new = old[:-1] + (b"1" if old.endswith(b"0") else b"0")
    else:
        new = b"%d" % (int(old) + random_source.choice((1, 2, 5)))
    return answers[: found.start()] + new + answers[found.end() :]


def spoiled_dialogues(program, wanted):
    """Solvers' dialogues with a changed model that is refuted."""
    source = random.Random(52)
    kept = [each for each in dialogues_of(os.path.join(TOP, "crates", "dialogue_rows", "data")) if b"define-fun" in each.answers]
    source.shuffle(kept)
    done = parts = 0
    for each in kept * 3:
        if done == wanted:
            break
        answers = spoiled(each.answers, source)
        if answers is None or not is_refuted(program, each.script, answers, each.print_success):
            continue
        report, objects = explained(program, each.script, answers, each.print_success)
        if check_places(each.script, answers, report, objects) < 1:
            raise Wrong("no place is told: %s" % objects)
        parts += check_values(each.script, answers, each.print_success, report, objects)
        done += 1
    if done < wanted or parts < wanted // 2:
        raise Wrong("%d dialogues and %d parts are too few" % (done, parts))


def invented_dialogues(program, wanted, profile):
    """Invented dialogues that are refuted, some of them since a value of a model is changed."""
    source = random.Random(53)
    done = parts = seed = 0
    while done < wanted:
        seed += 1
        each = (invent_wide if profile == WIDE else invent)(seed)
        more = ["--profile", profile]
        for answers in (each.answers, spoiled(each.answers, source)):
            if answers is None or not is_refuted(program, each.script, answers, each.print_success, more):
                continue
            try:
                report, objects = explained(program, each.script, answers, each.print_success, more)
                if check_places(each.script, answers, report, objects) < 1:
                    raise Wrong("no place is told: %s" % objects)
                parts += check_values(each.script, answers, each.print_success, report, objects, profile)
            except Wrong as wrong:
                raise Wrong("seed %d of %s: %s" % (seed, profile, wrong))
            done += 1
    if parts < wanted // 2:
        raise Wrong("%d parts of %d dialogues are too few" % (parts, done))


def generated():
    """A script of 1,536 lines with several commands in a line, commands over lines, comments, bars and strings with parentheses."""
    lines, values = [], {}
    lines.append("(set-logic QF_LIA) ; ) not a command (\n")
    lines.append('(set-info :source "a ""quoted"" ( string\n over lines )") (set-info :status sat)\n')
    for number in range(300):
        name = "|r (%d|" % number if number % 7 == 0 else "r%d" % number
        values[name] = number * 3
        if number % 3 == 0:
            lines.append("(declare-const %s\n  ; a comment ( with a parenthesis\n  Int)\n" % name)
        elif number % 3 == 1:
            lines.append("(declare-const %s Int) " % name)
        else:
            lines.append("(declare-fun %s () Int)\n" % name)
    names = list(values)
    lines.append("\n(define-fun close ((a Int) (b Int)) Bool\n  (let ((d (- b a)))\n    (and (<= 0 d)\n      (<= d 3))))\n")
    number = 0
    while "".join(lines).count("\n") < 1533:
        first, second = names[number % 299], names[number % 299 + 1]
        form = ("(assert (close %s %s))\n", "(assert\n  (close ; one\n    %s %s))\n", "(assert (! (< %s %s) :named |n (%%d|)) (echo \"(\")\n")[number % 3]
        text = form % (first, second)
        lines.append(text % number if "%d" in text else text)
        number += 1
    lines.append("(check-sat)\n(get-model)\n(exit)\n")
    return "".join(lines), values


def check_generated(program):
    """The generated script, with one value of the model changed."""
    script, values = generated()
    script = script.encode()
    if script.count(b"\n") < 1536:
        raise Wrong("the script has %d lines" % script.count(b"\n"))
    for name in ("r100", "|r (140|", "r298"):
        changed = dict(values, **{name: values[name] + 40})
        echoes = b'"("\n' * script.count(b"(echo ")
        items = "".join("  (define-fun %s () Int\n    %d)\n" % pair for pair in changed.items())
        answers = echoes + b"sat\n(\n" + items.encode() + b")\n"
        report, objects = explained(program, script, answers, False)
        if not any(" refuted by " in line for line in report):
            raise Wrong("not refuted: %s" % report)
        if check_places(script, answers, report, objects) < 2 or check_values(script, answers, False, report, objects) < 1:
            raise Wrong("too little is told: %s" % objects)


def check_hostile(program):
    """Names of control bytes, of other letters and of 1 MB, and deep terms, print within the bounds."""
    for name in (b"|\x01\x02\t\n\x7f|", "|\u00e4\u4e2d|".encode(), b"|" + b"x" * 1000000 + b"|", b"|\x1b[31m|"):
        script = b"(declare-const %s Bool)(assert (and %s true))(check-sat)(get-model)" % (name, name)
        answers = b"sat ((define-fun %s () Bool false))" % name
        report, objects = explained(program, script, answers, False)
        check_places(script, answers, report, objects)
        if " refuted by " in report[0] and not any(remark["kind"] == "false" for remark in objects[0]["remarks"]):
            raise Wrong("no part is told of %r: %s" % (name[:20], objects))
        item = b"(define-fun %s () Bool true)" % name
        for script, answers in (
            (b"(assert %s)" % name, b""),
            (b"(declare-const %s Bool)" % name * 2, b""),
            (b"(assert (! true :named %s))" % name * 2, b""),
            (b"(assert (let ((%s true) (%s true)) true))" % (name, name), b""),
            (b"(declare-const x %s)" % name, b""),
            (b"(check-sat)(get-model)", b"sat (" + item * 2 + b")"),
            (b"(assert (! true :named %s))(check-sat)(get-model)" % name, b"sat (" + item + b")"),
            (b"(check-sat)", b"sat" + name),
            (name, b"sat"),
            (b"(assert (= %s" % name, b""),
        ):
            check_places(script, answers, *explained(program, script, answers, False))
    deep = b"(assert " + b"(not " * 900 + b"true" + b")" * 900 + b")"
    script = b"(declare-const p Bool)" + deep + b"(assert p)(check-sat)(get-model)"
    _, objects = explained(program, script, b"sat ((define-fun p () Bool false))", False)
    if not any(remark["kind"] == "false" and remark["text"] == "p" for remark in objects[0]["remarks"]):
        raise Wrong("the part is not told: %s" % objects)
    wide = b"(declare-const p Bool)" + b"(assert p)\n" * 1000 + b"(check-sat)(get-model)"
    _, objects = explained(program, wide, b"sat ((define-fun p () Bool false))", False)
    count = len(lines_of(objects[0]))
    if count > 200 or count < 150:
        raise Wrong("%d lines of one check" % count)


def main():
    program = os.path.abspath(sys.argv[1])
    count = int(sys.argv[2]) if len(sys.argv) > 2 else 100
    invented = [lambda each, profile=profile: invented_dialogues(each, count // 2, profile) for profile in (BASE, WIDE)]
    for part in (check_generated, check_hostile, lambda each: spoiled_dialogues(each, 50), *invented):
        try:
            part(program)
        except Wrong as wrong:
            print("explain: %s" % wrong)
            return 1
    return 0


if __name__ == "__main__":
    sys.exit(main())
