"""A second validator of dialogues, which was written from docs/LANGUAGE.md alone: plain, and slow.

`report` gives the lines that the program should print on a script and its answers. Everything below it recurs as deep as terms nest and
names use one another: `with_deep_stack` runs what calls it.
"""
import re
import sys
import threading

from models import CONFIRMED, items_of, judged
from operators import is_name_of_wide
from script import CHANGING, CHECKS, Abbreviation, Assertion, Declaration, Definition, Force, Refused, command_of, is_literal
from script import is_define_const, is_option
from sorts import BASE, LOGICS, WIDE, WIDE_LOGICS, WIDE_SORTS, element_sort
from terms import labels_of
from text import DEEPEST, STRING, begins_with, is_kind, is_symbol, read

STEPS = 10000000
STATUS = {"valid": 0, "invalid": 1, "not decided": 2, "refused": 3}
QUESTIONS = frozenset(
    "get-value get-info get-option get-assertions get-assignment get-proof get-unsat-core get-unsat-assumptions".split()
)


class Waits(Exception):
    """What comes next isn't decided by what has come of the texts."""


class Fault(Exception):
    """The first fault of a dialogue, in the words of its line."""


class Trees:
    """The trees of a text, which are taken one by one."""

    def __init__(self, reading):
        self.reading = reading
        self.taken = 0

    def next(self):
        """The next tree, which is not taken, or None where the text ends, whole or with a fault."""
        if self.taken < len(self.reading.trees):
            return self.reading.trees[self.taken]
        if self.reading.flaw is None and not self.reading.ended:
            raise Waits()
        return None

    def take(self):
        """Takes the next tree, and gives its number."""
        self.taken += 1
        return self.taken

    def fault(self, where):
        """The line of the text's fault."""
        return Fault("fault %s in the %s at byte %d" % (self.reading.flaw.letter, where, self.reading.flaw.place))


def is_error(answer):
    """A list of just the symbol `error` and a string."""
    return type(answer) is list and len(answer) == 2 and is_symbol(answer[0], "error") and is_kind(answer[1], STRING)


def is_one_of(answer, *words):
    """Whether an answer is one of these words."""
    return is_symbol(answer) and answer.text in words


def is_no_effect(answer):
    """An answer by which its command took no effect."""
    return is_one_of(answer, "unsupported") or is_error(answer)


def is_general(answer):
    """`success`, `unsupported` or an error."""
    return is_one_of(answer, "success") or is_no_effect(answer)


NEEDED, IF_FITS, NONE = "a needed answer", "the next answer if it fits", "no answer"


def takes(command, print_success, profile=BASE):
    """What answer a command takes: one of the three above, and which trees fit."""
    word, parts = command
    if word in CHECKS:
        return NEEDED, lambda answer: is_one_of(answer, "sat", "unsat", "unknown") or is_no_effect(answer)
    if word == "get-model":
        return NEEDED, lambda answer: type(answer) is list or is_one_of(answer, "unsupported")
    if word == "echo":
        return NEEDED, lambda answer: is_kind(answer, STRING) or is_no_effect(answer)
    if word in QUESTIONS:
        return NEEDED, lambda answer: not is_one_of(answer, "success")
    if word == "exit":
        return IF_FITS, lambda answer: is_one_of(answer, "success")
    if word == "set-option" and parts[0].text == ":print-success":
        return NEEDED if is_option(parts[1], "true") else IF_FITS, is_general
    if print_success:
        return NEEDED, is_general
    if word in ("set-option", "set-info") or profile == WIDE and word == "set-logic" and parts[0].text not in LOGICS[WIDE]:
        return IF_FITS, lambda answer: is_one_of(answer, "unsupported")
    return NONE, None


def form_of(tree):
    """The form of a command that the profile `wide` has besides, in words, or nothing."""
    if is_define_const(tree):
        return "define-const"
    if type(tree) is list and len(tree) == 1 and (begins_with(tree, "push") or begins_with(tree, "pop")):
        return "bare " + tree[0].text
    return "declare-sort" if begins_with(tree, "declare-sort") else ""


class Window:
    """The window of a check that was answered `sat`, and the nodes that this check assumes."""

    def __init__(self, begin, assumed):
        self.begin = begin
        self.assumed = assumed
        self.models = 0


class Dialogue:
    """A script and its answers, and the lines told so far."""

    def __init__(self, script, answers, print_success, steps, profile, reached):
        self.script = Trees(script)
        self.answers = Trees(answers)
        self.force = Force(print_success, profile)
        self.steps = steps
        self.reached = reached
        self.lines = []
        self.exited = False
        # The names that were defined or were labels, in the profile `wide`, where what is reached is counted.
        self.defined = set()
        self.checks = 0
        self.window = None
        self.counts = dict.fromkeys(("confirmed", "refuted", "undecided", "unchecked"), 0)

    def count(self, name):
        """Counts something that is reached."""
        if self.reached is not None:
            self.reached[name] += 1

    def tell(self, line, counts):
        """A line of a check."""
        self.lines.append(line)
        self.counts[counts] += 1

    def close_window(self):
        """The window of a check ends."""
        if self.window is not None:
            if self.window.models:
                self.tell(self.window.begin + "sat, confirmed", "confirmed")
            else:
                self.tell(self.window.begin + "sat, no model", "undecided")
            if self.window.models > 1:
                self.count("window of several models, confirmed")
                if self.window.assumed:
                    self.count("assuming: several models, confirmed")
        self.window = None

    def run(self):
        """Tells all lines, and gives the verdict."""
        try:
            self.take_commands()
            self.close_window()
            if self.answers.next() is not None:
                raise Fault("fault P3 at answer %d" % self.answers.take())
            if self.answers.reading.flaw:
                raise self.answers.fault("answers")
            verdict = "invalid" if self.counts["refuted"] else "not decided" if self.counts["undecided"] else "valid"
        except Fault as fault:
            self.close_window()
            self.lines.append(str(fault))
            self.count_fault(str(fault))
            verdict = "refused"
        counts = ", ".join("%s %d" % item for item in self.counts.items())
        self.lines.append("verdict: %s, %s" % (verdict, counts))
        return verdict

    def count_fault(self, fault):
        """Counts faults of checks with assumptions, and those that have to do with global declarations."""
        kind, command, _ = fault.partition(" at command ")
        if not command or self.reached is None:
            return
        tree = self.script.reading.trees[self.script.taken - 1]
        if begins_with(tree, "check-sat-assuming"):
            self.count("assuming: " + kind)
        if self.force.profile == WIDE and form_of(tree):
            self.count("wide: %s, %s" % (form_of(tree), kind))
        if self.force.profile == WIDE and kind == "fault C7 F7" and tree[0].text.endswith("-sort") and tree[1].text in WIDE_SORTS:
            self.count("wide: %s of %s" % (tree[0].text, tree[1].text))
        if kind == "fault C5":
            self.count("global: fault C5" if begins_with(tree, "set-option") else "global: a logic that is late")
        if kind == "fault C7 F7" and is_symbol(tree[1]) and self.force.outlived:
            for thing in self.outlived():
                if thing.name == tree[1].text and (type(thing) is Abbreviation) == tree[0].text.endswith("-sort"):
                    self.count("global: fault C7 F7, %s whose level is gone" % self.words_of(thing))

    def take_commands(self):
        """Takes all commands and their answers."""
        while self.script.next() is not None:
            tree = self.script.next()
            number = self.script.take()
            try:
                self.take_command(number, tree)
            except Refused as refused:
                if refused.kind:
                    self.count("wide: " + refused.kind)
                inner = " " + refused.inner if refused.inner else ""
                raise Fault("fault %s%s at command %d" % (refused.letter, inner, number))
        if self.script.reading.flaw:
            raise self.script.fault("script")

    def take_command(self, number, tree):
        """Takes one command, with its answer."""
        if self.exited:
            raise Refused("C6")
        command = command_of(tree, self.force.profile)
        if command.word in CHECKS:
            self.close_window()
        self.count_form(tree)
        answer = self.answer_of(number, command)
        self.count_logic(command, answer)
        if answer is not None and is_no_effect(answer):
            if command.word in CHECKS:
                self.take_check(number, command, "error" if type(answer) is list else answer.text, [])
            self.count_change(command, "without effect")
            return
        if command.word in CHANGING:
            self.close_window()
        self.count_change(command, "")
        self.count_uses(command)
        assumed = self.force.take(number, command)
        self.count_free(number)
        if command.word in CHECKS:
            self.take_check(number, command, answer.text, assumed)
        elif command.word == "get-model":
            self.take_model(number, answer)
        elif command.word == "exit":
            self.exited = True

    def answer_of(self, number, command):
        """The answer that a command takes, or None where it takes none."""
        need, fits = takes(command, self.force.print_success, self.force.profile)
        if need is NONE:
            return None
        answer = self.answers.next()
        if answer is not None and fits(answer):
            self.answers.take()
            return answer
        if need is IF_FITS:
            return None
        if answer is not None:
            raise Fault("fault P2 at command %d, answer %d" % (number, self.answers.take()))
        if self.answers.reading.flaw:
            raise self.answers.fault("answers")
        raise Fault("fault P1 at command %d" % number)

    def take_check(self, number, command, answer, assumed):
        """A check, its answer, and the nodes that it assumes."""
        self.checks += 1
        begin = "check %d at command %d: " % (self.checks, number)
        if command.word == "check-sat-assuming" and self.reached is not None:
            self.count("assuming: answered " + answer)
            self.count_literals(command.parts[0])
        if answer == "sat":
            self.window = Window(begin, assumed)
        else:
            self.tell(begin + answer, "unchecked")

    def count_form(self, tree):
        """Counts commands in a form of the profile `wide`, and keeps the names that are defined."""
        if self.reached is None or self.force.profile != WIDE:
            return
        if form_of(tree):
            self.count("wide: " + form_of(tree))
        self.defined.update(thing.name for thing in self.force.of_kind(Definition))

    def count_free(self, number):
        """Counts what a command named as a conversion or an overflow predicate, where that is no operator."""
        if self.reached is None:
            return
        for thing in self.force.brought[-2:]:
            if thing.command == number and type(thing) in (Declaration, Definition) and is_name_of_wide(thing.name):
                self.count("free name of a conversion or an overflow predicate: " + self.words_of(thing))

    def count_logic(self, command, answer):
        """Counts the logics that are set in the profile `wide`, and their answers."""
        if self.reached is None or self.force.profile != WIDE or command.word != "set-logic":
            return
        name = command.parts[0].text
        kind = "unknown logic"
        if answer is None and name in LOGICS[WIDE] and is_one_of(self.answers.next(), "unsupported"):
            self.count("wide: logic that leaves unsupported")
        for _, names in WIDE_LOGICS:
            if name.replace("QF_", "", 1) in names.split() and name in LOGICS[WIDE]:
                kind = "logic like %s, %s QF_" % (names.split()[0], "with" if name.startswith("QF_") else "without")
        self.count("wide: " + kind)
        if is_one_of(answer, "unsupported"):
            self.count("wide: %s, unsupported, success %s" % (kind.split(" like")[0], "on" if self.force.print_success else "off"))

    def count_items(self, model):
        """Counts which names of the script a model repeats, and which are the script's no more."""
        if self.reached is None or self.force.profile != WIDE:
            return
        things = {thing.name: thing for thing in self.force.of_kind(Definition)}
        met = set()
        for item in model:
            if type(item) is not list or len(item) < 2 or not is_symbol(item[1]):
                continue
            name = item[1].text
            if name in things:
                self.count("wide: item of " + self.words_of(things[name]))
                self.count("wide: item of an inner label" if self.is_inner(things[name]) else "wide: item of another")
                if name in met:
                    self.count("wide: two items of a definition")
                if (Definition, name) in self.force.outlived:
                    self.count("wide: item of a definition whose level is gone")
            elif name in self.defined and name not in self.force.ranks:
                self.count("wide: item of a name whose definition is gone")
            elif name in self.force.ranks:
                self.count("wide: item of a declared name")
            met.add(name)

    def count_meanings(self, model, outcome):
        """Counts of which names an item has `F7` for the form of an element."""
        found = re.fullmatch(r"item (\d+) F7", outcome)
        if self.reached is None or self.force.profile != WIDE or not found:
            return
        item = items_of(model)[int(found.group(1)) - 1]
        if element_sort(item[1].text, self.force.abbreviations) is not None:
            things = [thing for thing in self.force.brought if hasattr(thing, "rank") and thing.name == item[1].text]
            self.count("wide: F7 of %s, %s" % (item[0].text, self.words_of(things[0]) if things else "no name of the script"))

    def is_inner(self, thing):
        """Whether a definition is a label that stands inside an assertion."""
        tree = self.script.reading.trees[thing.command - 1]
        if not begins_with(tree, "assert"):
            return False
        return not begins_with(tree[1], "!") or thing.name not in labels_of(tree[1])

    def count_change(self, command, how):
        """Counts what a command does to global declarations."""
        force = self.force
        word, parts = command
        if self.reached is None:
            return
        if word == "set-option" and parts[0].text == ":global-declarations":
            same = is_option(parts[1], "true") == force.global_declarations
            late = "late" if force.settled else "behind a logic" if force.with_logic else "early"
            self.count("global: %s to %s, %s%s" % ("kept" if same else "set", parts[1].text, late, how and ", " + how))
        elif word in ("pop", "reset-assertions", "reset") and not how:
            on = "on" if force.global_declarations else "off"
            least = int(parts[0].text) if word == "pop" else 0
            gone = [thing for thing in force.brought if word != "pop" or thing.level > force.levels - least]
            for thing in gone:
                self.count("global %s: %s with %s" % (on, word, self.words_of(thing)))

    def count_uses(self, command):
        """Counts commands with names whose levels are gone."""
        if self.reached is None or not self.force.outlived:
            return
        waiting, names = list(command.parts), set()
        while waiting:
            part = waiting.pop()
            if type(part) is list:
                waiting.extend(part)
            elif is_symbol(part):
                names.add(part.text)
        for thing in self.outlived():
            if thing.name in names:
                self.count("global: %s with %s whose level is gone" % (command.word, self.words_of(thing)))

    def outlived(self):
        """The things in force whose level is gone."""
        return [
            thing for thing in self.force.brought if type(thing) is not Assertion and (type(thing), thing.name) in self.force.outlived
        ]

    def words_of(self, thing):
        """What a thing in force is."""
        if type(thing) is Definition:
            labelled = begins_with(self.script.reading.trees[thing.command - 1], "assert")
            return "a label" if labelled else "a definition"
        return {Declaration: "a declared name", Abbreviation: "an abbreviation", Assertion: "an assertion"}[type(thing)]

    def count_literals(self, literals):
        """Counts which kinds of literals a check has."""
        if not literals:
            self.count("assuming: nothing")
        if len(set(map(str, literals))) < len(literals):
            self.count("assuming: a literal twice")
        terms = [literal for literal in literals if not is_literal(literal)]
        for term in terms:
            self.count("wide: a term assumed")
            if begins_with(term, "!"):
                self.count("wide: an annotation assumed")
        literals = [literal for literal in literals if is_literal(literal)]
        names = [(literal[1] if type(literal) is list else literal).text for literal in literals]
        kinds = {thing.name: thing for thing in self.force.brought if hasattr(thing, "rank")}
        for literal, name in zip(literals, names):
            thing = kinds.get(name)
            if thing is None:
                self.count("assuming: true or false" if name in ("true", "false") else "assuming: no name in force, no effect")
            else:
                self.count("assuming: " + self.words_of(thing))
            if type(literal) is list:
                self.count("assuming: a negation")
        if len(set(names)) < len(set(map(str, literals))):
            self.count("assuming: a literal and its negation")

    def take_model(self, number, model):
        """A model, which is looked at if it is in a window."""
        if self.window is None:
            self.count("model outside windows")
            return
        self.count_items(model)
        outcome = judged(model, self.force, self.window.assumed, self.steps, self.reached)
        self.count_meanings(model, outcome)
        self.window.models += 1
        if self.reached is not None and self.force.outlived:
            self.count_model(outcome)
        if outcome != CONFIRMED:
            if self.window.models > 1:
                self.count("window of several models, one not confirmed")
                if "assumption" in outcome:
                    self.count("assuming: several models, one not confirmed")
            kind = "refuted" if outcome.startswith("refuted") else "undecided"
            self.tell("%ssat, model of command %d: %s" % (self.window.begin, number, outcome), kind)
            self.window = None


    def count_model(self, outcome):
        """Counts how models end where names are in force whose levels are gone."""
        word, last = outcome.split(" ")[0], outcome.split(" ")[-1]
        ends = {"lacks": "lacks a name", "item": "item " + last, "refuted": "refuted", "confirmed": "confirmed"}
        if word == "lacks":
            thing = [thing for thing in self.force.of_kind(Declaration) if thing.command == int(last)][0]
            if (Declaration, thing.name) not in self.force.outlived:
                return
        if word in ends:
            self.count("global: model with names whose levels are gone: " + ends[word])


def report(script, answers, print_success=True, steps=STEPS, script_ended=True, answers_ended=True, reached=None, profile=BASE):
    """The lines of the report on two texts, and the verdict; steps may be None for no limit.

    Of texts that have not ended, these are the lines that are decided by what has come, and the verdict is None where it isn't. What is
    reached is counted in `reached`, if that is given.
    """
    readings = [read(text, told, DEEPEST[profile]) for text, told in ((script, script_ended), (answers, answers_ended))]
    dialogue = Dialogue(*readings, print_success, steps, profile, reached)
    try:
        verdict = dialogue.run()
    except Waits:
        verdict = None
    return dialogue.lines, verdict


def with_deep_stack(work, *arguments):
    """Runs a function in a thread with room for terms that nest deep, and gives what it returns."""
    result = []

    def run():
        try:
            result.append((True, work(*arguments)))
        except BaseException as raised:  # pylint: disable=broad-except
            result.append((False, raised))

    before = threading.stack_size(512 << 20)
    limit = sys.getrecursionlimit()
    sys.setrecursionlimit(1000000)
    thread = threading.Thread(target=run)
    thread.start()
    thread.join()
    threading.stack_size(before)
    sys.setrecursionlimit(limit)
    fine, value = result[0]
    if not fine:
        raise value
    return value


def main():
    """validator.py [--print-success on|off] [--profile base|wide] [--steps N] SCRIPT ANSWERS: prints the report, and ends with its status."""
    arguments = sys.argv[1:]
    print_success, steps, profile = True, STEPS, BASE
    while len(arguments) > 2:
        option, value = arguments[:2]
        if option == "--print-success":
            print_success = value == "on"
        elif option == "--steps":
            steps = int(value)
        elif option == "--profile" and value in (BASE, WIDE):
            profile = value
        else:
            sys.exit(main.__doc__)
        arguments = arguments[2:]
    with open(arguments[0], "rb") as script, open(arguments[1], "rb") as answers:
        told = script.read(), answers.read(), print_success, steps, True, True, None, profile
        lines, verdict = with_deep_stack(report, *told)
    print("\n".join(lines))
    return STATUS[verdict]


if __name__ == "__main__":
    sys.exit(main())
