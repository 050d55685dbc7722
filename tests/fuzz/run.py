"""run.py [OPTIONS] N SEED: runs the program on the dialogues of N seeds from SEED, and compares it with the second validator.

Each seed has its dialogue, so `run.py 1 SEED` runs one alone. A difference is told with the seed, and written to a folder with both reports
and a smaller dialogue that differs too. What is reached is counted, and the counts are printed at the end: the status is 1 where there was
a difference, and where 2,000 seeds or more leave some kind out. With --mutated every dialogue is a stored one with changed bytes; nothing
has to be reached then.
"""
import argparse
import ctypes
import faulthandler
import functools
import multiprocessing
import os
import random
import re
import select
import shutil
import signal
import stat
import subprocess
import sys
import tempfile
import time
import traceback
from collections import Counter, namedtuple

import array_aims
import conversions
import reals
from dialogues import Dialogue, invent
from inventor import ALL_OPERATORS
from mutate import Corpus
from sorts import BASE, WIDE, WIDE_LOGICS, WIDE_SORTS
from spines import invent_spine
from text import read
from trees import copied, lists_in, written
from validator import STATUS, STEPS, report, with_deep_stack
from wide import invent_conversions, invent_wide, widened

HERE = os.path.dirname(os.path.abspath(__file__))
TOP = os.path.dirname(os.path.dirname(HERE))
PATIENCE = 5.0
# In units of 1,024 bytes, as the kernel counts memory.
MOST_MEMORY = 200 * 1024
STUCK = 1000
ENOUGH = 2000
# The request of `prctl` by which a process gets the children of its children that end, as in <linux/prctl.h>.
SET_CHILD_SUBREAPER = 36

# What a run of the program gave: its standard output, its status, or a word in its place for one that was ended by a signal or by us, its
# standard error, and the most memory that it had, or None where that can't be measured.
Run = namedtuple("Run", "output status complaint memory")

LETTERS = ["F%d" % number for number in range(1, 9)]
LINES = (
    ["check " + answer for answer in ("unsat", "unknown", "unsupported", "error", "sat, confirmed", "sat, no model")]
    + ["model: " + end for end in ["item " + letter for letter in LETTERS] + ["lacks", "refuted", "not decided"]]
    + ["model: refuted by assumption", "model: assumption not decided"]
    + ["fault %s in the %s" % (letter, where) for letter in ("X1", "X2", "X3") for where in ("script", "answers")]
    + ["fault C%d" % number for number in range(1, 7)]
    + ["fault C7 " + letter for letter in LETTERS]
    + ["fault P1", "fault P2", "fault P3"]
    + ["verdict " + verdict for verdict in STATUS]
)
OTHERS = [
    "window of several models, confirmed", "window of several models, one not confirmed", "model outside windows", "dialogue invented",
    "dialogue mutated", "print-success on", "print-success off", "print-success not said", "script in pieces", "answers in pieces",
    "both in pieces", "standard input", "named pipe", "lines before the end", "no script: status 4", "no answers: status 4",
    "a folder: status 4",
    "command line: status 5",
]
# What checks with assumptions have to reach.
ASSUMING = [
    "assuming: " + what
    for what in ["answered " + answer for answer in ("sat", "unsat", "unknown", "unsupported", "error")]
    + ["fault " + fault for fault in ("C1", "C6", "C7 F3", "C7 F4", "P1", "P2")]
    + ["nothing", "a negation", "true or false", "a declared name", "a definition", "a label", "a literal twice"]
    + ["a literal and its negation", "no name in force, no effect"]
    + ["all true", "all true, an assertion false", "false, an assertion false", "open, an assertion false"]
    + ["false, an assertion open", "open, an assertion open", "false behind one that is true", "open behind one that is true"]
    + ["false before one that is open", "false behind one that is open"]
    + ["several models, confirmed", "several models, one not confirmed"]
]
# What global declarations have to reach.
GLOBALS = ["global: " + what for what in (
    "set to true, early", "set to false, early", "set to true, behind a logic", "set to false, behind a logic", "set to true, late",
    "set to false, late", "kept to true, late", "kept to false, late", "kept to true, early", "set to true, late, without effect",
    "set to false, late, without effect", "set to true, early, without effect", "fault C5", "a logic that is late",
)]
NAMED = ("a declared name", "a definition", "a label")
GLOBALS += [
    "global %s: %s with %s" % (on, word, kind)
    for on in ("on", "off")
    for word in ("pop", "reset-assertions", "reset")
    for kind in NAMED + ("an abbreviation", "an assertion")
]
GLOBALS += ["global: fault C7 F7, %s whose level is gone" % kind for kind in NAMED + ("an abbreviation",)]
GLOBALS += ["global: %s with %s whose level is gone" % (word, kind) for word in ("assert", "check-sat-assuming") for kind in NAMED]
GLOBALS += ["global: declare-const with an abbreviation whose level is gone"]
GLOBALS += ["global: model with names whose levels are gone: " + end for end in ("lacks a name", "item F7", "refuted", "confirmed")]
OTHERS += ASSUMING + GLOBALS + conversions.FREE
REQUIRED = LINES + OTHERS + ["operator " + name for name in ALL_OPERATORS]
# What the profile `wide` has to reach besides.
WIDE_KINDS = ["wide: " + what for what in (
    "bare push", "bare pop", "bare push, fault C3", "bare pop, fault C4", "define-const", "a term assumed", "an annotation assumed",
    "item of a definition", "item of a label", "item of an inner label", "item of a declared name", "two items of a definition",
    "item of a name whose definition is gone", "item of a definition whose level is gone", "repeated item", "repeated item with parameters", "unknown logic",
    "logic, unsupported, success on", "logic that leaves unsupported", "unknown logic, unsupported, success on",
    "unknown logic, unsupported, success off",
)]
WIDE_KINDS += ["wide: define-const, fault C7 " + letter for letter in ("F1", "F3", "F4", "F7")]
WIDE_KINDS += ["wide: repeated item " + letter for letter in LETTERS[:6]]
WIDE_KINDS += ["wide: declare-sort" + end for end in ("", ", fault C2", ", fault C7 F7")]
WIDE_KINDS += ["wide: item " + end for end in ("declare-fun", "declare-fun F1", "declare-fun F4", "forall", "declare-sort")]
WIDE_KINDS += ["wide: an element"]
# Names with an element's form, or nearly.
WIDE_KINDS += ["wide: F7 of define-fun, " + whose for whose in NAMED + ("no name of the script",)]
WIDE_KINDS += ["wide: F7 of declare-fun, " + whose for whose in NAMED]
WIDE_KINDS += ["wide: " + what for what in (
    "a name of the script in an element's form, F3", "a name by an abbreviation, F3", "a name of the script behind as, F7",
    "a name of an item behind as, F7", "item by the name of an abbreviation", "item by the name of no sort",
)]
WIDE_KINDS += ["wide: %s of %s" % (word, name) for word in ("declare-sort", "define-sort") for name in WIDE_SORTS]
WIDE_KINDS += ["wide: repeated item whose body would have " + letter for letter in ("F1", "F2", "F3", "F4", "F8")]
WIDE_KINDS += ["wide: logic like %s, %s QF_" % (names.split()[0], how) for _, names in WIDE_LOGICS for how in ("with", "without")]
# Reals.
WIDE_KINDS += ["operator " + name for name in reals.OPERATORS] + ["wide: a decimal that is no integer"]
WIDE_KINDS += ["wide: mixed " + name for name in "- + * / <= < >= > = distinct ite".split()]
WIDE_KINDS += ["wide: a fraction by " + name for name in "- + * / ite".split()]
WIDE_KINDS += ["wide: open by " + name for name in ("-", "+", "*", "/", "/ of 0")]
WIDE_KINDS += ["wide: numbers of the other sort as %s, F4" % what for what in ("arguments", "a body", "a rank")]
WIDE_KINDS += ["wide: an operator of integers with a Real, F4", "wide: a decimal without Reals, F3", "wide: the sort Real without Reals, F3"]
# Conversions and overflow.
WIDE_KINDS += conversions.KINDS + array_aims.KINDS
# What it hardly reaches: a label whose level is gone is set aside in it, and an operator's name is rare.
NOT_WIDE = "global: model with names whose levels are gone: item F7"
WITH_STEPS = ["model: too long", "limit on steps", "assuming: too long by its literals", "assuming: as long as the limit"]

ENDS = (
    ("model: item ", re.compile(r"item \d+ (F\d)$")),
    ("model: lacks", re.compile(r"lacks the symbol of command \d+$")),
    ("model: refuted", re.compile(r"refuted by the assertion of command \d+$")),
    ("model: refuted by assumption", re.compile(r"refuted by assumption \d+$")),
    ("model: assumption not decided", re.compile(r"assumption \d+ not decided$")),
    ("model: not decided", re.compile(r"assertion of command \d+ not decided$")),
    ("model: too long", re.compile(r"too long$")),
)
CHECK = re.compile(r"check \d+ at command \d+: (.*)")
MODEL = re.compile(r"sat, model of command \d+: (.*)")
FAULT = re.compile(r"fault ([XCP]\d(?: F\d)?(?: in the (?:script|answers))?)")


def kind_of(line):
    """The kind of a line of the report."""
    found = CHECK.match(line)
    if found:
        model = MODEL.match(found.group(1))
        if not model:
            return "check " + found.group(1)
        for kind, end in ENDS:
            shown = end.match(model.group(1))
            if shown:
                return kind + "".join(shown.groups())
    found = FAULT.match(line)
    if found:
        return "fault " + found.group(1)
    return "verdict " + line.split(",")[0].split(": ")[-1]


def spawn(command, streams):
    """Starts a command with other standard streams, by their numbers; gives its process."""
    if hasattr(os, "posix_spawn"):
        actions = [(os.POSIX_SPAWN_DUP2, end, standard) for standard, end in streams.items()]
        return os.posix_spawn(command[0], command, os.environ, file_actions=actions)
    # PyPy has no such call, and to copy its process takes longer than all else.
    library = ctypes.CDLL(None)
    # Larger than what the C library keeps in it.
    actions = ctypes.create_string_buffer(1024)
    library.posix_spawn_file_actions_init(actions)
    for standard, end in streams.items():
        library.posix_spawn_file_actions_adddup2(actions, end, standard)
    words = [os.fsencode(word) for word in command]
    settings = [b"%s=%s" % setting for setting in os.environb.items()]
    arguments = (ctypes.c_char_p * (len(words) + 1))(*words, None)
    environment = (ctypes.c_char_p * (len(settings) + 1))(*settings, None)
    process = ctypes.c_int()
    fault = library.posix_spawn(ctypes.byref(process), words[0], actions, None, arguments, environment)
    library.posix_spawn_file_actions_destroy(actions)
    if fault:
        raise OSError(fault, os.strerror(fault), command[0])
    return process.value


def reap(launched):
    """Waits for all children; gives the status of the first but the one launched, or None, and the most memory of all but that one."""
    ended, memory = None, 0
    while True:
        try:
            number, status, used = os.wait4(-1, 0)
        except ChildProcessError:
            return ended, memory
        if number != launched:
            ended = status if ended is None else ended
            memory = max(memory, used.ru_maxrss)


def launcher():
    """What the program is started by, that its memory can be measured; nothing where it can't be.

    The kernel counts to a program's memory what the process had that started it: some 100 MB here. So `setsid` starts it, which has less
    than any program, and which ends at once: the program becomes a child of this process.
    """
    setsid = shutil.which("setsid")
    try:
        if setsid is None or ctypes.CDLL(None).prctl(SET_CHILD_SUBREAPER, 1, 0, 0, 0):
            return []
    except AttributeError:
        return []
    with open(os.devnull, "wb") as nowhere:
        launched = spawn([setsid, "-f", "true"], {1: nowhere.fileno(), 2: nowhere.fileno()})
    return [setsid, "-f"] if reap(launched)[0] == 0 else []


def children():
    """The processes that this one is the parent of."""
    for name in filter(str.isdigit, os.listdir("/proc")):
        try:
            with open("/proc/%s/stat" % name, "rb") as file:
                parent = int(file.read().rpartition(b")")[2].split()[1])
        except OSError:
            continue
        if parent == os.getpid():
            yield int(name)


class Program:
    """The built program, and a folder for what it reads."""

    def __init__(self, path, work):
        self.path = path
        self.work = work
        self.launcher = launcher()
        self.files = os.path.join(work, "script"), os.path.join(work, "answers")
        self.pipes = os.path.join(work, "script.pipe"), os.path.join(work, "answers.pipe")
        for pipe in self.pipes:
            os.mkfifo(pipe)
        self.complaints = os.open(os.path.join(work, "complaints"), os.O_RDWR | os.O_CREAT)

    def start(self, arguments, redirections=()):
        """Starts the program; gives its number, or that of what starts it, and the end of a pipe that it prints to."""
        out, into = os.pipe()
        streams = {1: into, 2: self.complaints}
        streams.update((standard, end) for end, standard in redirections)
        process = spawn(self.launcher + [self.path] + arguments, streams)
        os.close(into)
        return process, out

    def kill(self, process):
        """Ends what was started."""
        for number in children() if self.launcher else [process]:
            try:
                os.kill(number, signal.SIGKILL)
            except ProcessLookupError:
                pass

    def reap(self, process):
        """Waits for what was started; gives the program's status, and the most memory that it had."""
        if not self.launcher:
            return os.waitpid(process, 0)[1], None
        return reap(process)

    def end(self, process, out, output, deadline):
        """Reads to the end of what the program prints, and gives the whole run; past the deadline it is ended."""
        late = False
        while True:
            if not select.select([out], [], [], max(0, deadline - time.monotonic()))[0]:
                late = True
                self.kill(process)
                # What it started may hold the pipe: that is ended then.
                deadline = time.monotonic() + 1
                continue
            piece = os.read(out, 65536)
            if not piece:
                break
            output += piece
        os.close(out)
        status, memory = self.reap(process)
        if late:
            ended = "not ended after %g seconds" % PATIENCE
        elif status is None:
            ended = "none, it was not started,"
        elif os.WIFSIGNALED(status):
            ended = "signal %d" % os.WTERMSIG(status)
        else:
            ended = os.WEXITSTATUS(status)
        complaint = b""
        if os.fstat(self.complaints).st_size:
            complaint = os.pread(self.complaints, 1000, 0)
            os.ftruncate(self.complaints, 0)
            os.lseek(self.complaints, 0, os.SEEK_SET)
        return Run(output, ended, complaint, memory)

    def write(self, texts):
        """Writes both files."""
        for path, text in zip(self.files, texts):
            end = os.open(path, os.O_WRONLY | os.O_CREAT | os.O_TRUNC)
            while text:
                text = text[os.write(end, text) :]
            os.close(end)

    def run(self, options, dialogue):
        """A run on two files."""
        self.write(dialogue[:2])
        return self.run_as_is(options + list(self.files))

    def run_as_is(self, arguments):
        """A run with these arguments."""
        process, out = self.start(arguments)
        return self.end(process, out, b"", time.monotonic() + PATIENCE)


class Streams:
    """A run in which a text or both come in pieces, through pipes."""

    def __init__(self, program, rng, dialogue, options, lines_of):
        self.program = program
        self.rng = rng
        self.texts = dialogue[:2]
        self.options = options
        self.lines_of = lines_of
        self.place = [0, 0]
        self.ended = [True, True]
        self.ends = [None, None]
        self.ways = []

    def open_ways(self):
        """Chooses how each text comes, and gives the two arguments and the redirections."""
        rng = self.rng
        sides = rng.choice(((0,), (1,), (0, 1), (0, 1)))
        arguments, redirections, closing = list(self.program.files), [], []
        named = []
        stdin_used = False
        for side in (0, 1):
            if side not in sides:
                self.place[side] = len(self.texts[side])
                continue
            self.ended[side] = False
            way = rng.choice(("fd", "fd", "stdin", "named"))
            if way == "named":
                arguments[side] = self.program.pipes[side]
                named.append(side)
                self.ways.append("named pipe")
                continue
            out, self.ends[side] = os.pipe()
            closing.append(out)
            if way == "stdin" and not stdin_used:
                stdin_used = True
                redirections.append((out, 0))
                arguments[side] = "/dev/stdin"
                self.ways.append("standard input")
            else:
                os.set_inheritable(out, True)
                arguments[side] = "/dev/fd/%d" % out
        self.ways.append("both in pieces" if len(sides) == 2 else "script in pieces" if sides == (0,) else "answers in pieces")
        return arguments, redirections, closing, named

    def run(self):
        """The run, and a difference in what was told before the end, or None."""
        self.program.write(self.texts)
        arguments, redirections, closing, named = self.open_ways()
        process, out = self.program.start(self.options + arguments, redirections)
        for end in closing:
            os.close(end)
        deadline = time.monotonic() + PATIENCE
        output, trouble = b"", None
        for side in named:
            self.ends[side] = self.open_named(self.program.pipes[side])
            trouble = trouble or (None if self.ends[side] is not None else "a named pipe is not opened")
        pieces = self.rng.choice((1, 2, 3, 5, 9) + (1000,) * (max(map(len, self.texts)) < 150))
        while trouble is None and not all(self.ended):
            self.feed(pieces)
            if all(self.ended):
                break
            lines, _ = self.lines_of(*self.texts_so_far())
            told = "".join(line + "\n" for line in lines).encode()
            output, trouble = self.await_lines(out, output, told)
        for end in self.ends:
            if end is not None:
                os.close(end)
        self.ends = [None, None]
        return self.program.end(process, out, output, deadline), trouble

    @staticmethod
    def open_named(pipe):
        """Opens a named pipe for writing once the program has opened it; None if it doesn't."""
        deadline = time.monotonic() + PATIENCE
        while time.monotonic() < deadline:
            try:
                return os.open(pipe, os.O_WRONLY | os.O_NONBLOCK)
            except OSError:
                time.sleep(0.0002)
        return None

    def texts_so_far(self):
        """What has come of both texts, and whether each has ended."""
        script, answers = (text[:place] for text, place in zip(self.texts, self.place))
        return script, answers, self.ended[0], self.ended[1]

    def feed(self, pieces):
        """One piece more, or the end of a text."""
        side = self.rng.choice([side for side in (0, 1) if not self.ended[side]])
        text, place = self.texts[side], self.place[side]
        if place == len(text):
            os.close(self.ends[side])
            self.ends[side] = None
            self.ended[side] = True
            return
        size = max(1, min(len(text) - place, self.rng.randint(1, 2 * (len(text) // pieces + 1))))
        try:
            os.write(self.ends[side], text[place : place + size])
        except BrokenPipeError:
            pass
        self.place[side] += size

    @staticmethod
    def await_lines(out, output, told):
        """Waits for the lines that are decided; no others may come."""
        deadline = time.monotonic() + PATIENCE
        while len(output) < len(told):
            if not select.select([out], [], [], max(0, deadline - time.monotonic()))[0]:
                return output, "a line that is decided has not come"
            piece = os.read(out, 65536)
            if not piece:
                return output, "the program ended before a line that is decided"
            output += piece
        if select.select([out], [], [], 0)[0] and not told.rstrip().split(b"\n")[-1].startswith(b"verdict"):
            output += os.read(out, 65536)
        return output, None if output == told else "other lines than those that are decided"


class Fuzzer:
    """Runs seeds, and counts what they reach."""

    def __init__(self, program, with_steps, corpus, folder, *kinds):
        # Files in memory, where there are such, are written ten times as fast.
        memory = "/dev/shm" if os.access("/dev/shm", os.W_OK) else None
        self.work = tempfile.mkdtemp(prefix="smtcheck-fuzz-", dir=memory)
        self.program = Program(program, self.work)
        self.with_steps = with_steps
        self.corpus = corpus
        self.folder = folder
        self.mutated, self.profile, self.sorts, self.spines, self.with_reals, self.converting, self.with_arrays = kinds
        self.counts = Counter()
        self.differences = 0
        self.slowest = (0.0, None)
        self.largest = (0, None)
        # Which stored dialogues were changed, where nothing else is done: their files, and their numbers.
        self.sources = set()

    def close(self):
        """Removes what was made for the runs."""
        shutil.rmtree(self.work)

    def dialogue_of(self, seed, rng):
        """The dialogue of a seed."""
        if self.mutated:
            dialogue, number, texts = self.corpus.with_changed_bytes(seed, self.with_steps)
            source = self.corpus.dialogues[number].file, number
            self.counts["dialogue mutated"] += 1
            self.counts["dialogue of a solver mutated"] += of_solver(source)
            self.counts["text with changed bytes"] += texts
            self.counts["both texts with changed bytes"] += texts == 2
            self.sources.add(source)
            return dialogue
        if self.spines:
            self.counts["dialogue with a spine"] += 1
            return invent_spine(seed, self.profile)
        if self.converting:
            self.counts["dialogue invented"] += 1
            return invent_conversions(seed, self.with_steps, self.profile)
        if self.corpus.dialogues and rng.random() < 0.2 and not (self.sorts or self.with_reals or self.with_arrays):
            self.counts["dialogue mutated"] += 1
            found = self.corpus.mutated(seed, self.with_steps)
            return widened(seed, found) if self.profile == WIDE else found
        self.counts["dialogue invented"] += 1
        if self.profile == WIDE:
            return invent_wide(seed, self.with_steps, self.sorts, self.with_reals, self.with_arrays)
        return invent(seed, self.with_steps)

    def options_of(self, dialogue, rng=None):
        """The options for a dialogue."""
        options = []
        if not dialogue.print_success or rng is None or rng.random() < 0.7:
            options += ["--print-success", "on" if dialogue.print_success else "off"]
        if dialogue.steps is not None:
            options += ["--steps", str(dialogue.steps)]
        if self.profile == WIDE:
            options += ["--profile", WIDE]
        return options

    def expected(self, dialogue, reached=None):
        """The lines and the verdict of the second validator, and whether the program can be asked."""
        steps = STEPS if dialogue.steps is None else dialogue.steps
        told = dialogue.script, dialogue.answers, dialogue.print_success, steps
        lines, verdict = report(*told, reached=reached, profile=self.profile)
        # A program that has no limit might take very long.
        return lines, verdict, self.with_steps or not any(line.endswith("too long") for line in lines)

    def run_seed(self, seed):
        """Runs one seed."""
        begun = time.monotonic()
        rng = random.Random(seed ^ 0x5EED5EED5EED)
        if seed % 53 == 7:
            self.run_refused(seed, rng, seed // 53 % 4)
        dialogue = self.dialogue_of(seed, rng)
        reached = Counter()
        lines, verdict, fine = self.expected(dialogue, reached)
        if not fine:
            self.counts["too long for a program without a limit"] += 1
            return
        self.counts.update(reached.keys())
        self.counts.update(set(map(kind_of, lines)))
        options = self.options_of(dialogue, rng)
        self.counts["print-success " + (options[1] if options[:1] == ["--print-success"] else "not said")] += 1
        self.counts["limit on steps"] += dialogue.steps is not None
        small = max(len(dialogue.script), len(dialogue.answers)) < 30000
        trouble = None
        if small and rng.random() < 0.15:

            def lines_of(script, answers, *ended):
                steps = dialogue.steps if dialogue.steps is not None else STEPS
                return report(script, answers, dialogue.print_success, steps, *ended, profile=self.profile)

            streams = Streams(self.program, rng, dialogue, options, lines_of)
            run, trouble = streams.run()
            self.counts.update(set(streams.ways))
            self.counts["lines before the end"] += 1
        else:
            run = self.program.run(options, dialogue)
        trouble = trouble or self.trouble(run, lines, verdict)
        self.measure(seed, run)
        if trouble:
            self.tell(seed, dialogue, options, lines, verdict, run, trouble)
        took = time.monotonic() - begun
        if took > self.slowest[0]:
            self.slowest = took, seed

    def measure(self, seed, run):
        """Keeps the most memory that a run had."""
        if run.memory is not None and run.memory > self.largest[0]:
            self.largest = run.memory, seed

    @staticmethod
    def trouble(run, lines, verdict):
        """How a run differs from a report, in words, or None."""
        if run.status != STATUS[verdict]:
            return "status %s for %s" % (run.status, verdict)
        if run.output != "".join(line + "\n" for line in lines).encode():
            return "another report"
        return "words on standard error" if run.complaint else too_large(run)

    def run_refused(self, seed, rng, choice):
        """A run that has no report: one of four kinds."""
        paths = list(self.program.files)
        self.program.write((b"(check-sat)", b"sat"))
        if choice < 3:
            side = rng.randrange(2) if choice == 2 else choice
            paths[side] = self.work if choice == 2 else paths[side] + ".none"
            arguments, status = paths, 4
            why = b"Is a directory (os error 21)" if choice == 2 else b"No such file or directory (os error 2)"
            complaint = b"smtcheck: %s\n%s: %s\n" % ((b"script", b"answers")[side], os.fsencode(paths[side]), why)
            kind = ("no script", "no answers", "a folder")[choice] + ": status 4"
        else:
            wrong = (["--print-success", "maybe"] + paths, paths[:1], [], paths + paths, ["--nothing"] + paths, ["--help"], ["--version"])
            arguments, complaint, kind = rng.choice(wrong), None, "command line: status 5"
            # (the version is asked for, and nothing is refused)
            status = 0 if arguments == ["--version"] else 5
        run = self.program.run_as_is(arguments)
        self.counts[kind] += 1
        self.measure(seed, run)
        if run.status != status or complaint is not None and (run.complaint != complaint or run.output) or too_large(run):
            self.differences += 1
            print("difference at seed %d: %s: %s" % (seed, " ".join(arguments), run), flush=True)

    def differs(self, dialogue):
        """Whether the program's report on two files differs from the second validator's."""
        lines, verdict, fine = self.expected(dialogue)
        return fine and self.trouble(self.program.run(self.options_of(dialogue), dialogue), lines, verdict) is not None

    def tell(self, seed, dialogue, options, lines, verdict, run, trouble):
        """Tells of a difference, and writes it down."""
        self.differences += 1
        folder = os.path.join(self.folder, "seed-%d" % seed)
        os.makedirs(folder, exist_ok=True)
        expected = "\n".join(lines) + "\nstatus %d\n" % STATUS[verdict]
        found = run.output.decode("latin-1") + "status %s\n%s" % (run.status, run.complaint.decode("latin-1"))
        texts = [("script", dialogue.script), ("answers", dialogue.answers), ("expected", expected.encode()), ("found", found.encode())]
        small = ""
        if self.differs(dialogue):
            smaller = shrunk(dialogue, self.differs)
            small = "\n  smaller: %s\n  answers: %s" % (smaller.script, smaller.answers)
            texts += [("smaller.script", smaller.script), ("smaller.answers", smaller.answers)]
        for name, text in texts:
            with open(os.path.join(folder, name), "wb") as file:
                file.write(text)
        print(
            "difference at seed %d: %s\n  alone: tests/fuzz.sh 1 %d%s, or in %s: %s %s script answers\nexpected:\n%sfound:\n%s%s"
            % (
                seed, trouble, seed, " wide" * (self.profile == WIDE) + " --mutated" * self.mutated + " --conversions" * self.converting + " --arrays" * self.with_arrays, folder, self.program.path, " ".join(options), expected, found,
                small.strip("\n"),
            ),
            flush=True,
        )


def too_large(run):
    """That a run had too much memory, in words, or None."""
    return "took %d MB" % (run.memory // 1024) if run.memory is not None and run.memory > MOST_MEMORY else None


def of_solver(source):
    """Whether a stored dialogue is one of a real solver, by its file."""
    return source[0].startswith("solver")


def shrunk(dialogue, differs, tries=1500):
    """A smaller dialogue that differs too: first trees are left out, then parts of them, then bytes."""
    best = dialogue
    deadline = time.monotonic() + 30

    def attempt(script, answers):
        nonlocal best, tries
        tries -= 1
        smaller = Dialogue(script, answers, best.print_success, best.steps)
        size = len(script) + len(answers)
        if tries < 0 or time.monotonic() > deadline or size >= len(best.script) + len(best.answers) or not differs(smaller):
            return False
        best = smaller
        return True

    readings = [read(text) for text in best[:2]]
    if attempt(*[written(reading.trees) for reading in readings]) or not any(reading.flaw for reading in readings):
        goes_on = True
        while goes_on and tries > 0:
            goes_on = any(attempt(*texts) for texts in without_trees(best)) or any(attempt(*texts) for texts in without_parts(best))
    for size in (64, 16, 4, 1):
        for side in (0, 1):
            place = 0
            while place < len(best[side]) and tries > 0:
                texts = list(best[:2])
                texts[side] = texts[side][:place] + texts[side][place + size :]
                if not attempt(*texts):
                    place += size
    return best


def without_trees(dialogue):
    """The texts without a command, without an answer, and without one of each."""
    commands, answers = read(dialogue.script).trees, read(dialogue.answers).trees
    for i in reversed(range(len(commands) + 1)):
        for j in [len(answers)] + list(reversed(range(len(answers)))):
            yield written(commands[:i] + commands[i + 1 :]), written(answers[:j] + answers[j + 1 :])


def without_parts(dialogue):
    """The texts without a part of a list, and with a part in the place of its list."""
    for side in (0, 1):
        trees = read(dialogue[side]).trees
        for number, part in enumerate(lists_in(trees)):
            for place in range(len(part)):
                for hoist in (False, True):
                    changed = copied(trees)
                    target = lists_in(changed)[number]
                    target[:] = target[:place] + target[place + 1 :] if not hoist else target
                    if hoist:
                        if type(target[place]) is not list:
                            continue
                        target[:] = target[place]
                    texts = [dialogue.script, dialogue.answers]
                    texts[side] = written(changed)
                    yield tuple(texts)


def knows_steps(program):
    """Whether the program has the option `--steps`."""
    shown = subprocess.run([program, "--help"], stdout=subprocess.PIPE, stderr=subprocess.STDOUT, check=False, timeout=10)
    return b"--steps" in shown.stdout


# It takes a second, and a process runs seeds many times.
corpus_of = functools.lru_cache(maxsize=1)(Corpus)


def run_some(settings, seeds):
    """Runs some seeds; gives what was counted and measured."""
    program, with_steps, rows, *rest = settings
    fuzzer = Fuzzer(program, with_steps, corpus_of(rows), *rest)
    try:
        for count, seed in enumerate(seeds):
            # A mistake in here may go round for ever: then the run ends, and shows where.
            if count % 16 == 0:
                faulthandler.dump_traceback_later(STUCK, exit=True)
            try:
                fuzzer.run_seed(seed)
            except Exception:  # pylint: disable=broad-except
                # A mistake in here, which must not end a long run.
                fuzzer.differences += 1
                print("fuzz: seed %d: %s" % (seed, "\n".join(traceback.format_exc().split("\n")[-12:])), flush=True)
    finally:
        faulthandler.cancel_dump_traceback_later()
        fuzzer.close()
    return fuzzer.counts, fuzzer.differences, fuzzer.slowest, fuzzer.largest, fuzzer.sources


def run_deep(work):
    """`run_some`, with room for deep terms."""
    return with_deep_stack(run_some, *work)


def table(counts, required):
    """The counts, in columns."""
    names = required + sorted(set(counts) - set(required))
    cells = ["%7d %s" % (counts[name], name) for name in names]
    width = max(map(len, cells)) + 2
    rows = (len(cells) + 2) // 3
    columns = [cells[begin : begin + rows] for begin in range(0, len(cells), rows)]
    for row in range(rows):
        print("".join(column[row].ljust(width) for column in columns if row < len(column)).rstrip())


def main():
    """The status: 0 where all is well."""
    parser = argparse.ArgumentParser(description=__doc__, formatter_class=argparse.RawDescriptionHelpFormatter)
    parser.add_argument("number", type=int, metavar="N")
    parser.add_argument("seed", type=int, metavar="SEED")
    parser.add_argument("--program", default=os.path.join(TOP, "crates/smtcheck/out/smtcheck"), help="the built program")
    parser.add_argument("--steps-option", choices=("on", "off", "ask"), default="ask", help="whether the program has --steps: by its help")
    parser.add_argument("--profile", choices=(BASE, WIDE), default=BASE, help="the language of the dialogues and of the program")
    parser.add_argument("--rows", default=os.path.join(TOP, "crates/dialogue_rows/data"), help="the folder of rows whose dialogues are mutated")
    parser.add_argument("--folder", default=None, help="where differences are written: a new folder in the one for temporary files")
    parser.add_argument(
        "--mutated",
        action="store_true",
        help="nothing but dialogues of these rows with changed bytes, in one text or in both; no kind has to be reached: the status is 1 for "
        "differences alone",
    )
    parser.add_argument("--sorts", action="store_true", help="in `wide`, invent each dialogue with a declared sort; no kind has to be reached")
    parser.add_argument(
        "--spines", action="store_true", help="invent each dialogue with a term that nests deep, up to 2,000 frames; no kind has to be reached"
    )
    parser.add_argument("--reals", action="store_true", help="in `wide`, let each dialogue aim at reals; no kind has to be reached")
    parser.add_argument("--arrays", action="store_true", help="in `wide`, let each dialogue aim at arrays; no kind has to be reached")
    parser.add_argument(
        "--conversions", action="store_true", help="let each dialogue aim at conversions and overflow, or in `base` at their names; likewise"
    )
    parser.add_argument("-j", dest="jobs", type=int, default=1, help="how many run side by side")
    chosen = parser.parse_args()
    if not os.access(chosen.program, os.X_OK) or not stat.S_ISREG(os.stat(chosen.program).st_mode):
        sys.exit("fuzz: no program: " + chosen.program)
    with_steps = knows_steps(chosen.program) if chosen.steps_option == "ask" else chosen.steps_option == "on"
    folder = chosen.folder or os.path.join(tempfile.gettempdir(), "smtcheck-differences")
    kinds = chosen.mutated, chosen.profile, chosen.sorts, chosen.spines, chosen.reals, chosen.conversions, chosen.arrays
    settings = os.path.abspath(chosen.program), with_steps, chosen.rows, folder, *kinds
    seeds = range(chosen.seed, chosen.seed + chosen.number)
    size = max(1, min(2000, -(-len(seeds) // max(1, chosen.jobs))))
    works = [(settings, seeds[begin : begin + size]) for begin in range(0, len(seeds), size)]
    counts, differences, slowest, largest, sources = Counter(), 0, (0.0, None), (0, None), set()
    pool = multiprocessing.Pool(chosen.jobs) if chosen.jobs > 1 else None
    for some, differ, slow, large, stored in pool.imap_unordered(run_deep, works) if pool else map(run_deep, works):
        counts.update(some)
        differences += differ
        slowest = max(slowest, slow, key=lambda found: found[0])
        largest = max(largest, large, key=lambda found: found[0])
        sources |= stored
    if chosen.mutated:
        counts["different stored dialogues"] = len(sources)
        counts["different stored dialogues of solvers"] = sum(map(of_solver, sources))
    aimed = chosen.mutated or chosen.sorts or chosen.spines or chosen.reals or chosen.conversions or chosen.arrays
    required = [] if aimed else REQUIRED + WITH_STEPS * with_steps
    if required and chosen.profile == WIDE:
        required = [name for name in required if name != NOT_WIDE] + WIDE_KINDS
    table(counts, required)
    missing = [name for name in required if not counts[name]]
    memory = "the largest had %.1f MB: %s" % (largest[0] / 1024, largest[1]) if largest[0] else "memory was not measured"
    totals = chosen.number, chosen.seed, differences
    print("%d seeds from %d, %d differences, the slowest took %.2f s: %s, %s" % (*totals, *slowest, memory))
    if chosen.number >= ENOUGH and missing:
        print("fuzz: not reached: " + "; ".join(missing))
        return 1
    return 1 if differences else 0


if __name__ == "__main__":
    sys.exit(main())
