"""Instructions that smtcheck takes for each byte of a dialogue, by valgrind's callgrind: the same on each run of one program, whatever else the machine does.

`measured` writes bench/counts.tsv, which bench/plot puts into docs/SPEED.md; `compared` says of which kinds a program takes more than that file tells.
"""
import os
import random
import re
import shutil
import subprocess
import tempfile

import made

FILE = os.path.join(os.path.dirname(os.path.abspath(__file__)), "counts.tsv")
COLUMNS = ("kind", "script_bytes", "answer_bytes", "instructions")
SIZE = 100000
# How much more than the stored count is an error.
MOST = 1.03


def counted(program, kind, folder, steps):
    """The row of a kind: its bytes, and the instructions that its check takes."""
    script, answers = os.path.join(folder, "script.smt2"), os.path.join(folder, "answers")
    with open(script, "w") as texts, open(answers, "w") as printed:
        dialogue = made.Dialogue(texts, printed)
        dialogue.say("(set-option :produce-models true)")
        made.KINDS[kind](dialogue, SIZE, random.Random(kind))
    words = [program, "--profile", "wide", "--print-success", "off", "--steps", str(steps), script, answers]
    run = subprocess.run(
        ["valgrind", "--tool=callgrind", "--callgrind-out-file=" + os.path.join(folder, "counts"), *words],
        stdout=subprocess.PIPE, stderr=subprocess.PIPE, text=True)
    wanted = "verdict: valid, confirmed %d, refuted 0, undecided 0, unchecked 0" % dialogue.checks
    count = re.search(r"Collected : (\d+)", run.stderr)
    if run.stdout.splitlines()[-1:] != [wanted] or not count:
        raise SystemExit("bench/run: %s: not %r but %r" % (kind, wanted, run.stdout[-200:] + run.stderr[-400:]))
    return kind, os.path.getsize(script), os.path.getsize(answers), int(count.group(1))


def rows_of(program, kinds, steps):
    """The rows of some kinds, one by one."""
    if not shutil.which("valgrind"):
        raise SystemExit("bench/run: --count wants valgrind")
    for kind in kinds:
        with tempfile.TemporaryDirectory() as folder:
            yield counted(program, kind, folder, steps)


def stored():
    """The rows of bench/counts.tsv, by their kinds."""
    with open(FILE) as file:
        rows = [line.split("\t") for line in file.read().splitlines()[1:]]
    return {kind: tuple(int(number) for number in numbers) for kind, *numbers in rows}


def measured(program, kinds, steps):
    """Counts these kinds, and writes them into bench/counts.tsv beside the others that it has."""
    found = stored() if os.path.exists(FILE) else {}
    for kind, *numbers in rows_of(program, kinds, steps):
        found[kind] = tuple(numbers)
        print(kind, *numbers, "%.1f a byte" % (numbers[2] / (numbers[0] + numbers[1])), sep="\t", flush=True)
    with open(FILE, "w") as file:
        print(*COLUMNS, sep="\t", file=file)
        for kind in made.KINDS:
            if kind in found:
                print(kind, *found[kind], sep="\t", file=file)


def compared(program, kinds, steps):
    """What is wrong with the counts of these kinds: they are of other texts, or more than they may be."""
    wrong, known = [], stored()
    for kind, *numbers in rows_of(program, kinds, steps):
        if tuple(numbers[:2]) != known[kind][:2]:
            wrong.append("%s: texts of %d and %d bytes, and bench/counts.tsv tells of %d and %d" % (kind, *numbers[:2], *known[kind][:2]))
        elif numbers[2] > MOST * known[kind][2]:
            more = 100 * (numbers[2] / known[kind][2] - 1)
            wrong.append("%s: %d instructions, %.1f%% more than the %d of bench/counts.tsv" % (kind, numbers[2], more, known[kind][2]))
    return wrong
