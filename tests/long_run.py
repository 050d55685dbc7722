"""long_run.py PROGRAM SIZE LONGER: runs the program on a long dialogue through two pipes, and prints what it takes.

The dialogue has rounds of `push`, declarations, assertions, a check, its model and `pop`, until both texts have SIZE bytes together.
LONGER is `script` or `answers`: that text is four times as long as the other. No name comes twice.
"""
import os
import sys
import time

from measured import can_measure, run_with

program, size, longer = sys.argv[1], int(sys.argv[2]), sys.argv[3]

SCRIPT = """(push 1)
(declare-const x_%(n)d Int)
(declare-fun f_%(n)d (Int) Int)
(assert (= (f_%(n)d x_%(n)d) (+ %(n)d 1)))
"""
ASSERTION = "(assert (< x_%(n)d (f_%(n)d (+ x_%(n)d %(k)d))))\n"
CHECK = "(check-sat)\n(get-model)\n(pop 1)\n"
MODEL = """sat
(
  (define-fun x_%(n)d () Int %(n)d)
  (define-fun f_%(n)d ((a Int)) Int (+ a 1))
"""
HELPER = "  (define-fun h_%(n)d_%(k)d ((a Int)) Int (+ a %(k)d))\n"
END = ")\n"


def parts(assertions, helpers):
    """The script and the answers of a round, as templates over its number."""
    asserted = "".join(ASSERTION.replace("%(k)d", str(k)) for k in range(assertions))
    helped = "".join(HELPER.replace("%(k)d", str(k)) for k in range(helpers))
    return SCRIPT + asserted + CHECK, MODEL + helped + END


def length(template):
    return len(template % {"n": 1234567})


def chosen():
    """The round in which one text is four times as long as the other."""
    for count in range(1, 200):
        script, answers = parts(count, 0) if longer == "script" else parts(0, count)
        long, short = (script, answers) if longer == "script" else (answers, script)
        if length(long) >= 4 * length(short):
            return script, answers
    sys.exit("long run: no such round")


script, answers = chosen()
rounds = max(1, size // (length(script) + length(answers)))
moved = {}


def write(name, end, template):
    """Writes all rounds of a text, some at a time."""
    count = 0
    with os.fdopen(end, "wb", buffering=0) as pipe:
        try:
            for first in range(0, rounds, 64):
                some = "".join(template % {"n": n} for n in range(first, min(first + 64, rounds)))
                left = memoryview(some.encode())
                while left:
                    done = pipe.write(left)
                    count += done
                    left = left[done:]
        except BrokenPipeError:
            pass
    moved[name] = count


if not can_measure():
    sys.exit("long run: a program's memory can't be measured here")
begun = time.time()
run = run_with(
    [program, "--print-success", "off"],
    [lambda end: write("script", end, script), lambda end: write("answers", end, answers)],
)
taken = time.time() - begun
megabytes = run.memory / 1e6
print(
    "%s four times as long: script %d bytes, answers %d, %d checks, %.1f s (%.1f of the processor), %.1f MB"
    % (longer, moved["script"], moved["answers"], rounds, taken, run.seconds, megabytes)
)
wanted = "verdict: valid, confirmed %d, refuted 0, undecided 0, unchecked 0" % rounds
if run.status != 0 or run.lines != rounds + 1 or run.last != wanted:
    sys.exit("long run: status %d, %d lines, %s %s" % (run.status, run.lines, run.last, run.complaint))
if megabytes > 10:
    sys.exit("long run: more than 10 MB")
