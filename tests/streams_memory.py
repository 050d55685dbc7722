"""streams_memory.py PROGRAM SIZE [NAME ..]: runs the program on streams of SIZE bytes of eleven shapes, or of those that are named, and prints
what each takes.

A stream is a script and its answers, which are made as they are read, and whose every round ends what it began: so it needs no more memory
the longer it is, and at most 10 MB. The status is 1 where one takes more, or has another verdict than its own.
"""
import sys

from measured import Stream, can_measure, length, run

MOST = 10_000_000
# Seconds of the processor for each megabyte.
PATIENCE = 5
DECLARED = b"(declare-const p Bool)"
MODEL = b"((define-fun p () Bool true))"
ASK = b"(check-sat)(get-model)"
HELPERS = b"".join(b"(define-fun h%d ((a Int)) Int (ite (< a %d) (+ a 1) (- a 1)))" % (i, i) for i in range(100))

# For each shape: how the script begins, a round of the script and one of the answers, and the verdict.
SHAPES = {
    "assuming": (DECLARED, b"(check-sat-assuming (" + b"p " * 100 + b"))", b"unsat ", "valid"),
    "assuming with models": (
        DECLARED,
        b"(check-sat-assuming (p (not p)))(check-sat-assuming (p))(get-model)",
        b"unsat sat" + MODEL,
        "valid",
    ),
    "global declarations": (
        b"(set-option :global-declarations true)" + DECLARED,
        b"(push 1)(assert (and " + b"p " * 100 + b"))" + ASK + b"(pop 1)",
        b"sat" + MODEL,
        "valid",
    ),
    "levels": (
        DECLARED,
        b"(push 3)(assert p)(push 1)(declare-const q Bool)(push 2)(assert (and p q))(check-sat)(pop 1)(pop 4)(pop 1)(push 1000)(pop 1000)",
        b"unsat ",
        "valid",
    ),
    "resets": (
        b"",
        DECLARED + b"(assert (and p p))" + ASK + b"(reset-assertions)" + DECLARED + b"(assert p)" + ASK + b"(reset)",
        (b"sat" + MODEL) * 2,
        "valid",
    ),
    "models": (DECLARED + b"(assert (and p p))", ASK, b"sat((define-fun p () Bool true)" + HELPERS + b")", "valid"),
    "labels": (
        DECLARED,
        b"(push 1)(assert (! (and (! p :named a) (! p :named b)) :named c))(assert (and a b c))" + ASK + b"(pop 1)",
        b"sat" + MODEL,
        "valid",
    ),
    "errors": (DECLARED + b"(assert p)", b"(check-sat)", b'(error "there is no more of what this needs, ""says"" the solver")', "valid"),
    "answers left over": (DECLARED, b"", b"sat ((define-fun p () Bool (and true true)))\n", "refused"),
    "comments": (
        DECLARED,
        b"; a comment (with what a command has (check-sat)\n" * 10 + b"(push 1)(assert p)" + ASK + b"(pop 1)\n",
        b"; and one\nsat ; another\n" + MODEL,
        "valid",
    ),
    "several models in a window": (DECLARED + b"(assert p)", b"(check-sat)" + b"(get-model)" * 1000, b"sat" + MODEL * 1000, "valid"),
}


def streams_of(name, size):
    """The two streams of a shape, and the word of its verdict."""
    begin, script, answers, verdict = SHAPES[name]
    count = max(1, size // (len(script) + len(answers)))
    return (Stream(begin, script, count), Stream(b"", answers, count)), verdict


def main():
    program, size, names = sys.argv[1], int(sys.argv[2]), sys.argv[3:] or SHAPES
    if not can_measure():
        print("streams: skipped, a program's memory can't be measured here", file=sys.stderr)
        return 0
    wrong = 0
    for name in names:
        streams, verdict = streams_of(name, size)
        took = run([program, "--print-success", "off"], streams, PATIENCE * max(1, size // 1_000_000))
        megabytes = sum(map(length, streams)) / 1e6
        print("%-27s %6.1f MB: %6.2f s, %6.1f MB of memory" % (name, megabytes, took.seconds, took.memory / 1e6))
        if took.status not in (0, 3) or not took.last.startswith("verdict: %s," % verdict):
            print("streams: %s: status %d, %s %s" % (name, took.status, took.last, took.complaint))
            wrong = 1
        if took.memory > MOST:
            print("streams: %s: more than %d MB" % (name, MOST // 1_000_000))
            wrong = 1
    return wrong


if __name__ == "__main__":
    sys.exit(main())
