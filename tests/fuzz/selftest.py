"""selftest.py: the second validator on the dialogues of expected.txt, expected_wide.txt and expected_arrays.txt, whose reports were worked out
by hand. Says nothing where all is well."""
import os
import sys

from rows import rows_of
from sorts import BASE
from validator import STATUS, STEPS, report, with_deep_stack

HERE = os.path.dirname(os.path.abspath(__file__))


def cut_reports(script, answers, print_success, steps, profile):
    """The lines that are decided by beginnings of both texts, one after another; each has to go on from the one before."""
    told = []
    for place in range(max(len(script), len(answers)) + 1):
        ended = place >= len(script), place >= len(answers)
        lines, _ = report(script[:place], answers[:place], print_success, steps, *ended, profile=profile)
        if lines[: len(told)] != told:
            return "a line is taken back at byte %d: %s" % (place, told)
        told = lines
    return told


def test():
    """The number of dialogues, and the text of those that fail."""
    failed = []
    rows = [row for name in ("expected", "expected_wide", "expected_arrays") for row in rows_of(os.path.join(HERE, name + ".txt"))]
    for row in rows:
        fields = dict(row)
        title = fields["dialogue"].decode()
        expected = fields["report"].decode().split("\n")
        steps = int(fields.get("steps", STEPS))
        told = fields["script"], fields["answers"], fields["start"] == b"on", steps
        profile = fields.get("profile", BASE.encode()).decode()
        lines, verdict = report(*told, profile=profile)
        if lines != expected or verdict not in STATUS or not lines[-1].startswith("verdict: " + verdict + ","):
            failed.append("%s\n  expected: %s\n  found:    %s" % (title, expected, lines))
        elif max(map(len, told[:2])) < 2000 and cut_reports(*told, profile) != expected:
            failed.append("%s\n  in pieces: %s" % (title, cut_reports(*told, profile)))
    return len(rows), failed


def main():
    """The status: 0 where all is well."""
    count, failed = with_deep_stack(test)
    for text in failed:
        print("selftest: " + text)
    if count < 60:
        print("selftest: only %d dialogues" % count)
    return 1 if failed or count < 60 else 0


if __name__ == "__main__":
    sys.exit(main())
