#!/usr/bin/env python3
"""Compares the rows that several solvers have for the same scripts, check by check: compare.sh."""
import argparse
import os
import re
import sys
from typing import Dict, List, NamedTuple, Optional, Tuple

import page
from collection import NOT_RUN, Parser, Refused, lines_of, objects_of, write_text

STATUSES = """
exit status:
  0  nothing is known to be wrong
  1  some answer is known to be wrong
  5  nothing was compared: the command line, or a folder of rows, was refused

What is known of a check: it is sat where some solver's model is confirmed. An unsat is wrong there, and a refuted sat
is wrong anywhere. Answers, or an answer and the script's `:status`, that differ where nothing is known are open.

A solver's score counts its checks as the track of model validation of SMT-COMP does: errors are wrong answers, and
correct are confirmed models.
"""
CHECK = re.compile(r"check (\d+) at command \d+: (.*)")
SAT = (("sat, confirmed", "confirmed"), ("sat, no model", "no model"))


class Row(NamedTuple):
    """What a solver has of a script."""

    answers: List[str]
    """of its checks, in order"""
    verdict: str
    expected: List[str]
    logic: str
    seconds: float
    cpu: float
    lines: List[str]
    """its report and explanation"""


class Score(NamedTuple):
    """The numbers of a solver."""

    errors: int = 0
    correct: int = 0
    unsat: int = 0
    """answers `unsat` that are not known to be wrong"""
    seconds: float = 0.0
    """of the solver, by the clock"""
    cpu: float = 0.0

    def __add__(self, other: object) -> "Score":
        assert isinstance(other, Score)
        return Score(*(mine + theirs for mine, theirs in zip(tuple(self), tuple(other))))


def answer_of(text: str) -> str:
    """What a line says of a check, in a word or two."""
    for begins, word in SAT:
        if text == begins:
            return f"sat {word}"
    if ": refuted by " in text:
        return "sat refuted"
    return text if re.fullmatch("[a-z]+", text) else "sat not decided"


def row_of(told: Dict[str, object]) -> Row:
    """The row of an object."""
    report = told.get("report") or []
    assert isinstance(report, list)
    answers = [answer_of(found.group(2)) for found in map(CHECK.fullmatch, report) if found]
    expected = str(told.get("expected") or "").split()
    numbers = [float(str(told.get(name) or 0)) for name in ("solver_seconds", "solver_cpu")]
    return Row(answers, str(told["verdict"]), expected, str(told.get("logic") or "-"), numbers[0], numbers[1], lines_of(told))


def rows_of(results: str) -> Dict[str, Row]:
    """The rows in a folder, by the names of their scripts."""
    if not os.path.isdir(results):
        raise Refused(f"{results} is no folder")
    rows = {str(told["script"]): row_of(told) for told in objects_of(results)}
    if not rows:
        raise Refused(f"{results} has no rows")
    return rows


def answer_at(row: Optional[Row], place: int) -> str:
    """A solver's answer to a check, from 0; where it has none, why."""
    if row is None:
        return "no row"
    return row.answers[place] if place < len(row.answers) else row.verdict


def word_of(answer: str) -> str:
    """The answer that a solver printed, or none of these two."""
    first = answer.split(" ")[0]
    return first if first in ("sat", "unsat") else ""


def is_wrong(answer: str, known: str) -> bool:
    """Whether an answer is known to be wrong."""
    return answer == "sat refuted" or (answer == "unsat" and known == "sat")


class Compared(NamedTuple):
    """A check, with what each solver says of it."""

    script: str
    check: int
    """from 1"""
    logic: str
    expected: str
    answers: List[str]
    known: str
    wrong: List[int]
    """the solvers that are wrong, from 0"""
    is_open: bool


def compared(script: str, rows: List[Optional[Row]]) -> List[Compared]:
    """The checks of a script."""
    there = [row for row in rows if row is not None]
    found = []
    for place in range(max([1, *(len(row.answers) for row in there)])):
        answers = [answer_at(row, place) for row in rows]
        expected = next((row.expected[place] for row in there if place < len(row.expected)), "-")
        known = "sat" if "sat confirmed" in answers else "-"
        wrong = [solver for solver, answer in enumerate(answers) if is_wrong(answer, known)]
        words = {word_of(answer) for solver, answer in enumerate(answers) if solver not in wrong} | {expected}
        is_open = {"sat", "unsat"} <= words and (known != "sat" or expected == "unsat")
        found.append(Compared(script, place + 1, there[0].logic, expected, answers, known, wrong, is_open))
    return found


def remark_of(check: Compared, names: List[str]) -> str:
    """What is to be said of a check."""
    wrong = [f"{names[solver]} is wrong" for solver in check.wrong]
    if check.known == "sat" and check.expected == "unsat":
        wrong.append("the script's :status is wrong")
    elif check.is_open:
        wrong.append("open: the answers differ")
    return ", ".join(wrong)


def score_of(check: Compared, solver: int) -> Score:
    """What a check counts for a solver, without its time."""
    answer = check.answers[solver]
    is_error = solver in check.wrong
    return Score(int(is_error), int(answer == "sat confirmed"), int(answer == "unsat" and not is_error))


def scores_of(checks: List[Compared], rows: List[Dict[str, Row]]) -> Dict[Tuple[str, int], Score]:
    """The scores by logic, with `-` for all logics, and solver."""
    scores: Dict[Tuple[str, int], Score] = {}
    for check in checks:
        for solver, of_solver in enumerate(rows):
            row = of_solver.get(check.script)
            score = score_of(check, solver)
            if check.check == 1 and row is not None:
                score += Score(seconds=row.seconds, cpu=row.cpu)
            for logic in ("all", check.logic):
                scores[logic, solver] = scores.get((logic, solver), Score()) + score
    return scores


def print_scores(scores: Dict[Tuple[str, int], Score], names: List[str]) -> None:
    """Prints the scores on standard error: of all logics, and of each, the best solver first."""
    sys.stderr.write("logic\tsolver\terrors\tcorrect\tunsat\tseconds\tcpu\n")
    logics = sorted({logic for logic, _ in scores}, key=lambda logic: (logic != "all", logic))
    for logic in logics:
        found = [(scores[logic, solver], name) for solver, name in enumerate(names) if (logic, solver) in scores]
        for score, name in sorted(found, key=lambda pair: (pair[0].errors, -pair[0].correct, pair[0].seconds, pair[1])):
            sys.stderr.write(f"{logic}\t{name}\t{score.errors}\t{score.correct}\t{score.unsat}\t{score.seconds:.3f}\t{score.cpu:.3f}\n")


def write_page(checks: List[Compared], rows: List[Dict[str, Row]], names: List[str], name: str) -> None:
    """Writes the page of the checks, with the seconds of each solver."""
    columns = [page.Column("script"), page.Column("check", True), page.Column("logic", False, True), page.Column("expected", False, True)]
    columns += [page.Column(solver, False, True) for solver in names]
    columns += [page.Column("known", False, True), page.Column("remark")]
    columns += [page.Column(f"{solver} seconds", True) for solver in names]
    lines = []
    for check in checks:
        there = [of_solver.get(check.script) for of_solver in rows]
        seconds = ["-" if row is None else f"{row.seconds:.3f}" for row in there]
        cells = [check.script, str(check.check), check.logic, check.expected, *check.answers, check.known, remark_of(check, names), *seconds]
        told = [f"{solver}: {line}" for solver, row in zip(names, there) if row is not None for line in row.lines]
        lines.append(page.Line(cells, told if check.wrong or check.is_open else []))
    axes = (f"{names[0]} seconds", f"{names[1]} seconds")
    write_text(name, page.page_of("Solvers: " + ", ".join(names), columns, lines, axes))


def parser_of() -> Parser:
    """The command line."""
    about = "Compares the rows of several solvers for the same scripts: prints a row for each check, with each solver's answer, the scripts' `:status` and what is known, and the scores on standard error."
    parser = Parser("compare.sh", description=about, epilog=STATUSES, formatter_class=argparse.RawDescriptionHelpFormatter, allow_abbrev=False)
    parser.add_argument("--remarks", action="store_true", help="print the checks alone of which there is something to say")
    parser.add_argument("--html", metavar="FILE", help="write a page besides, which a browser shows without a network")
    parser.add_argument("results", metavar="RESULTS", nargs="+", help="a folder of rows for each solver, as check_all.sh makes it")
    return parser


def compare(given: argparse.Namespace) -> int:
    """Prints the checks and the scores."""
    names = [os.path.basename(os.path.normpath(results)) for results in given.results]
    if len(names) < 2 or len(set(names)) < len(names):
        raise Refused("two folders or more are wanted, each with a name of its own")
    rows = [rows_of(results) for results in given.results]
    scripts = sorted({script for of_solver in rows for script in of_solver})
    checks = [check for script in scripts for check in compared(script, [of_solver.get(script) for of_solver in rows])]
    print("\t".join(["script", "check", "logic", "expected", *names, "known", "remark"]))
    for check in checks:
        remark = remark_of(check, names)
        if remark or not given.remarks:
            print("\t".join([check.script, str(check.check), check.logic, check.expected, *check.answers, check.known, remark]))
    sys.stdout.flush()
    if given.html:
        write_page(checks, rows, names, given.html)
    print_scores(scores_of(checks, rows), names)
    return 1 if any(check.wrong for check in checks) else 0


def main(words: List[str]) -> int:
    """The status."""
    given = parser_of().parse_args(words)
    try:
        return compare(given)
    except Refused as refused:
        sys.stderr.write(f"compare.sh: {refused}\n")
        return NOT_RUN
    except BrokenPipeError:
        os.dup2(os.open(os.devnull, os.O_WRONLY), sys.stdout.fileno())
        return NOT_RUN


if __name__ == "__main__":
    sys.exit(main(sys.argv[1:]))
