#!/usr/bin/env python3
"""Checks the scripts of a collection, and keeps a row of each: check_all.sh, check_one.sh and table.sh are its three commands."""
import argparse
import concurrent.futures
import errno
import fcntl
import hashlib
import html
import itertools
import json
import os
import re
import shlex
import shutil
import signal
import subprocess
import sys
import tempfile
import threading
import time
from typing import Dict, List, NamedTuple, Optional, Sequence, Tuple

import page

ENVIRONMENT = """
The environment says the rest:

  SMTCHECK          the program                                (smtcheck)
  PRINT_SUCCESS     on or off, its option --print-success      (off, or as --solver in SMTCHECK_OPTIONS sets it)
  SMTCHECK_OPTIONS  its other options, as '--solver z3'        (none; spaces separate them, quotes are not read)
  SOLVER            the solver's command, as 'z3 -smt2'        (none: the answers are in .txt beside the script)
  SOLVER_SECONDS    how long the solver may run                (60)
  CHECK_SECONDS     how long the check may run                 (60)
  MEMORY_KB         the memory of either, by ulimit -v         (no limit)
"""
STATUSES = """
exit status:
  0  every script is valid, or has a verdict that --fails-on leaves out
  1  a model of some script is refuted
  2  no model is refuted, and some script is not decided or refused
  4  no model is refuted, and some script has no verdict, or a row that is not kept: the same command runs it again
  5  nothing was run: the command line, the program, the solver or RESULTS was refused
"""
NOT_RUN = 5
UNFINISHED = 4
COLUMNS = ("script", "solver", "status", "verdict", "confirmed", "refuted", "undecided", "unchecked", "line")
MEASURED = ("solver_seconds", "solver_mb", "check_seconds", "check_mb")
OTHERS = ("solver_cpu", "check_cpu", "expected", "logic")
"""the columns behind those"""
COUNTS = re.compile(r"verdict: .*confirmed (\d+), refuted (\d+), undecided (\d+), unchecked (\d+)")
REFUSED = ("script not taken", "solver stopped", "answers not taken", "no answer")
SUFFIXES = (".row", ".again", ".json", ".report", ".answers", ".errors", ".solver_errors", ".new")
"""the ends of the names of the files of a script"""
SAID = re.compile(rb'"(?:[^"]|"")*"|\|[^|]*\||;[^\n\r]*|\(\s*set-info\s+:status\s+(sat|unsat|unknown)\s*\)|\(\s*set-logic\s+([\w.+-]+)\s*\)')
"""a string, a quoted symbol, a comment, a `:status` or a logic"""
KINDS = {"invalid": 1, "not decided": 2, "not strict": 2, **{verdict: 2 for verdict in REFUSED}}
STOPPED = (124, 125, 126, 127, 129, 130, 131, 137, 143)
"""statuses of a program that was stopped or killed from outside, or is missing; no crash, as 134 and 139"""
KILL_AFTER = "5"


class Refused(Exception):
    """Nothing was run. The message says why."""


class Settings(NamedTuple):
    """What the environment says."""

    program: str
    success: List[str]
    """the words that say whether the solver prints `success`, if PRINT_SUCCESS or its default says it"""
    options: List[str]
    solver: List[str]
    solver_seconds: str
    check_seconds: str
    memory: str


class Ran(NamedTuple):
    """How a run of a program ended."""

    status: int
    """its exit status, 128 and the signal's number where a signal ended it"""
    seconds: float
    """of the clock"""
    cpu: float
    """seconds of the processor, also of what it started and waited for"""
    mb: float
    """the most memory that it had, of 10^6 bytes; no less than what this script has itself"""
    unwritten: Optional[OSError] = None
    """why its output could not be written"""


def options_of_smtcheck() -> List[str]:
    """The words of SMTCHECK_OPTIONS."""
    options = os.environ.get("SMTCHECK_OPTIONS", "").split()
    if any(option.split("=")[0] == "--print-success" for option in options):
        raise Refused("SMTCHECK_OPTIONS has --print-success: set PRINT_SUCCESS")
    for option in options:
        if option in ("--explain=json", "--explain=sarif"):
            raise Refused(f"SMTCHECK_OPTIONS has {option}, which prints no report: write --explain")
    return options


def success_of(options: Sequence[str]) -> List[str]:
    """The words that say whether the solver prints `success`; none where PRINT_SUCCESS does not say it and the options name the solver."""
    said = os.environ.get("PRINT_SUCCESS")
    if not said and any(option.split("=")[0] == "--solver" for option in options):
        return []
    if said not in (None, "", "on", "off"):
        raise Refused(f"PRINT_SUCCESS is {said}, and not on or off")
    return ["--print-success", said or "off"]


def settings() -> Settings:
    """What the environment says, with what holds where it says nothing."""
    options = options_of_smtcheck()
    try:
        solver = shlex.split(os.environ.get("SOLVER", ""))
    except ValueError as error:
        raise Refused(f"SOLVER: {error}") from error
    given = Settings(
        os.environ.get("SMTCHECK") or "smtcheck",
        success_of(options),
        options,
        solver,
        os.environ.get("SOLVER_SECONDS") or "60",
        os.environ.get("CHECK_SECONDS") or "60",
        os.environ.get("MEMORY_KB") or "",
    )
    for name, value in (("SOLVER_SECONDS", given.solver_seconds), ("CHECK_SECONDS", given.check_seconds), ("MEMORY_KB", given.memory or "1")):
        if not re.fullmatch(r"[1-9][0-9]*", value):
            raise Refused(f"{name} is {value}, and no number")
    return given


class Programs:
    """The programs that run now, which are ended where this one is."""

    def __init__(self) -> None:
        self.lock = threading.RLock()
        self.running: "set[subprocess.Popen[bytes]]" = set()
        self.stopped = 0

    def stop(self, number: int, _frame: object) -> None:
        """Ends them all, since this program got a signal."""
        self.stopped = 128 + number
        with self.lock:
            for process in self.running:
                process.terminate()

    def run(self, words: Sequence[str], output: str, errors: str, seconds: str, memory: str) -> Ran:
        """Runs a command within its limits. `timeout` ends it, also where this program is gone."""
        limit = f"ulimit -v {memory} && " if memory else ""
        command = ["timeout", "-k", KILL_AFTER, seconds, "sh", "-c", limit + 'exec "$@"', "sh", *words]
        begun = time.monotonic()
        for name in (output, errors):
            if os.path.exists(name) and not os.path.islink(name):
                os.remove(name)
        unwritten = None
        with open(output, "wb") as file, open(errors, "wb") as told:
            process = subprocess.Popen(command, stdin=subprocess.DEVNULL, stdout=subprocess.PIPE, stderr=told)
            with self.lock:
                self.running.add(process)
                if self.stopped:
                    process.terminate()
            assert process.stdout is not None
            try:
                shutil.copyfileobj(process.stdout, file)
                file.flush()
            except OSError as error:
                unwritten = error
                file.raw.close()
            process.stdout.close()
            _, waited, usage = os.wait4(process.pid, 0)
            process.returncode = status = 128 + os.WTERMSIG(waited) if os.WIFSIGNALED(waited) else os.WEXITSTATUS(waited)
            with self.lock:
                self.running.discard(process)
        cpu = usage.ru_utime + usage.ru_stime
        return Ran(status, time.monotonic() - begun, cpu, usage.ru_maxrss * 1024 / 1e6, unwritten)


PROGRAMS = Programs()


def first_line(name: str) -> str:
    """The first line of a file, or none."""
    try:
        with open(name, encoding="utf-8", errors="replace") as file:
            return file.readline().strip()
    except OSError:
        return ""


def needs_program(words: Sequence[str], variable: str) -> None:
    """Refuses a command that is not there."""
    if shutil.which(words[0]) is None:
        raise Refused(f"{words[0]} is not there, or is no program: {variable} names it")


def version_of(given: Settings) -> str:
    """What the program says of its version, within its limits. Refuses programs that are missing, and options that the program refuses."""
    if given.solver:
        needs_program(given.solver, "SOLVER")
    needs_program([given.program], "SMTCHECK")
    with tempfile.TemporaryDirectory() as folder:
        said, errors = os.path.join(folder, "said"), os.path.join(folder, "errors")
        ran = PROGRAMS.run([given.program, *given.options, "--version"], said, errors, "10", given.memory)
        version = first_line(said)
        if ran.status not in (0, 5) or not version.startswith("smtcheck "):
            words = " ".join([given.program, *given.options, "--version"])
            raise Refused(f"{words} ends with {ran.status}: {version or first_line(errors) or 'it says nothing'}")
    return version


def version_of_solver(given: Settings) -> str:
    """The first line that the solver prints for --version, or none."""
    if not given.solver:
        return "-"
    with tempfile.TemporaryDirectory() as folder:
        said, errors = os.path.join(folder, "said"), os.path.join(folder, "errors")
        ran = PROGRAMS.run([given.solver[0], "--version"], said, errors, "10", given.memory)
        return shown(first_line(said)) or "-" if ran.status == 0 else "-"


def checksum_of(program: str) -> str:
    """The SHA-256 of the program's file."""
    name = shutil.which(program)
    assert name is not None
    try:
        with open(name, "rb") as file:
            return hashlib.sha256(file.read()).hexdigest()
    except OSError as error:
        raise Refused(f"{name}: {error.strerror}") from error


def try_both(given: Settings) -> None:
    """Tries the program and the solver on a script of one check, within their limits."""
    with tempfile.TemporaryDirectory() as folder:
        script, answers, said, errors = (os.path.join(folder, name) for name in ("script.smt2", "answers.txt", "said", "errors"))
        with open(script, "w") as file:
            file.write("(set-logic QF_BV)\n(check-sat)\n(exit)\n")
        with open(answers, "w") as file:
            file.write("unsat\n")
        words = [given.program, "--print-success", "off", *given.options, script, answers]
        ran = PROGRAMS.run(words, said, errors, "10", given.memory)
        if ran.status not in (0, 2):  # (2 with --strict)
            raise Refused(f"{given.program} ends with {ran.status} on a script of one check: {first_line(errors) or first_line(said)}")
        if given.solver:
            ran = PROGRAMS.run([*given.solver, script], said, errors, "10", given.memory)
            if ran.status >= 124:
                raise Refused(f"{' '.join(given.solver)} ends with {ran.status} on a script of one check: {first_line(errors) or first_line(said)}")


def same_run(results: str, given: Settings, version: str) -> None:
    """Writes into run.txt what makes the rows. Refuses RESULTS with rows of another run."""
    name = os.path.join(results, "run.txt")
    try:
        wanted = f"program: {version}\nsha256: {checksum_of(given.program)}\nsolver: {shlex.join(given.solver) or '-'}\n"
        wanted += f"solver version: {version_of_solver(given)}\n"
        wanted += f"print-success: {given.success[-1] if given.success else 'as --solver'}\noptions: {' '.join(given.options) or '-'}\n"
        wanted += f"seconds: {given.solver_seconds} for the solver, {given.check_seconds} for the check\nmemory: {given.memory or '-'} kB\n"
        os.makedirs(results, exist_ok=True)
        if not os.path.exists(name):
            if rows_of(results):
                raise Refused(f"{results} has rows, and no run.txt that says whose: name another folder")
            new = f"{name}.{os.getpid()}"
            with open(new, "w") as file:
                file.write(wanted)
            try:
                os.link(new, name)
            except FileExistsError:
                pass
            os.remove(new)
        with open(name) as file:
            there = file.read()
    except OSError as error:
        raise Refused(f"{results}: {error.strerror}") from error
    for old, new in itertools.zip_longest(there.splitlines(), wanted.splitlines(), fillvalue=""):
        if old != new:
            raise Refused(f"{results} has the rows of another run: there `{old}`, now `{new}`. Name another folder")


def escaped(name: str, signs: str = "%") -> str:
    """A name with these signs, what cannot be printed and what is no UTF-8 written as % and two digits: each name in a way of its own."""
    told = []
    for sign in name:
        plain = sign.isprintable() and sign not in signs
        told.append(sign if plain else "".join(f"%{byte:02X}" for byte in os.fsencode(sign)))
    return "".join(told)


def name_of(script: str) -> str:
    """What the script is called in the table, and below RESULTS: no two have one name, and no folder has that of a file."""
    *folders, last = [part for part in script.split("/") if part not in ("", ".")]
    parts = ["%2E%2E" if part == ".." else escaped(part) for part in folders]
    parts = [part[: part.rindex(".")] + "%2E" + part[part.rindex(".") + 1 :] if part.endswith(SUFFIXES) else part for part in parts]
    return ("%2F" if script.startswith("/") else "") + "/".join([*parts, escaped(last)])


def shown(text: str) -> str:
    """A line of another program, with a sign for each byte that moves the cursor."""
    return "".join(sign if sign.isprintable() else "?" for sign in text)


class Claim:
    """The lock of RESULTS: one run has the folder, or several have a script each."""

    def __init__(self, results: str, script: Optional[str] = None) -> None:
        try:
            self.file = open(os.path.join(results, "run.lock"), "w")
            if script is None:
                fcntl.lockf(self.file, fcntl.LOCK_EX | fcntl.LOCK_NB)
            else:
                place = int.from_bytes(hashlib.sha256(os.fsencode(script)).digest()[:7], "big")
                fcntl.lockf(self.file, fcntl.LOCK_EX | fcntl.LOCK_NB, 1, place)
        except OSError as error:
            if error.errno in (errno.EACCES, errno.EAGAIN):
                raise Refused(f"{results}: another run is at work on {script or 'it'}") from error
            if error.errno not in (errno.ENOLCK, errno.ENOSYS, errno.EOPNOTSUPP):
                raise Refused(f"{results}: {error.strerror}") from error


def verdict_of(solver: Optional[Ran], check: Ran, report: List[str]) -> str:
    """What was found, in the words of the table."""
    if check.status in (124, 137):
        return "stopped"
    if check.status > 3:
        return "no report"
    if any(re.fullmatch(r"check .*: refuted by .*", line) for line in report):
        return "invalid"
    if check.status == 2 and any(line.startswith("verdict: valid") for line in report):
        return "not strict"
    if check.status < 3:
        return ("valid", "invalid", "not decided")[check.status]
    fault = next((line for line in report if line.startswith("fault ")), "")
    if fault.startswith("fault C") or " in the script" in fault:
        return "script not taken"
    if fault.startswith("fault X3") or (solver is not None and solver.status >= 124):
        return "solver stopped"
    return "no answer" if fault.startswith("fault P1") else "answers not taken"


def line_that_says_most(report: List[str]) -> str:
    """The first check that is refuted, or the fault, or the first check that is not confirmed."""
    for form in (r"check .*: refuted by .*", r"fault.*", r"check (?!.*: (sat, confirmed|[a-z]*)$).*"):
        for line in report:
            if re.fullmatch(form, line):
                return line
    return ""


def report_of(name: str) -> Tuple[List[str], List[str]]:
    """The lines of a report, and those of the explanation behind it."""
    with open(name, encoding="ascii", errors="replace", newline="\n") as file:
        lines = file.read().split("\n")[:-1]
    end = next((place for place, line in enumerate(lines, 1) if line.startswith("verdict: ")), len(lines))
    return lines[:end], lines[end:]


def said_of(script: str) -> Dict[str, object]:
    """What the script says of its checks by `:status`, in order, with spaces between, and its first logic."""
    try:
        with open(script, "rb") as file:
            found = [match.groups() for match in SAID.finditer(file.read())]
    except OSError:
        found = []
    logics = [logic for _, logic in found if logic]
    return {"expected": b" ".join(word for word, _ in found if word).decode() or "-", "logic": logics[0].decode() if logics else "-"}


def named(path: str, folder: str, name: str) -> str:
    """The path, or a link of this name in this folder, where the path is no UTF-8: the program takes no such word."""
    try:
        path.encode()
        return path
    except UnicodeEncodeError:
        link = os.path.join(folder, name)
        os.symlink(os.path.abspath(path), link)
        return link


class Folder:
    """RESULTS, with the rows in it."""

    def __init__(self, results: str, given: Settings, version: str, keeps_stopped: bool) -> None:
        self.results, self.given, self.version, self.keeps_stopped = results, given, version, keeps_stopped

    def check(self, script: str) -> Optional[Tuple[str, bool]]:
        """Checks one script, and writes its row: the row, and whether it is kept. None where it is there already."""
        name = name_of(script)
        path = os.path.join(self.results, name)
        if os.path.isfile(path + ".row"):
            return None
        try:
            os.makedirs(os.path.dirname(path), exist_ok=True)
            solver, check = self.run(script, path)
            if PROGRAMS.stopped:
                return None
            unwritten = (solver and solver.unwritten) or (check and check.unwritten)
            if unwritten:
                raise unwritten
            report, explanation = report_of(path + ".report")
            found = self.found(name, solver, check, report, path)
            found.update(said_of(script))
            found["explanation"] = explanation
            kept = self.keeps(solver, check)
            self.write(path, found, kept)
            return row_of(found), kept
        except OSError as error:
            sys.stderr.write(f"{script}: {error.strerror}: no row\n")
            return row_of({"script": name, "verdict": "no row", "line": error.strerror}), False

    def run(self, script: str, path: str) -> Tuple[Optional[Ran], Optional[Ran]]:
        """Runs the solver, if there is one, and the program, if the solver could be run."""
        given, solver, answers = self.given, None, re.sub(r"\.smt2$", "", script) + ".txt"
        open(path + ".report", "wb").close()
        if given.solver:
            answers = path + ".answers"
            solver = PROGRAMS.run([*given.solver, script], answers, path + ".solver_errors", given.solver_seconds, given.memory)
            if solver.status in (125, 126, 127) or solver.unwritten:
                return solver, None
        with tempfile.TemporaryDirectory() as folder:
            texts = [named(script, folder, "script.smt2"), named(answers, folder, "answers.txt")]
            words = [given.program, *given.success, *given.options, *texts]
            return solver, PROGRAMS.run(words, path + ".report", path + ".errors", given.check_seconds, given.memory)

    def keeps(self, solver: Optional[Ran], check: Optional[Ran]) -> bool:
        """Whether the row is kept, so that the same command leaves it: there is a verdict, and nothing but the solver ended the solver."""
        if check is None or check.status > 3:
            return False
        return solver is None or solver.status not in STOPPED or (self.keeps_stopped and solver.status in (124, 137))

    def found(self, name: str, solver: Optional[Ran], check: Optional[Ran], report: List[str], path: str) -> Dict[str, object]:
        """What is told of the script."""
        counts = next((found for found in map(COUNTS.fullmatch, report) if found), None)
        line = line_that_says_most(report)
        verdict = "no report" if check is None else verdict_of(solver, check, report)
        if verdict in ("no report", "stopped"):
            at = ".solver_errors" if check is None else ".errors"
            line = shown(first_line(path + at)) or ("the check was stopped" if verdict == "stopped" else "")
        found: Dict[str, object] = {"script": name, "solver": "-" if solver is None else solver.status}
        found.update({"status": "-" if check is None else check.status, "verdict": verdict})
        for index, column in enumerate(COLUMNS[4:8], 1):
            found[column] = int(counts.group(index)) if counts else "-"
        found["line"] = line
        for ran, seconds, mb, cpu in ((solver, *MEASURED[:2], OTHERS[0]), (check, *MEASURED[2:], OTHERS[1])):
            found[seconds] = "-" if ran is None else round(ran.seconds, 3)
            found[mb] = "-" if ran is None else round(ran.mb)
            found[cpu] = "-" if ran is None else round(ran.cpu, 3)
        found["report"] = report
        return found

    def write(self, path: str, found: Dict[str, object], kept: bool) -> None:
        """Writes the row and the object, whole or not at all."""
        told: Dict[str, object] = {key: None if value == "-" else value for key, value in found.items()}
        told.update({"kept": kept, "program": self.version, "options": self.given.options, "command": self.given.solver})
        replace(path + ".json", json.dumps(told) + "\n")
        if os.path.exists(path + ".again"):
            os.remove(path + ".again")
        replace(path + (".row" if kept else ".again"), row_of(found) + "\n")


def replace(name: str, text: str) -> None:
    """Writes a file, which stands whole or not at all."""
    with open(name + ".new", "w", encoding="utf-8", errors="surrogateescape", newline="\n") as file:
        file.write(text)
    os.replace(name + ".new", name)


def row_of(found: Dict[str, object]) -> str:
    """A row of the table, without the end of its line."""
    return "\t".join(str(found.get(column, "-")).replace("\t", " ").replace("\n", " ") for column in COLUMNS + MEASURED + OTHERS)


def rows_of(results: str) -> List[Tuple[str, bool]]:
    """The rows in RESULTS, each with whether it is kept."""
    rows = []
    for folder, _, names in os.walk(results):
        for name in names:
            if name.endswith((".row", ".again")):
                with open(os.path.join(folder, name), encoding="utf-8", errors="surrogateescape", newline="\n") as file:
                    rows.append((file.read().rstrip("\n"), name.endswith(".row")))
    return rows


def objects_of(results: str) -> List[Dict[str, object]]:
    """The objects in RESULTS, by the names of their scripts."""
    found = []
    for folder, _, names in os.walk(results):
        for name in names:
            if name.endswith(".json"):
                with open(os.path.join(folder, name), encoding="utf-8") as file:
                    found.append(json.load(file))
    return sorted(found, key=lambda told: str(told["script"]))


def lines_of(told: Dict[str, object]) -> List[str]:
    """The report and the explanation of an object."""
    return [str(line) for name in ("report", "explanation") for line in (told.get(name) or [])]  # type: ignore[attr-defined]


def page_of(results: str) -> str:
    """The page of the rows in RESULTS."""
    names = COLUMNS + MEASURED + OTHERS
    numbers = COLUMNS[4:8] + MEASURED + OTHERS[:2]
    columns = [page.Column(name, name in numbers, name in ("verdict", "logic", "expected")) for name in names]
    rows = []
    for told in objects_of(results):
        cells = ["-" if told.get(name) is None else str(told[name]) for name in names]
        rows.append(page.Line(cells, lines_of(told) if told["verdict"] != "valid" else []))
    return page.page_of(f"Rows in {results}", columns, rows, ("solver_seconds", "check_seconds"))


def junit_of(results: str, fails_on: List[str]) -> str:
    """The rows in RESULTS as a suite of tests, of those that a server for continuous integration shows."""
    cases, failures, errors = [], 0, 0
    for told in objects_of(results):
        verdict, text = str(told["verdict"]), html.escape("\n".join(lines_of(told)))
        fails, has_none = verdict in fails_on, verdict in ("stopped", "no report", "no row")
        failures, errors = failures + fails, errors + has_none
        inner = f'<{"failure" if fails else "error"} message="{html.escape(verdict)}">{text}</{"failure" if fails else "error"}>' if fails or has_none else ""
        seconds = float(str(told.get("check_seconds") or 0)) + float(str(told.get("solver_seconds") or 0))
        cases.append(f'<testcase classname="smtcheck" name="{html.escape(str(told["script"]))}" time="{seconds:.3f}">{inner}</testcase>\n')
    head = f'<testsuite name="smtcheck" tests="{len(cases)}" failures="{failures}" errors="{errors}">\n'
    return '<?xml version="1.0" encoding="UTF-8"?>\n' + head + "".join(cases) + "</testsuite>\n"


def write_text(name: str, text: str) -> None:
    """Writes a file that was asked for."""
    try:
        with open(name, "w", encoding="utf-8") as file:
            file.write(text)
    except OSError as error:
        raise Refused(f"{name}: {error.strerror}") from error


def print_table(rows: List[Tuple[str, bool]], fails_on: List[str]) -> int:
    """Prints the rows below the names of the columns, and how many there are of each verdict. The status that they have."""
    print("\t".join(COLUMNS + MEASURED + OTHERS))
    for row, _ in sorted(rows, key=lambda row: os.fsencode(row[0])):
        print(row)
    sys.stdout.flush()
    counts: Dict[str, int] = {}
    for row, kept in rows:
        verdict = row.split("\t")[3]
        counts[verdict] = counts.get(verdict, 0) + 1
    again = sum(not kept for _, kept in rows)
    for verdict in sorted(counts):
        sys.stderr.write(f"{counts[verdict]:7d} {verdict}\n")
    if again:
        sys.stderr.write(f"{again} not kept: the same command runs them again\n")
    if "invalid" in counts and "invalid" in fails_on:
        return 1
    if again or not rows:
        return UNFINISHED
    return 2 if any(verdict in fails_on for verdict in counts) else 0


class Progress:
    """A line on a terminal that tells how far a run is."""

    def __init__(self, count: int) -> None:
        self.count, self.done, self.invalid, self.again = count, 0, 0, 0
        self.shown = sys.stderr.isatty()

    def tell(self, row: Optional[Tuple[str, bool]]) -> None:
        """One more script is done."""
        self.done += 1
        if row is not None:
            self.invalid += row[0].split("\t")[3] == "invalid"
            self.again += not row[1]
        if self.shown:
            end = "\n" if self.done == self.count else ""
            sys.stderr.write(f"\r{self.done} of {self.count} scripts, {self.invalid} invalid, {self.again} to run again\033[K{end}")
            sys.stderr.flush()


def scripts_below(folder: str) -> List[str]:
    """The scripts below the folder, by name."""
    if not os.path.isdir(folder):
        raise Refused(f"{folder} is no folder")
    found = [os.path.join(at, name) for at, _, names in os.walk(folder) for name in names if name.endswith(".smt2")]
    if not found:
        raise Refused(f"no script (*.smt2) stands below {folder}")
    return sorted(found, key=os.fsencode)


def check_all(given: argparse.Namespace) -> int:
    """Checks every script below a folder, and prints the table."""
    scripts, environment = scripts_below(given.folder), settings()
    version = version_of(environment)
    try_both(environment)
    same_run(given.results, environment, version)
    claim = Claim(given.results)
    folder, progress = Folder(given.results, environment, version, given.keep_stopped), Progress(len(scripts))
    made: Dict[str, Tuple[str, bool]] = {}
    with concurrent.futures.ThreadPoolExecutor(given.jobs) as pool:
        waiting = [pool.submit(lambda script: None if PROGRAMS.stopped else folder.check(script), script) for script in scripts]
        for done in concurrent.futures.as_completed(waiting):
            row = done.result()
            if row is not None:
                made[row[0].split("\t")[0]] = row
            if not PROGRAMS.stopped:
                progress.tell(row)
    claim.file.close()
    if PROGRAMS.stopped:
        sys.stderr.write("stopped: the same command goes on\n")
        return PROGRAMS.stopped
    rows = {row[0].split("\t")[0]: row for row in rows_of(given.results)}
    rows.update(made)
    return print_table(list(rows.values()), given.fails_on)


def check_one(given: argparse.Namespace) -> int:
    """Checks one script, and writes its row."""
    environment = settings()
    version = version_of(environment)
    same_run(given.results, environment, version)
    claim = Claim(given.results, name_of(given.script))
    row = Folder(given.results, environment, version, given.keep_stopped).check(given.script)
    claim.file.close()
    if PROGRAMS.stopped:
        return PROGRAMS.stopped
    return 0 if row is None or row[1] else UNFINISHED


def table(given: argparse.Namespace) -> int:
    """Prints the table."""
    if not os.path.isdir(given.results):
        raise Refused(f"{given.results} is no folder")
    if given.html:
        write_text(given.html, page_of(given.results))
    if given.junit:
        write_text(given.junit, junit_of(given.results, given.fails_on))
    return print_table(rows_of(given.results), given.fails_on)


def kinds(text: str) -> List[str]:
    """The verdicts of a list, as `invalid,not decided`."""
    words = [word.strip() for word in text.split(",") if word.strip()]
    words = [verdict for word in words for verdict in (REFUSED if word == "refused" else (word,))]
    for word in words:
        if word not in KINDS:
            raise argparse.ArgumentTypeError(f"{word} is none of {', '.join(KINDS)}, refused")
    return words


def jobs(text: str) -> int:
    """A number of scripts at once."""
    if not re.fullmatch(r"[1-9][0-9]{0,3}", text):
        raise argparse.ArgumentTypeError(f"{text} is no number of scripts at once")
    return int(text)


class Parser(argparse.ArgumentParser):
    """The command line, which ends with the status of what was not run."""

    def error(self, message: str) -> None:  # type: ignore[override]
        self.print_usage(sys.stderr)
        self.exit(NOT_RUN, f"{self.prog}: {message}\n")


def parser_of(command: str) -> Parser:
    """The command line of one of the three commands."""
    about = {
        "check_all": "Checks every script (*.smt2) below FOLDER, JOBS at once, and prints the table. A script with a row that is kept is left.",
        "check_one": "Checks one script, and writes its row below RESULTS, unless one is kept there. Exit status: 0 if its row is kept, 4 if not, 5 if nothing was run.",
        "table": "Prints the rows below RESULTS by the names of their scripts, and how many there are of each verdict on standard error.",
    }[command]
    epilog = STATUSES if command == "table" else STATUSES + ENVIRONMENT if command == "check_all" else ENVIRONMENT
    parser = Parser(f"{command}.sh", description=about, epilog=epilog, formatter_class=argparse.RawDescriptionHelpFormatter, allow_abbrev=False)
    if command != "table":
        parser.add_argument("--keep-stopped", action="store_true", help="keep the row of a solver that its time stopped")
    if command != "check_one":
        parser.add_argument("--fails-on", metavar="VERDICTS", type=kinds, default=list(KINDS), help=f"which verdicts count for the status, with commas between them: {', '.join(KINDS)}, refused for the last four (all)")
    if command == "table":
        parser.add_argument("--html", metavar="FILE", help="write a page besides, which a browser shows without a network")
        parser.add_argument("--junit", metavar="FILE", help="write the rows besides as tests in the form of JUnit: those fail that count for the status")
    parser.add_argument("results", metavar="RESULTS", help="the folder of the rows")
    if command == "check_all":
        parser.add_argument("folder", metavar="FOLDER", help="the folder of the scripts")
        parser.add_argument("jobs", metavar="JOBS", nargs="?", type=jobs, default=4, help="how many scripts at once (4)")
    if command == "check_one":
        parser.add_argument("script", metavar="SCRIPT", help="the script")
    return parser


def main(words: Sequence[str]) -> int:
    """One of the three commands."""
    sys.stdout.reconfigure(errors="surrogateescape")  # type: ignore[union-attr]
    sys.stderr.reconfigure(errors="backslashreplace")  # type: ignore[union-attr]
    commands = {"check_all": check_all, "check_one": check_one, "table": table}
    given = parser_of(words[0]).parse_args(words[1:])
    for number in (signal.SIGINT, signal.SIGTERM, signal.SIGHUP):
        signal.signal(number, PROGRAMS.stop)
    try:
        return commands[words[0]](given)
    except Refused as refused:
        sys.stderr.write(f"{words[0]}.sh: {refused}\n")
        return NOT_RUN
    except BrokenPipeError:
        os.dup2(os.open(os.devnull, os.O_WRONLY), sys.stdout.fileno())
        return UNFINISHED


if __name__ == "__main__":
    sys.exit(main(sys.argv[1:]))
