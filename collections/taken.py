#!/usr/bin/env python3
"""Tells which scripts smtcheck takes, without a solver: each is read with an answer that fits each of its questions."""
import argparse
import os
import re
import subprocess
import sys
from typing import Iterator, List, NamedTuple, Sequence, Tuple

# A comment, a string, a quoted symbol, a parenthesis, or another atom.
TOKEN = re.compile(rb';[^\r\n]*|"[^"]*"?|\|[^|]*\|?|[()]|[^ \t\r\n;"|()]+')
CHECKS = (b"check-sat", b"check-sat-assuming")
REFUSAL = b'(error "")\n'


class Command(NamedTuple):
    """A tree at the top of a script."""

    start: int
    end: int
    words: Tuple[bytes, ...]
    """its first two atoms, if it is a list that begins with them"""


def commands_of(script: bytes) -> Iterator[Command]:
    """The commands of a script, up to one that does not end."""
    depth, start, words = 0, 0, []  # type: Tuple[int, int, List[bytes]]
    for token in TOKEN.finditer(script):
        text = token.group()
        if text[:1] == b";":
            continue
        if text == b")":
            depth -= 1
        elif depth == 0:
            start, words = token.start(), []
        if text == b"(":
            depth += 1
        elif depth == 1 and len(words) < 2:
            words.append(text)
        if depth <= 0:
            yield Command(start, token.end(), tuple(words))
            depth = 0


def answer_to(command: Command) -> bytes:
    """An answer that the command takes, and that changes nothing of what is read: success is never printed."""
    if command.words[:1] and command.words[0] in CHECKS:
        return b"unsat\n"
    if command.words[:1] == (b"echo",) or command.words[:1] and command.words[0].startswith(b"get-"):
        return REFUSAL
    return REFUSAL if command.words == (b"set-option", b":print-success") else b""


def shown(text: bytes) -> str:
    """The beginning of a command, in one line."""
    line = " ".join(text[:400].decode("utf-8", "replace").split())
    return line if len(line) <= 80 else line[:77] + "..."


def place_of(fault: str, script: bytes, commands: List[Command]) -> Tuple[int, str]:
    """The line that a fault is in, counted from 1, and the command there."""
    byte = re.search(r" at byte (\d+)$", fault)
    command = re.search(r" at command (\d+)$", fault)
    if byte is not None:
        at, text = int(byte.group(1)), ""
    elif command is not None and int(command.group(1)) <= len(commands):
        found = commands[int(command.group(1)) - 1]
        at, text = found.start, shown(script[found.start : found.end])
    else:
        return 0, ""
    return script.count(b"\n", 0, at) + 1, text


def tell(program: str, options: List[str], name: str) -> int:
    """Prints a line on one script: 0 if it is taken, 1 if it is not, 4 if that is unknown, 5 if the program refuses its options."""
    try:
        with open(name, "rb") as file:
            script = file.read()
        commands = list(commands_of(script))
        words = [program, "--print-success", "off", *options, os.path.join(".", name), "-"]
        done = subprocess.run(words, input=b"".join(map(answer_to, commands)), stdout=subprocess.PIPE, stderr=subprocess.PIPE)
    except OSError as error:
        sys.stderr.write(f"taken.sh: {error.filename}: {error.strerror}\n")
        return 4
    report = done.stdout.decode("ascii", "replace").splitlines()
    fault = next((line for line in report if line.startswith("fault ")), "")
    if done.returncode in (0, 2) and any(line.startswith("verdict: valid") for line in report):  # (2 with --strict)
        print(f"{name}: taken")
        return 0
    if done.returncode == 3 and (fault.startswith("fault C") or " in the script" in fault):
        line, text = place_of(fault, script, commands)
        print(f"{name}:{line}: not taken, {fault}" + (f": {text}" if text else ""))
        return 1
    told = fault or done.stderr.decode("utf-8", "replace").strip().replace("\n", ": ") or f"{program} ended with {done.returncode}"
    sys.stderr.write(f"taken.sh: {name}: {told}\n")
    return 5 if done.returncode == 5 else 4


def main(words: Sequence[str]) -> int:
    """Tells of each script: the worst of their statuses."""
    parser = argparse.ArgumentParser(
        "taken.sh",
        description="Tells of each SCRIPT whether smtcheck takes it whole, with any number of checks and questions, and else the line and the first "
        "command that is not taken. No solver is run. The environment names the program, SMTCHECK (smtcheck), and its options, SMTCHECK_OPTIONS, as '--profile wide' (none).",
        epilog="exit status: 0 if all are taken, 1 if some is not, 4 if that is unknown of some, 5 if the command line or an option was refused",
        allow_abbrev=False,
    )
    parser.add_argument("scripts", metavar="SCRIPT", nargs="+", help="a script")
    parser.error = lambda message: parser.exit(5, f"{parser.format_usage()}taken.sh: {message}\n")  # type: ignore[assignment,method-assign]
    given = parser.parse_args(words)
    sys.stdout.reconfigure(errors="surrogateescape")  # type: ignore[union-attr]
    program, options = os.environ.get("SMTCHECK") or "smtcheck", os.environ.get("SMTCHECK_OPTIONS", "").split()
    if any(option.split("=")[0] == "--print-success" for option in options):
        parser.error("SMTCHECK_OPTIONS has --print-success, which is always off here")
    for option in options:
        if option in ("--explain=json", "--explain=sarif"):
            parser.error(f"SMTCHECK_OPTIONS has {option}, which prints no report")
    status = 0
    for script in given.scripts:
        status = max(status, tell(program, options, script))
    return status


if __name__ == "__main__":
    sys.exit(main(sys.argv[1:]))
