#!/usr/bin/env python3
"""Compares the library with the program on the dialogues of a file of rows: compare.py PROGRAM CHECK ROWS.

PROGRAM is `smtcheck`, and CHECK the example in C. Each has to print the same bytes with the same status; so has `check` of smtcheck.py,
and `python -m smtcheck` on some of the dialogues, but in the profile `wide` that example, which knows no profile. Explanations have to be
the program's in each form, and to say the same in each, also where the last figure or truth value of the answers is another. It prints the
first difference, and has status 1 there.
"""
import contextlib
import io
import json
import os
import re
import subprocess
import sys
import tempfile

HERE = os.path.dirname(os.path.abspath(__file__))
sys.path[:0] = [HERE, os.path.join(HERE, "..", "..", "tests", "fuzz")]
import rows  # noqa: E402
import smtcheck  # noqa: E402


def run(*words: str, cwd: str = HERE) -> "tuple[int, bytes]":
    """The status of a run, and what it prints."""
    done = subprocess.run(words, stdout=subprocess.PIPE, stderr=subprocess.DEVNULL, cwd=cwd)
    return done.returncode, done.stdout


def counts_of(text: str) -> "list[int]":
    """The four counts that the last line of a report has."""
    return [int(part.split()[-1]) for part in text.splitlines()[-1].split(", ")[-4:]]


def changed(answers: bytes) -> bytes:
    """The answers with another last figure or truth value."""
    found = re.fullmatch(rb"(.*\b)(true|false|[0-9]+)(\b.*)", answers, re.DOTALL)
    if not found:
        return answers
    other = {b"true": b"false", b"false": b"true"}.get(found.group(2), b"1" if found.group(2) != b"1" else b"0")
    return found.group(1) + other + found.group(3)


def printed(*words: str) -> "tuple[int, bytes]":
    """The status of a run of `python -m smtcheck`, and what it prints, in this process."""
    with contextlib.redirect_stdout(io.StringIO()) as out:
        status = smtcheck.main(words)
    return status, out.getvalue().encode()


def values_of(values: "list[dict]") -> "list[str]":
    """The lines of text with the values of a remark: side by side, each whole on a line."""
    lines: "list[str]" = []
    for value in values:
        needed = len(value["term"]) + len(value["value"]) + 8 + (len(value["given"]) + 3 if value["given"] is not None else 0)
        shown = " = ".join(part for part in (value["term"], value["given"], value["value"]) if part is not None)
        if lines and len(lines[-1]) + needed <= 200:
            lines[-1] += ", " + shown
        else:
            lines.append("    " + shown)
    return lines


def text_of(told: "dict") -> str:
    """The text for an object of JSON."""

    def place(spot: "dict | None") -> str:
        return f"{spot['file']}:{spot['line']}:{spot['column']}: " if spot else "    "

    lines = []
    for remark in told["remarks"]:
        head = remark["kind"]
        for name, before in (("number", " "), ("command", ", command "), ("in", ", in ")):
            head += "" if remark[name] is None else f"{before}{remark[name]}"
        lines.append(place(remark["spot"]) + ": ".join(part for part in (head, remark["text"]) if part))
        lines += ["    " + remark["reason"]] if remark["reason"] is not None else []
        lines += values_of(remark["values"])
        lines += [place(item["spot"]) + "item " + item["name"] for item in remark["items"]]
    left_out = told["left_out"] + max(len(lines) - 199, 0)
    lines = lines[:199] + ([f"    (and {left_out} more)"] if left_out else [])
    return "".join(line[:200] + "\n" for line in lines)


def is_explained(program: str, folder: str, start: str, profile: str, script: bytes, answers: bytes) -> bool:
    """Whether explanations are the program's in each form, and `explain` tells all of them."""
    files = [os.path.join(folder, name) for name in ("script", "answers")]
    for path, text in zip(files, (script, answers)):
        with open(path, "wb") as out:
            out.write(text)
    forms = {}
    for form in smtcheck.FORMS:
        words = (f"--explain={form}", "--print-success", start, "--profile", profile)
        forms[form] = run(program, *words, "script", "answers", cwd=folder)
        if printed(*words, *files) != forms[form]:
            return False
    report = smtcheck.check(script, answers, print_success=start == "on", profile=profile)
    told = smtcheck.explain(script, answers, print_success=start == "on", profile=profile)
    objects = [json.loads(line) for line in forms["json"][1].splitlines()]
    results = json.loads(forms["sarif"][1])["runs"][0]["results"]
    open_objects = [each for each in objects if each["remarks"]]
    return (
        forms["text"] == (report.status, (report.text + told.text).encode())
        # an object for each line and the verdict, with remarks where the line is not confirmed
        and objects[-1] == {"check": None, "outcome": report.verdict.replace(" ", "-"), "remarks": [], "left_out": 0}
        and [each["check"] for each in objects[:-1]] == [line.check for line in report.lines]
        and [not each["remarks"] for each in objects[:-1]] == [line.outcome == "confirmed" for line in report.lines]
        # which say what the text says, as the results do, and `explain`
        and "".join(map(text_of, open_objects)) == told.text
        and [(each["ruleId"], each["message"]["text"]) for each in results] == [(each["outcome"], text_of(each)) for each in open_objects]
        and told.verdict == report.verdict
        and [(each.check, each.command) for each in told.told] == [(line.check, line.command) for line in report.lines if line.outcome != "confirmed"]
        and [(each.outcome, [remark.text for remark in each.remarks], each.left_out) for each in told.told]
        == [(each["outcome"], [remark["text"] for remark in each["remarks"]], each["left_out"]) for each in open_objects]
    )


def main(program: str, check: str, path: str) -> int:
    """Compares all dialogues of the file."""
    count = 0
    with tempfile.TemporaryDirectory() as folder:
        files = [os.path.join(folder, name) for name in ("script", "answers")]
        for row in rows.rows_of(path):
            if row[0][0] != "dialogue":
                continue
            fields = dict(row)
            texts = (fields.get("script", b""), fields.get("answers", b""))
            for file, text in zip(files, texts):
                with open(file, "wb") as out:
                    out.write(text)
            start, profile = fields["start"].decode(), fields.get("profile", b"base").decode()
            words = ("--print-success", start, "--profile", profile, *files)
            wanted = run(program, *words)
            report = smtcheck.check(*texts, print_success=start == "on", profile=profile)
            told = {"check": (report.status, report.text.encode())}
            if profile == "base":
                told["the example in C"] = run(check, start, *files)
            if count % 20 == 0:
                told["python -m smtcheck"] = run(sys.executable, "-m", "smtcheck", *words)
            for name, given in told.items():
                if given != wanted:
                    print(f"{row[0][1].decode()}: {name}: {given}, and the program: {wanted}")
                    return 1
            for answers in (texts[1], changed(texts[1])):
                if not is_explained(program, folder, start, profile, texts[0], answers):
                    print(f"{row[0][1].decode()}: explain")
                    return 1
            counts = [report.confirmed, report.refuted, report.undecided, report.unchecked]
            if counts != counts_of(report.text) or len(report.lines) + 1 != report.text.count("\n"):
                print(f"{row[0][1].decode()}: {report}")
                return 1
            count += 1
    if count < 160:
        print(f"only {count} dialogues were compared")
        return 1
    return 0


if __name__ == "__main__":
    sys.exit(main(*sys.argv[1:]))
