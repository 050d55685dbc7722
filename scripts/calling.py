"""calling.py [--check]: writes crates/smt_dialogue/CALLING.md, from the example that the gate proves and from the crate's sources.

With `--check` the status is 1 where the page is not what the script would write.
"""
import os
import re
import sys

TOP = os.path.dirname(os.path.dirname(os.path.abspath(__file__)))
PAGE = "crates/smt_dialogue/CALLING.md"
EXAMPLE = "crates/example_session/src/main.rt"
CALLS = (
    ("crates/smt_dialogue/src/validation.rt", ("validate",)),
    ("crates/smt_dialogue/src/session.rt", ("new", "script", "answers", "end_script", "end_answers", "take_lines", "summary", "verdict")),
    ("crates/smt_dialogue/src/runs.rt", ("run",)),
)
HEAD = """# Calling `smt_dialogue`

`validate` gives the whole report of a script and the answers that a solver printed for it. A `Session` is fed with both texts in pieces,
and gives each line once it is decided. `run` reads two sources, puts the lines into a sink and shows them to a visitor. The crate hands on the types that
its calls need: `Options`, `Profile`, `Limit`, `Line`, `LineVisitor`, `Verdict`, `Summary`, `Source`, `Sink` and `Device`.

This page is made by `scripts/calling.py`, from `example_session`, which the gate proves and runs, and from the sources of the crate.

## A caller

"""
CONTRACTS = """
## Contracts

The definitions that the clauses cite are in `specs/` of the crate: `IsReport`, `IsValid`, `IsInvalid`, `History` and `StandsFor` first.

"""


def read(path):
    """The text of a file of the repository."""
    with open(os.path.join(TOP, path), encoding="utf-8") as text:
        return text.read()


def without_indent(text):
    """The text with the least indentation of a line taken from each."""
    lines = text.splitlines()
    least = min(len(line) - len(line.lstrip()) for line in lines if line.strip())
    return "\n".join(line[least:] for line in lines)


def function(path, name, with_body):
    """A function of a file with its comment and its clauses, and with its body or without it."""
    text = read(path)
    head = re.search(r"^((?: *//[^\n]*\n| *#\[[^\n]*\n)*)( *)(?:pub )?fn %s\b.*?^\2\{$" % re.escape(name), text, re.M | re.S)
    if not head:
        raise SystemExit("calling: no function %s in %s" % (name, path))
    end = head.end() if not with_body else text.index("\n%s}" % head.group(2), head.end()) + len(head.group(2)) + 2
    if not head.group(0).rstrip().endswith("{"):
        raise SystemExit("calling: no body of " + name)
    found = text[head.start() : end]
    return without_indent(found if with_body else found.rstrip("{ \n"))


def written():
    """The page."""
    callers = [function(EXAMPLE, name, True) for name in ("tell_script", "print_lines")]
    page = HEAD + "```rust\n" + "\n\n".join(callers) + "\n```\n\nThe example prints:\n\n```\n" + read("crates/example_session/stdout") + "```\n" + CONTRACTS
    for path, names in CALLS:
        page += "From `%s`:\n\n" % path
        for name in names:
            page += "```rust\n" + function(path, name, False) + "\n```\n\n"
    return page.rstrip("\n") + "\n"


def main():
    """The status."""
    page = written()
    if sys.argv[1:] == ["--check"]:
        if not os.path.exists(os.path.join(TOP, PAGE)) or read(PAGE) != page:
            print(PAGE + " is not what scripts/calling.py writes")
            return 1
        return 0
    with open(os.path.join(TOP, PAGE), "w", encoding="utf-8") as file:
        file.write(page)
    return 0


if __name__ == "__main__":
    sys.exit(main())
