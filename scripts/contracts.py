#!/usr/bin/env python3
"""contracts.py [--check]: writes docs/CONTRACTS.md from the sources of the crates; with --check it writes nothing, and ends with 1 where the
page is another one.

A crate hands out what its src/lib.rt names by `pub use`, and all that is public in its public modules. Of each function: the first sentence
of its comment, and the names of its clauses. A clause without a name is called `result` where the function promises it, and `call` where it
asks for it. A law is a public function of src/laws.
"""
import functools
import glob
import os
import re
import sys

PAGE = "docs/CONTRACTS.md"
HEAD = """# The contracts, crate by crate

This page is made from the sources by `scripts/contracts.py`, and the gate's run compares the two. [CLAIMS.md](CLAIMS.md) says what the
contracts come to.

- The middle column is the first sentence of the comment in the source, which nothing proves: where it says more than the clauses do,
  only the clauses hold.
- The last column names the clauses (`ensures`) that are proved of the function; `result` is a clause without a name.
- After *asks* are the clauses that a caller has to show first (`requires`); `call` is one without a name.
- A function with `none` has no clause of its own. It is safe and it returns, as every function does.
- A law is a theorem about definitions, stated as the contract of an empty function.
- The definitions that clauses cite are in `specs/` of the crate.

"""


class Item:
    """A function or what a type has of a trait: the name under which a user calls it, its sentence, and the names of its clauses."""

    def __init__(self, owner, name, sentence, ensures, requires):
        self.owner, self.name, self.sentence, self.ensures, self.requires = owner, name, sentence, ensures, requires


def read(path):
    with open(path, encoding="utf-8") as text:
        return text.read()


def crates():
    """The crates of the repository, in the order of crates.txt."""
    lines = [line for line in read("crates.txt").splitlines() if line and not line.startswith("#")]
    return [line.split(":")[0].split()[0] for line in lines]


def first_sentence(lines):
    """The first sentence of a comment, whose lines come without their slashes."""
    words = []
    for line in lines:
        if not line.strip():
            break
        words.append(line.strip())
    text = re.sub(r"\[(`[^`]*`)\]", r"\1", " ".join(words))
    end = re.search(r"[.!?](?=\s+[A-Z`'(\[]|$)", text)
    return text[: end.end()] if end else text.rstrip(":") + "."


def comment_above(lines, at):
    """The comment of the item in this line, without attributes that stand between."""
    at -= 1
    while at >= 0 and lines[at].strip().startswith("#["):
        at -= 1
    found = []
    while at >= 0 and lines[at].strip().startswith("///"):
        found.append(lines[at].strip()[3:].strip())
        at -= 1
    return found[::-1]


def clauses(text):
    """The names of the clauses of a function, whose text begins after its name: those that it promises, and those that it asks for."""
    ensures, requires = [], []
    depth, at, last = 0, 0, ""
    while at < len(text):
        comment = re.compile(r"//[^\n]*").match(text, at)
        string = re.compile(r'"(?:[^"\\]|\\.)*"').match(text, at)
        word = re.compile(r"\b(ensures|requires)\b\s*(\w*)\s*(?=\{)").match(text, at)
        if comment or string:
            at = (comment or string).end()
            continue
        if depth == 0 and word:
            unnamed = "result" if word.group(1) == "ensures" else "call"
            (ensures if word.group(1) == "ensures" else requires).append(word.group(2) or unnamed)
            last = "clause"
            at = word.end()
            continue
        letter = text[at]
        if depth == 0 and (letter == ";" or (letter == "{" and last != "clause")):
            break
        if letter in "([{":
            depth += 1
        elif letter in ")]}":
            depth -= 1
            if depth == 0 and letter == "}":
                last = ""
        at += 1
    return ensures, requires


def bare(name):
    """The name of a type without its parameters."""
    return re.sub(r"<.*", "", name.strip()).split("::")[-1]


def without_parameters(text):
    """What comes after the parameters of an `impl`."""
    text = text.strip()
    if not text.startswith("<"):
        return text
    depth = 0
    for at, letter in enumerate(text):
        depth += (letter == "<") - (letter == ">" and text[at - 1] != "-")
        if depth == 0:
            return text[at + 1 :].strip()
    return text


def items_of(path):
    """The public functions of a file, of its types and of its traits, and what its types have of traits."""
    text = read(path)
    lines = text.splitlines()
    starts = [0]
    for line in lines:
        starts.append(starts[-1] + len(line) + 1)
    owner, kind = None, None
    for at, line in enumerate(lines):
        if line.startswith("}"):
            owner = kind = None
        block = re.match(r"impl\b(.*?)\{\s*$", line)
        trait = re.match(r"pub trait (\w+)", line)
        if block:
            head = without_parameters(block.group(1)).split(" where ")[0]
            of_trait, _, of_type = head.rpartition(" for ")
            owner, kind = bare(of_type), "trait of type" if of_trait else "type"
            if of_trait:
                yield from of_a_trait(lines, at, of_trait.strip(), owner)
        elif trait:
            owner, kind = trait.group(1), "trait"
        method = re.match(r"    (?:pub )?fn (\w+)" if kind == "trait" else r"    pub fn (\w+)", line) if kind in ("trait", "type") else None
        free = re.match(r'pub (?:extern "C" )?fn (\w+)', line)
        found = method or free
        if found:
            ensures, requires = clauses(text[starts[at] + found.end() :])
            yield Item(owner if method else None, found.group(1), first_sentence(comment_above(lines, at)), ensures, requires)


@functools.lru_cache(maxsize=None)
def own_traits():
    """The traits that the crates declare."""
    paths = glob.glob("crates/*/src/**/*.rt", recursive=True)
    return {name for path in paths for name in re.findall(r"^pub trait (\w+)", read(path), re.M)}


def of_a_trait(lines, at, trait, owner):
    """What a type has of a trait: of `Display` its text, of `From` the value that it is made from, of a trait of the crates all of it."""
    names = []
    for line in lines[at + 1 :]:
        if line.startswith("}"):
            break
        names += re.findall(r"^    ghost (output|from_gives) =", line)
    short = trait.split("::")[-1]
    if short == "Display" and names:
        yield Item(owner, "Display", "Its text.", names, [])
    elif short.startswith("From<") and names:
        yield Item(owner, "From", "`%s`" % short[5:-1], names, [])
    elif short in own_traits():
        yield Item(owner, short, "As the trait `%s` has it." % short, ["all of `%s`" % short], [])


def files_of_module(folder, name):
    """The file of a module and those of its parts."""
    yield from sorted(glob.glob("%s/%s.rt" % (folder, name)))
    yield from sorted(glob.glob("%s/%s/**/*.rt" % (folder, name), recursive=True))


def handed_out(crate):
    """Of a library the names that it hands out, with the module of each that is reached by its module, and those of other crates."""
    text = read("crates/%s/src/lib.rt" % crate)
    modules = re.findall(r"^(?:pub )?mod (\w+);", text, re.M)
    open_modules = [name for name in re.findall(r"^pub mod (\w+);", text, re.M) if name != "laws"]
    names, of_others = set(), []
    for path, group, one in re.findall(r"^pub use ([\w:]+?)(?:::\{([^}]*)\}|::(\w+));", text, re.M):
        used = [name.strip() for name in (group or one).split(",") if name.strip()]
        if path.split("::")[0] in modules:
            names |= set(used)
        else:
            of_others += ["%s::%s" % (path, name) for name in used]
    return modules, open_modules, names, of_others


def public_types(path):
    return re.findall(r"^pub (?:struct|enum|trait) (\w+)", read(path), re.M)


def items_handed_out(crate):
    """The functions that a library hands out, those of a type together."""
    folder = "crates/%s/src" % crate
    modules, open_modules, names, of_others = handed_out(crate)
    found = []
    for module in modules:
        if module in ("laws", "tests"):
            continue
        for path in files_of_module(folder, module):
            if path.endswith("/tests.rt"):
                continue
            shown = set(public_types(path)) if module in open_modules and path == "%s/%s.rt" % (folder, module) else set()
            for item in items_of(path):
                is_open = module in open_modules and path == "%s/%s.rt" % (folder, module)
                if item.owner is None and is_open:
                    found.append((module + "::" if not item.name.startswith("smtcheck_") else "", item))
                elif item.owner is not None and item.owner in shown:
                    found.append((module + "::", item))
                elif (item.owner or item.name) in names:
                    found.append(("", item))
    found = joined(found)
    order = []
    for prefix, item in found:
        key = (prefix, item.owner or item.name)
        if key not in order:
            order.append(key)
    found.sort(key=lambda pair: order.index((pair[0], pair[1].owner or pair[1].name)))
    return found, of_others


def joined(found):
    """The same, where what a type is made from is one item."""
    kept, sources = [], {}
    for prefix, item in found:
        if item.name == "From" and item.owner in sources:
            sources[item.owner].append(item.sentence)
            continue
        if item.name == "From":
            sources[item.owner] = [item.sentence]
        kept.append((prefix, item))
    for _, item in kept:
        if item.name == "From":
            item.sentence = "Made from %s." % ", ".join(sources[item.owner])
    return kept


def laws_of(crate):
    """The laws of a library, with the part of src/laws that has each."""
    folder = "crates/%s/src" % crate
    for path in files_of_module(folder, "laws"):
        part = os.path.relpath(path, folder)[len("laws/"):-len(".rt")]
        for item in items_of(path):
            if item.owner is None:
                yield part.replace("/", "::") + "::" if part else "", item


def cell(text):
    return text.replace("|", "\\|")


def code(names):
    return ", ".join("`%s`" % name if " " not in name else name for name in names)


def row(name, item):
    said = code(item.ensures) or "none"
    if item.requires:
        said += "; asks " + code(item.requires)
    return "| %s | %s | %s |" % (name, cell(item.sentence), said)


def shown_name(prefix, item):
    if item.name in ("Display", "From") or item.name in own_traits():
        return "`%s%s`, `%s`" % (prefix, item.owner, item.name)
    return "`%s%s%s`" % (prefix, item.owner + "::" if item.owner else "", item.name)


def page():
    """The text of the page."""
    parts = [HEAD]
    for crate in crates():
        path = "crates/%s/src/lib.rt" % crate
        if not os.path.exists(path):
            continue
        head = [line[3:].strip() for line in read(path).splitlines() if line.startswith("//!")]
        items, of_others = items_handed_out(crate)
        laws = list(laws_of(crate))
        parts.append("## `%s`\n\n%s\n" % (crate, first_sentence(head)))
        if items:
            parts.append("\n| function | what it does | clauses |\n|---|---|---|\n")
            parts += [row(shown_name(prefix, item), item) + "\n" for prefix, item in items]
        if of_others:
            parts.append("\nHanded on: %s.\n" % code(of_others))
        if laws:
            parts.append("\n| law | what it says | clauses |\n|---|---|---|\n")
            parts += [row("`%s%s`" % (part, item.name), item) + "\n" for part, item in laws]
        parts.append("\n")
    return "".join(parts).rstrip("\n") + "\n"


def main():
    os.chdir(os.path.dirname(os.path.dirname(os.path.abspath(__file__))))
    made = page()
    if sys.argv[1:] == ["--check"]:
        if not os.path.exists(PAGE) or read(PAGE) != made:
            print("contracts: %s is not what scripts/contracts.py writes" % PAGE)
            return 1
        return 0
    if sys.argv[1:]:
        print(__doc__.split("\n")[0])
        return 2
    with open(PAGE, "w", encoding="utf-8") as text:
        text.write(made)
    return 0


if __name__ == "__main__":
    sys.exit(main())
