"""docs.py [--write]: looks that what the documents say of the repository is so, and prints what is not. With --write it first writes what it
computes itself: docs/CONTRACTS.md, the sizes in docs/CLAIMS.md, and the table of wrong bodies in docs/TESTING.md.

- docs/CONTRACTS.md, crates/smt_dialogue/CALLING.md and docs/crates.svg are what scripts/contracts.py, calling.py and picture.py write.
- Layers (docs/ARCHITECTURE.md): each crate of crates.txt has one row, and the crates that it uses are in lower layers.
- The crates that a row says its crate uses are those of crates.txt; 'and those below' adds what these use.
- The files of `src/`: each is in the line of its crate; `laws/..` is all laws.
- docs/CLAIMS.md: its copy of 'valid' is the file's text; the definitions to read are those that specs/Validity.antt of smt_dialogue imports,
  and those that they import, and in the last row those that specs/Report.antt adds; their numbers are right.
- The crates of the kit that README.md and docs/CLAIMS.md name as trusted are those that crates.txt uses.
- docs/TESTING.md: its numbers and the table of wrong bodies are right. README.md has the number of those apart, if it has one.
- Names: in CLAIMS, TESTING, ARCHITECTURE and DEVELOPING each name in backquotes is declared in crates/, of `a::b` the second one in the first; a small
  word may also be one that a definition quotes, as `exit`, or the name of a file, a library or a thing of std. Names in capitals, as QF_LIA, are left out.
- Each edit, in the gate and apart, has no line that is not read, and changes texts that stand once where it looks for them.
- Each path in backquotes that begins with a folder of the repository exists. In the pages of PAGES each link leads to a file and a heading.
- On these four pages each file in backquotes, as `src/op.rt`, is the end of a path in the repository.
- CLAIMS has at most 1,200 words, TESTING and DEVELOPING 2,000 each; all pages together 30,000 that no script writes.
"""
import glob
import os
import re
import sys

TOP = os.path.dirname(os.path.dirname(os.path.abspath(__file__)))
sys.path.insert(0, os.path.join(TOP, "scripts"))
import calling  # noqa: E402
import contracts  # noqa: E402
import picture  # noqa: E402

CLAIMS, TESTING, ARCHITECTURE = "docs/CLAIMS.md", "docs/TESTING.md", "docs/ARCHITECTURE.md"
PAGES = ["README.md", "CONTRIBUTING.md"] + ["docs/%s.md" % name for name in (
    "ARCHITECTURE", "CLAIMS", "COLLECTIONS", "CONTRACTS", "DECISIONS", "DEVELOPING", "EMBEDDING", "LANGUAGE", "SECURITY", "SOLVERS", "SPEED", "TESTING")]
NAMED = [CLAIMS, TESTING, ARCHITECTURE, "docs/DEVELOPING.md"]
WORDS = {CLAIMS: 1200, TESTING: 2000, "docs/DEVELOPING.md": 2000}
# Words written by hand, in all pages: without the pages that scripts write, and what bench/plot writes into docs/SPEED.md.
ALL_WORDS = 30000
WRITTEN = ["docs/CONTRACTS.md", "crates/smt_dialogue/CALLING.md"]
VALIDITY = "smt_dialogue/specs/Validity"
REPORT = "smt_dialogue/specs/Report"
BODIES = "| crate | in the gate | apart | refused of those |"
LAYERS = "| layer | crates | what it does | what it may not know | uses |"
READING = "| order | files in `crates/` | lines |"
NOTATION = {"abbrev", "ghost", "record", "Goals"}

wrong = []


def read(path):
    with open(path, encoding="utf-8") as text:
        return text.read()


def write(path, text):
    with open(path, "w", encoding="utf-8") as file:
        file.write(text)


def crates():
    """What each crate of the repository uses, by crates.txt; libraries of the kit too."""
    found = {}
    for line in read("crates.txt").splitlines():
        if line and not line.startswith("#"):
            name, rest = line.split(":")
            found[name.split()[0]] = rest.split()
    return found


def rows(text, head):
    """The cells of the table that begins with these words."""
    for line in text[text.index(head):].splitlines()[2:]:
        if not line.startswith("|"):
            return
        yield [cell.strip() for cell in line.strip("|").split("|")]


def named(cell):
    return re.findall(r"`(\w+)`", cell)


# The crates, in docs/ARCHITECTURE.md


def layers(text, uses):
    layer = {}
    for number, cell, *_ in rows(text, LAYERS):
        if len(named(cell)) != 1:
            wrong.append("ARCHITECTURE: a row of layer %s is of one crate, and not of: %s" % (number, cell))
        for name in named(cell):
            if name in layer:
                wrong.append("ARCHITECTURE: %s is in two layers" % name)
            layer[name] = int(number)
    for name in sorted(set(uses) ^ set(layer)):
        wrong.append("ARCHITECTURE: %s: in the layers or in crates.txt alone" % name)
    for name, below in uses.items():
        for other in below:
            if other in layer and layer.get(name, 99) <= layer[other]:
                wrong.append("ARCHITECTURE: %s uses %s, which is in no lower layer" % (name, other))


def closure(names, uses):
    found, left = set(), list(names)
    while left:
        name = left.pop()
        if name not in found:
            found.add(name)
            left += uses.get(name, [])
    return found


def used(text, uses):
    for _, crate, _, _, cell in rows(text, LAYERS):
        name = crate.strip("`")
        said = set(named(cell))
        if "and those below" in cell:
            said = closure(said, uses)
        missing = set(uses.get(name, [])) - said
        if missing:
            wrong.append("ARCHITECTURE: %s uses %s too" % (name, ", ".join(sorted(missing))))
        for other in sorted(set(named(cell)) - set(uses.get(name, []))):
            wrong.append("ARCHITECTURE: %s does not use %s" % (name, other))


# What 'valid' rests on, in docs/CLAIMS.md


def copies(text):
    words = read("crates/%s.antt" % VALIDITY)
    blocks = re.findall(r"^```\n(.*?)^```", text, re.M | re.S)
    if not any("record IsValid" in block for block in blocks):
        wrong.append("CLAIMS: there is no copy of IsValid")
    for block in blocks:
        for part in block.strip().split("\n\n"):
            if "\n" + part + "\n" not in words:
                wrong.append("CLAIMS: this is not the text of %s: %s .." % (VALIDITY, part.splitlines()[0]))


def imports_of(file):
    """The files of specs/ that a file imports; those under `declared` are types of the code."""
    for crate, place in re.findall(r"^use Rattle\.(\w+)\.specs\.([\w.]*\w)", read("crates/%s.antt" % file), re.M):
        if crate != "std" and not place.startswith("declared"):
            yield "%s/specs/%s" % (crate, place.replace(".", "/"))


def definitions(first):
    """The files of definitions that the first one rests on, each with its lines but for comments, imports and empty ones."""
    found, left = {}, [first]
    while left:
        file = left.pop()
        if file not in found:
            lines = [line.strip() for line in read("crates/%s.antt" % file).splitlines()]
            found[file] = len([line for line in lines if line and not line.startswith(("--", "use "))])
            left += imports_of(file)
    return found


def files_in(cell):
    """The files of a cell: the first of a crate has the crate's name, those after it have not."""
    crate = ""
    for word in re.findall(r"`([\w/]+)`", cell):
        if "/specs/" in word:
            crate = word.split("/specs/")[0]
            yield word
        else:
            yield "%s/specs/%s" % (crate, word)


def reading_list(text, writes):
    """Looks that the list of definitions to read is right; gives the page, with the numbers that it should have."""
    valid, report = definitions(VALIDITY), definitions(REPORT)
    sizes = {**report, **valid}
    listed, last = [], []
    for order, cell, lines in rows(text, READING):
        last = list(files_in(cell))
        listed += last
        right = sum(sizes.get(file, 0) for file in last)
        if str(right) != lines:
            if not writes:
                wrong.append("CLAIMS: row %s of the definitions has %d lines, and not %s" % (order, right, lines))
            text = text.replace("| %s | %s | %s |" % (order, cell, lines), "| %s | %s | %d |" % (order, cell, right))
    for file in sorted(set(valid) - set(listed) | set(valid) & set(last)):
        wrong.append("CLAIMS: 'valid' rests on %s, which is not listed before the last row" % file)
    for file in sorted(set(report) - set(listed)):
        wrong.append("CLAIMS: the report rests on %s, which is not listed" % file)
    for file in sorted(set(listed) - set(sizes)):
        wrong.append("CLAIMS: neither 'valid' nor the report rests on %s, which is listed" % file)
    for file in sorted(set(listed) - set(last) - set(valid)):
        wrong.append("CLAIMS: 'valid' does not rest on %s, which is listed before the last row" % file)
    for file in sorted({file for file in listed if listed.count(file) > 1}):
        wrong.append("CLAIMS: %s is listed twice" % file)
    for start, found in (("", valid), (r"`IsReport`\) rests on ", report)):
        text = number(text, "CLAIMS", start + r"(\d+) files, [\d,]+ lines", len(found), writes)
        text = number(text, "CLAIMS", start + r"\d+ files, ([\d,]+) lines", sum(found.values()), writes)
    return text


# What is trusted, in README.md and docs/CLAIMS.md


def trusted(page, text, uses):
    """Looks that the crates of the kit that a page names are those that crates.txt uses."""
    right = {name for below in uses.values() for name in below} - set(uses)
    found = re.search(r"the kit's crates ((?:`\w+`(?:, | and )?)+)", text)
    said = set(named(found.group(1))) if found else set()
    for name in sorted(right - said):
        wrong.append("%s: the crates of the kit that are trusted lack %s" % (page, name))
    for name in sorted(said - right):
        wrong.append("%s: %s is named as trusted, and crates.txt does not use it" % (page, name))


# Numbers


def number(text, page, pattern, right, writes):
    """Looks that the number which a page has at a pattern is right; gives the page with that number."""
    found = re.search(pattern, text)
    if not found:
        wrong.append("%s: there is no number where one is expected: %s" % (page, pattern))
        return text
    if int(found.group(1).replace(",", "")) == right:
        return text
    if not writes:
        wrong.append("%s: %s is not so: it is %d" % (page, found.group(), right))
    return text[: found.start(1)] + format(right, ",") + text[found.end(1) :]


def titles(pattern, key):
    return sum(len(re.findall(r"^%s:" % key, read(path), re.M)) for path in glob.glob("crates/%s" % pattern))


def numbers(text, writes):
    """Looks that the numbers of docs/TESTING.md are right; gives the page, with those that it should have."""
    for pattern, right in (
        (r"([\d,]+) in the gate", len(glob.glob("crates/*/must-fail/*.edit"))),
        (r"([\d,]+) apart", len(glob.glob("tests/wrong_bodies/*/*.edit"))),
        (r"([\d,]+) whole dialogues", titles("dialogue_rows/data/*.txt", "dialogue")),
        (r"([\d,]+) dialogues of solvers", titles("dialogue_rows/data/solver*.txt", "dialogue")),
        (r"([\d,]+) terms over small vectors", titles("rows/data/bits.txt", "term")),
        (r"the ([\d,]+) of `solvers.txt`", titles("dialogue_rows/data/solvers.txt", "dialogue")),
        (r"([\d,]+) runs of two profiles", len(read("tests/profiles/expected").splitlines())),
        (r"([\d,]+) answers of bitwuzla and boolector", len(read("tests/solvers/expected").splitlines())),
        (r"([\d,]+) dialogues of its own", titles("../tests/fuzz/expected*.txt", "dialogue")),
    ):
        text = number(text, "TESTING", pattern, right, writes)
    return text


def wrong_bodies(text, uses, writes):
    """Looks that the table of wrong bodies is right; gives the page, with the table that it should have."""
    tried = dict(line.replace(" refused", "").split(" ", 1) for line in read("tests/wrong_bodies/tried").splitlines())
    made = []
    for name in uses:
        gate, apart = (len(glob.glob(pattern % name)) for pattern in ("crates/%s/must-fail/*.edit", "tests/wrong_bodies/%s/*.edit"))
        if gate or apart:
            made.append("| `%s` | %d | %d | %s |" % (name, gate, apart, tried.get(name, "not tried" if apart else "")))
    for name in sorted({path.split("/")[2] for path in glob.glob("tests/wrong_bodies/*/*.edit")} | set(tried) - set(uses)):
        if name not in uses:
            wrong.append("tests/wrong_bodies: there is no crate %s" % name)
    if BODIES not in text:
        wrong.append("TESTING: there is no table of wrong bodies")
        return text
    begin = text.index(BODIES)
    rest = text[begin:].splitlines()
    length = next((at for at, line in enumerate(rest) if not line.startswith("|")), len(rest))
    if rest[2:length] != made and not writes:
        for line in sorted(set(rest[2:length]) ^ set(made)):
            wrong.append("TESTING: %s: %s" % ("this row is missing" if line in made else "this row is not so", line))
        if sorted(rest[2:length]) == sorted(made):
            wrong.append("TESTING: the rows of wrong bodies are in another order than crates.txt has")
    return text[:begin] + "\n".join(rest[:2] + made + rest[length:]) + "\n"


def readme():
    found = re.search(r"([\d,]+) more edits", read("README.md"))
    right = len(glob.glob("tests/wrong_bodies/*/*.edit"))
    if found and int(found.group(1).replace(",", "")) != right:
        wrong.append("README.md: there are %d wrong bodies apart, and not %s" % (right, found.group(1)))


# Names


class Declared:
    """What is declared in crates/: names, those of items by their crate, and the names in each module and each type."""

    def __init__(self):
        self.names = {}
        self.items = {}
        self.members = {}
        self.modules = {}
        for path in glob.glob("crates/*/src/**/*.rt", recursive=True):
            self.code(path)
        for part in ("specs", "proofs"):
            for path in glob.glob("crates/*/%s/**/*.antt" % part, recursive=True):
                self.definitions(path)

    def add(self, path, name, is_item=True):
        crate = path.split("/")[1]
        if is_item:
            self.items.setdefault(crate, set()).add(name)
        stem = os.path.basename(path).rsplit(".", 1)[0]
        self.names.setdefault(name, set()).add(crate)
        self.modules.setdefault((crate, stem), set()).add(name)

    def code(self, path):
        crate = path.split("/")[1]
        stem = os.path.basename(path)[:-3]
        self.add(path, stem)
        owner = None
        for line in read(path).splitlines():
            if line.startswith("}"):
                owner = None
            block = re.match(r"(?:pub(?:\(\w+\))? )?(?:enum|struct|trait) (\w+)", line)
            impl = re.match(r"impl\b(.*?)\{?\s*$", line)
            if block:
                owner = block.group(1)
            elif impl and not line.rstrip().endswith("{}"):
                trait, _, owner = contracts.without_parameters(impl.group(1)).split(" where ")[0].rpartition(" for ")
                owner = contracts.bare(owner)
                if trait:
                    self.add(path, contracts.bare(trait))
            if line.lstrip().startswith("//"):
                continue
            for name in re.findall(r"\b(?:fn|struct|enum|trait|type|const|static|mod|ghost) (\w+)", line):
                self.add(path, name)
                if owner and line.startswith("    "):
                    self.members.setdefault((crate, owner), set()).add(name)
            for name in re.findall(r"^    ([A-Z]\w*)(?:,| \{|\()", line) + re.findall(r"^ +(?:pub(?:\(\w+\))? )?(\w+): ", line):
                self.add(path, name, is_item=False)
                if owner:
                    self.members.setdefault((crate, owner), set()).add(name)
            for name in re.findall(r"\b(?:ensures|requires) (\w+)", line):
                self.add(path, name, is_item=False)
        for group, one in re.findall(r"^pub use [\w:]+?(?:::\{([^}]*)\}|::(\w+));", read(path), re.M):
            for name in (group or one).split(","):
                if name.strip():
                    self.add(path, name.strip())

    def definitions(self, path):
        text = read(path)
        self.add(path, os.path.basename(path)[:-5])
        pattern = r"^ *(?:(?:abbrev|record|data|lemma|mutual|def|pub|private) )+(\w+)|^ *(?:pub )?(\w+) (?::|=|\()"
        for found in re.findall(pattern, re.sub(r"--[^\n]*", "", text), re.M):
            self.add(path, found[0] or found[1])

    def has(self, crate, name):
        return name in self.names if crate is None else name in self.items.get(crate, ())

    def has_path(self, parts):
        """Whether a name of several parts is declared: after a crate, a module or a type."""
        crate = None
        if os.path.isdir("crates/" + parts[0]):
            crate, parts = parts[0], parts[1:]
        if len(parts) == 1:
            return self.has(crate, parts[0])
        owner, name = parts[-2:]
        inside = [names for (other, stem), names in list(self.members.items()) + list(self.modules.items())
                  if stem == owner and crate in (None, other)]
        return any(name in names for names in inside)


def names(page, text, declared):
    text = re.sub(r"^```.*?^```", "", text, flags=re.M | re.S)
    others = {"ensures", "requires"} | NOTATION | {os.path.basename(path) for path in glob.glob("*/*")} | {used for each in crates().values() for used in each}
    others |= {os.path.basename(path).split(".")[0] for path in glob.glob("crates/*/*") + glob.glob("crates/*/data/*")}
    for path in glob.glob("crates/*/specs/**/*.antt", recursive=True):
        others |= set(re.findall(r'codes "([^"]*)"', read(path)))
    for path in glob.glob("crates/*/src/**/*.rt", recursive=True) + glob.glob("crates/*/specs/**/*.antt", recursive=True):
        for group in re.findall(r"^ *(?:ghost )?use Rattle\.std\.[\w.]+\.\{([^}]*)\}", read(path), re.M):
            others |= set(re.findall(r"\w+", group))
    for word in re.findall(r"`([^`\n]+)`", text):
        word = re.sub(r"\(\)$", "", word)
        if re.fullmatch(r"\w+(::\w+)+", word):
            if word.split("::")[0] != "std" and not declared.has_path(word.split("::")):
                wrong.append("%s: nothing in crates/ is %s" % (page, word))
        elif re.fullmatch(r"[A-Z][a-z]\w*|[a-z][a-z0-9]*(_[a-z0-9]+)*", word):
            if not declared.has(None, word) and word not in others:
                wrong.append("%s: nothing in crates/ has the name %s" % (page, word))


# Paths, links, words


def files(page, text):
    every = ["/" + path for top in ("crates", "tests", "docs", "bindings", "scripts", "bench", "collections")
             for path in glob.glob(top + "/**/*.*", recursive=True)] + ["/" + path for path in glob.glob("*.*")]
    for word in re.findall(r"`([\w/.-]+\.(?:antt|rt|sh|py|toml|md|h))`", text):
        if not re.search(r"\b[A-Z]+/", word) and not any(path.endswith("/" + word) for path in every):
            wrong.append("%s: there is no file %s" % (page, word))


def paths(path, text):
    tops = "|".join(re.escape(name) for name in os.listdir(".") if os.path.isdir(name))
    for word in re.findall(r"`((?:%s|smt_\w+|smtcheck\w*)/[\w./-]+)`" % tops, text):
        if "/out/" in word or word.endswith(("/out", ".", "/NAME")):
            continue
        places = [word, "crates/" + word, "crates/" + word + ".antt", word + ".antt"]
        if not any(os.path.exists(place) for place in places):
            wrong.append("%s: there is no %s" % (path, word))


def anchors(text):
    """The names by which links lead to the headings of a page."""
    for heading in re.findall(r"^#+ (.*)$", re.sub(r"^```.*?^```", "", text, flags=re.M | re.S), re.M):
        yield re.sub(r"[^\w\- ]", "", heading.lower()).replace(" ", "-")


def links(path, text):
    for target in re.findall(r"\]\(([^)\s]+)\)", text):
        if re.match(r"\w+:", target):
            continue
        file, _, anchor = target.partition("#")
        place = os.path.normpath(os.path.join(os.path.dirname(path), file)) if file else path
        if not os.path.exists(place):
            wrong.append("%s: a link leads to %s, which is not there" % (path, target))
        elif anchor and anchor not in anchors(read(place)):
            wrong.append("%s: a link leads to %s, and there is no such heading" % (path, target))


def edits():
    """Each edit has pairs of lines 'old: ' and 'new: ' alone, behind the file that they are in, and changes something, pair by pair."""
    for path in sorted(glob.glob("crates/*/must-fail/*.edit") + glob.glob("tests/wrong_bodies/*/*.edit")):
        crate = path.split("/")[1] if path.startswith("crates/") else path.split("/")[2]
        texts, file, old = {}, None, None
        for line in read(path).rstrip("\n").split("\n"):
            kind, _, text = line.partition(": ")
            if kind == "file":
                file = "crates/%s/%s" % (crate, text.strip())
                texts.setdefault(file, read(file))
            elif kind == "old":
                old = text
            elif kind == "new" and old and old != text and texts.get(file, "").count(old) == 1:
                texts[file] = texts[file].replace(old, text)
            else:
                wrong.append("%s: a line that is not read, or a change of nothing, or not of one place: %s" % (path, line))
        if not any(text != read(file) for file, text in texts.items()):
            wrong.append("%s changes nothing" % path)


def all_words():
    """All pages together have no more words than ALL_WORDS."""
    pages = [path for path in glob.glob("**/*.md", recursive=True) if path not in WRITTEN and "/out/" not in path]
    found = sum(len(re.sub("<!-- (counts|real|made|summary) -->.*?<!-- end -->", "", read(path), flags=re.S).split()) for path in pages)
    if found > ALL_WORDS:
        wrong.append("the pages have %d words by hand, %d are enough" % (found, ALL_WORDS))


def words(path, most):
    count = len(read(path).split())
    if count > most:
        wrong.append("%s has %d words, and at most %d are wanted" % (path, count, most))


def main():
    os.chdir(TOP)
    writes = sys.argv[1:] == ["--write"]
    made = ((contracts, contracts.PAGE, contracts.page), (calling, calling.PAGE, calling.written), (picture, picture.PAGE, picture.drawn))
    for script, page, text in made:
        if writes:
            write(page, text())
        elif not os.path.exists(page) or read(page) != text():
            wrong.append("%s is not what scripts/%s.py writes" % (page, script.__name__))
    uses = crates()
    architecture, claims, testing = read(ARCHITECTURE), read(CLAIMS), read(TESTING)
    layers(architecture, uses)
    used(architecture, uses)
    copies(claims)
    right = {CLAIMS: reading_list(claims, writes), TESTING: wrong_bodies(numbers(testing, writes), uses, writes)}
    if writes:
        for path, text in right.items():
            write(path, text)
    readme()
    for page in ("README.md", CLAIMS):
        trusted(page, read(page), uses)
    declared = Declared()
    for page in NAMED:
        names(page, read(page), declared)
        files(page, read(page))
    for path in ["README.md", *sorted(glob.glob("docs/*.md"))]:
        paths(path, read(path))
    for path in PAGES:
        links(path, read(path))
    for path, most in WORDS.items():
        words(path, most)
    all_words()
    edits()
    for line in wrong:
        print("docs: " + line)
    return 1 if wrong else 0


if __name__ == "__main__":
    sys.exit(main())
