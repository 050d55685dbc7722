"""picture.py [--check]: draws the crates by layers into docs/crates.svg, from crates.txt and the table of layers in docs/ARCHITECTURE.md.

A line leads from a crate to each one that it uses and does not reach through another. The numbers are the way of a dialogue: from the program to the lines of its report. With `--check` the status is 1 where the
file is not what the script would write.
"""
import os
import re
import sys

TOP = os.path.dirname(os.path.dirname(os.path.abspath(__file__)))
PAGE = "docs/crates.svg"
PICTURE = os.path.join(TOP, PAGE)
WAY = ("smtcheck", "smt_dialogue", "smt_text", "smt_script", "smt_terms", "smt_eval", "smt_machine", "smt_report")
WIDTH, HEIGHT, GAP, ROW, MARGIN = 128, 30, 14, 78, 20


def crates():
    """What each crate of the repository stands on, without the kit's crates."""
    found = {}
    with open(os.path.join(TOP, "crates.txt"), encoding="utf-8") as lines:
        for line in lines:
            if line.strip() and not line.startswith("#"):
                name, _, rest = line.partition(":")
                found[name.split()[0]] = rest.split()
    return {name: [other for other in below if other in found] for name, below in found.items()}


def layers():
    """The layer of each crate, the lowest 0."""
    with open(os.path.join(TOP, "docs", "ARCHITECTURE.md"), encoding="utf-8") as text:
        table = text.read().partition("| layer | crates |")[2].partition("\n\n")[0]
    found = {}
    for row in table.splitlines()[2:]:
        cells = row.strip("|").split("|")
        found.update((name, int(cells[0])) for name in re.findall(r"`(\w+)`", cells[1]))
    return found


def reached(name, uses):
    """All crates below one."""
    found, left = set(), list(uses[name])
    while left:
        other = left.pop()
        if other not in found:
            found.add(other)
            left += uses[other]
    return found


def places(layer):
    """The middle of each crate's box, and the size of the picture."""
    rows = [[name for name in layer if layer[name] == number] for number in range(max(layer.values()) + 1)]
    across = max(map(len, rows)) * (WIDTH + GAP) - GAP
    found = {}
    for number, names in enumerate(rows):
        left = MARGIN + (across - len(names) * (WIDTH + GAP) + GAP) / 2
        for place, name in enumerate(names):
            found[name] = left + place * (WIDTH + GAP) + WIDTH / 2, MARGIN + (len(rows) - 1 - number) * ROW + HEIGHT / 2
    return found, across + 2 * MARGIN, (len(rows) - 1) * ROW + HEIGHT + 2 * MARGIN


def drawn():
    """The picture."""
    uses = crates()
    found, width, height = places(layers())
    lines = [
        '<svg xmlns="http://www.w3.org/2000/svg" viewBox="0 0 %d %d" font-family="sans-serif" font-size="13">' % (width, height),
        '<rect width="100%" height="100%" fill="white"/>',
    ]
    for name, below in uses.items():
        through = set().union(*(reached(other, uses) for other in below)) if below else set()
        for other in below:
            if other not in through:
                (x, y), (u, v) = found[name], found[other]
                lines.append('<line x1="%g" y1="%g" x2="%g" y2="%g" stroke="#b8c0c8"/>' % (x, y + HEIGHT / 2, u, v - HEIGHT / 2))
    for name, (x, y) in found.items():
        fill = "#fff0d0" if name in WAY else "#eef2f6"
        lines.append('<rect x="%g" y="%g" width="%d" height="%d" rx="4" fill="%s" stroke="#607080"/>' % (x - WIDTH / 2, y - HEIGHT / 2, WIDTH, HEIGHT, fill))
        size = ' font-size="%d"' % (9 if len(name) > 18 else 13)
        lines.append('<text x="%g" y="%g" text-anchor="middle"%s>%s</text>' % (x, y + 4, size, name))
    for number, name in enumerate(WAY, 1):
        x, y = found[name][0] - WIDTH / 2, found[name][1] - HEIGHT / 2
        lines.append('<circle cx="%g" cy="%g" r="9" fill="#c05000"/>' % (x, y))
        lines.append('<text x="%g" y="%g" text-anchor="middle" fill="white" font-size="11">%d</text>' % (x, y + 4, number))
    return "\n".join(lines + ["</svg>"]) + "\n"


def main():
    """The status."""
    picture = drawn()
    if sys.argv[1:] == ["--check"]:
        try:
            with open(PICTURE, encoding="utf-8") as file:
                same = file.read() == picture
        except FileNotFoundError:
            same = False
        if not same:
            print("docs/crates.svg is not what scripts/picture.py writes")
        return 0 if same else 1
    with open(PICTURE, "w", encoding="utf-8") as file:
        file.write(picture)
    return 0


if __name__ == "__main__":
    sys.exit(main())
