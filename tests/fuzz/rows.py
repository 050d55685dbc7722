"""Reads files of rows, as docs/DEVELOPING.md describes them under 'A row': each row is a list of pairs of a key and its text in bytes."""
import os
import re
from collections import namedtuple

# A dialogue: the two texts, whether print-success is on, the limit on steps or None, and the name of the file that it stands in.
Stored = namedtuple("Stored", "script answers print_success steps file")

STEP = re.compile(rb"\\(?:([ntr\\{}#\-])|x([0-9A-Fa-f]{2})|\*([0-9]+|#)\{)|([{}])|([^\\{}]+)|(\\)")
# What is another in each repetition.
COUNTED = re.compile(rb"\\(?:[#\-]|\*#)")
SIGNS = {b"n": b"\n", b"t": b"\t", b"r": b"\r", b"\\": b"\\", b"{": b"{", b"}": b"}"}


def decoded(text, place=0, count=0, inside=False):
    """The bytes that a text stands for, from a place to its end or to the brace that closes a repetition, and the place behind."""
    out = []
    while place < len(text):
        found = STEP.match(text, place)
        sign, code, times, brace, plain, _ = found.groups()
        place = found.end()
        if sign == b"#":
            out.append(b"%d" % count)
        elif sign == b"-":
            out.append(b"%d" % (count - 1))
        elif sign:
            out.append(SIGNS[sign])
        elif code:
            out.append(bytes([int(code, 16)]))
        elif times:
            end = place
            total = count if times == b"#" else int(times)
            for number in range(1, total + 1):
                piece, end = decoded(text, place, number, True)
                out.append(piece)
                if COUNTED.search(text, place, end) is None:
                    # All others are the same.
                    out.append(piece * (total - 1))
                    break
            place = end
        elif brace == b"}" and inside:
            return b"".join(out), place
        else:
            out.append(brace or plain or b"\\")
    return b"".join(out), place


def rows_of(path):
    """The rows of a file."""
    rows, row = [], []
    with open(path, "rb") as file:
        for line in file.read().split(b"\n"):
            if line.startswith(b"#"):
                continue
            if line.startswith(b"  ") and row:
                row[-1][1] += b"\n" + line[2:]
            elif b":" in line:
                key, text = line.split(b":", 1)
                row.append([key.decode(), text[1:] if text.startswith(b" ") else text])
            elif row:
                rows.append(row)
                row = []
    if row:
        rows.append(row)
    return [[(key, decoded(text)[0]) for key, text in row] for row in rows]


def dialogues_of(folder):
    """The dialogues among the rows of all files of a folder."""
    found = []
    for name in sorted(os.listdir(folder)):
        if not name.endswith(".txt"):
            continue
        for row in rows_of(os.path.join(folder, name)):
            if row[0][0] == "dialogue":
                fields = dict(row)
                steps = int(fields["steps"]) if "steps" in fields else None
                texts = fields.get("script", b""), fields.get("answers", b"")
                found.append(Stored(*texts, fields.get("start") != b"off", steps, name))
    return found
