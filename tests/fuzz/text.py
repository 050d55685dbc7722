"""The reader: from the bytes of a text to its trees, and to the fault of a text that is none.

A tree is an Atom or a Python list of trees. Bytes are read as characters of the same number, so that a place in the string is a place in
the text.
"""
import gc
import re
import sys
from collections import namedtuple

if hasattr(sys, "set_int_max_str_digits"):
    sys.set_int_max_str_digits(0)

Atom = namedtuple("Atom", "kind text")
# A fault of a text: its letter, as "X1", and the byte where it is.
Flaw = namedtuple("Flaw", "letter place")

NUMERAL, DECIMAL, HEXADECIMAL, BINARY = "numeral", "decimal", "hexadecimal", "binary"
STRING, SYMBOL, RESERVED, KEYWORD = "string", "symbol", "reserved word", "keyword"

# How deep lists may nest, by profile. What is read for its trees alone is read as in `wide`.
DEEPEST = {"base": 1000, "wide": 1000000}

COMMAND_WORDS = (
    "assert check-sat check-sat-assuming declare-const declare-datatype declare-datatypes declare-fun declare-sort define-fun "
    "define-fun-rec define-funs-rec define-sort echo exit get-assertions get-assignment get-info get-model get-option get-proof "
    "get-unsat-assumptions get-unsat-core get-value pop push reset reset-assertions set-info set-logic set-option"
).split()
OTHER_WORDS = "! _ as BINARY DECIMAL exists HEXADECIMAL forall let match NUMERAL par STRING".split()
RESERVED_WORDS = frozenset(COMMAND_WORDS + OTHER_WORDS)

LETTERS = r"A-Za-z~!@$%^&*_\-+=<>.?/"
BLANK = re.compile(r"(?:[\t\n\r ]+|;[^\n\r]*)*")
OPENING, CLOSING = re.compile(r"\(+"), re.compile(r"\)+")
NUMBER = re.compile(r"(?:0|[1-9][0-9]*)(\.[0-9]*)?")
HASH = re.compile(r"#(?:x[0-9A-Fa-f]*|b[01]*)?")
# A string or a quoted symbol up to what ends it.
TO_QUOTE = re.compile(r'"(?:[\t\n\r -!#-~\x80-\xff]|"")*')
TO_BAR = re.compile(r"\|[\t\n\r -\[\]-{}~\x80-\xff]*")
COLON = re.compile(":[%s0-9]*" % LETTERS)
WORD = re.compile("[%s][%s0-9]*" % (LETTERS, LETTERS))


def is_symbol(tree, text=None):
    """Whether a tree is a symbol, and this one."""
    return type(tree) is Atom and tree.kind is SYMBOL and (text is None or tree.text == text)


def is_word(tree, text):
    """Whether a tree is this reserved word."""
    return type(tree) is Atom and tree.kind is RESERVED and tree.text == text


def is_kind(tree, kind):
    """Whether a tree is an atom of this kind."""
    return type(tree) is Atom and tree.kind is kind


def begins_with(tree, text):
    """Whether a tree is a list that begins with this reserved word."""
    return type(tree) is list and len(tree) > 0 and is_word(tree[0], text)


def symbol_or_word(text):
    """The atom of a word without bars."""
    return Atom(RESERVED if text in RESERVED_WORDS else SYMBOL, text)


class Reading:
    """What is read of a text: the trees before its end or its fault, the fault or None, and whether nothing comes behind."""

    def __init__(self, trees, flaw, ended):
        self.trees = trees
        self.flaw = flaw
        self.ended = ended


def token_at(text, place):
    """The token that begins here: its atom and its end. Where it is not whole, None for the atom, and the place where it stops."""
    first = text[place]
    if first in "0123456789":
        found = NUMBER.match(text, place)
        end = found.end()
        if found.group(1) is None:
            return Atom(NUMERAL, found.group()), end
        return (Atom(DECIMAL, found.group()) if found.group(1) != "." else None), end
    if first == "#":
        found = HASH.match(text, place)
        kind = HEXADECIMAL if found.group()[1:2] == "x" else BINARY
        return (Atom(kind, found.group()[2:]) if len(found.group()) > 2 else None), found.end()
    if first == '"' or first == "|":
        end = (TO_QUOTE if first == '"' else TO_BAR).match(text, place).end()
        if text[end : end + 1] != first:
            return None, end
        inside = text[place + 1 : end]
        return (Atom(STRING, inside.replace('""', '"')) if first == '"' else Atom(SYMBOL, inside)), end + 1
    if first == ":":
        found = COLON.match(text, place)
        return (Atom(KEYWORD, found.group()) if len(found.group()) > 1 else None), found.end()
    found = WORD.match(text, place)
    if found is None:
        return None, place
    return symbol_or_word(found.group()), found.end()


def read(data, ended=True, deepest=DEEPEST["wide"]):
    """The reading of a text, or of a beginning of one if it has not ended."""
    # (nothing that is read is garbage, and to look for some among a million lists takes as long as to read them)
    looks = gc.isenabled()
    gc.disable()
    try:
        return reading_of(data, ended, deepest)
    finally:
        if looks:
            gc.enable()


def reading_of(data, ended, deepest):
    """The same, whatever garbage there is."""
    text = data.decode("latin-1")
    size = len(text)
    top = []
    above = []
    here = top
    place = 0
    while True:
        place = BLANK.match(text, place).end()
        if place == size:
            return Reading(top, Flaw("X3", size) if ended and above else None, ended)
        first = text[place]
        if first == "(":
            # (parentheses side by side are read at once, which is quicker)
            end = OPENING.match(text, place).end()
            fits = min(end - place, deepest - len(above))
            for _ in range(fits):
                above.append(here)
                here = []
            if place + fits < end:
                return Reading(top, Flaw("X2", place + fits), ended)
            place = end
        elif first == ")":
            end = CLOSING.match(text, place).end()
            fits = min(end - place, len(above))
            for _ in range(fits):
                done = here
                here = above.pop()
                here.append(done)
            if place + fits < end:
                return Reading(top, Flaw("X1", place + fits), ended)
            place = end
        else:
            atom, end = token_at(text, place)
            if atom is None:
                if end < size:
                    return Reading(top, Flaw("X1", end), ended)
                return Reading(top, Flaw("X3", size) if ended else None, ended)
            # Behind an atom come a space, a comment, a parenthesis or the end, which show that it is whole: bars show that by themselves.
            follows = text[end : end + 1]
            fits = follows in "\t\n\r ;(" or follows == ")" and len(above) > 0
            if first == "|" or fits and (follows or ended):
                here.append(atom)
            if not fits:
                return Reading(top, Flaw("X1", end), ended)
            place = end
