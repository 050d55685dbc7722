"""Trees for dialogues: how they are made, and how they are written, plainly or with odd spaces, comments and bars."""
from text import BINARY, DECIMAL, HEXADECIMAL, KEYWORD, NUMERAL, RESERVED, RESERVED_WORDS, STRING, SYMBOL, WORD, Atom, symbol_or_word

SPACES = (" ", " ", " ", "\n", "\t", "\r", "  ", "\r\n ", " ; ) |\n", ";\r", ";\"\x00\x7f\xff(\n", "\n\n")


def symbol(name):
    """A symbol, which is written with bars where it needs them."""
    return Atom(SYMBOL, name)


def numeral(number):
    """A numeral."""
    return Atom(NUMERAL, str(number))


def keyword(name):
    """A keyword, by its name with the colon."""
    return Atom(KEYWORD, name)


def string(text):
    """A string."""
    return Atom(STRING, text)


def word(text):
    """A word without bars: a reserved word or a symbol."""
    return symbol_or_word(text)


def listed(*parts):
    """A list; strings among the parts are words, and numbers numerals."""
    return [word(part) if type(part) is str else numeral(part) if type(part) is int else part for part in parts]


def indexed(name, *indexes):
    """`(_ name index ..)`."""
    return [word("_"), symbol(name)] + [numeral(index) for index in indexes]


def spelled(atom):
    """The bytes of an atom, as text."""
    kind, text = atom
    if kind is SYMBOL:
        found = WORD.fullmatch(text)
        return text if found and text not in RESERVED_WORDS else "|" + text + "|"
    if kind is STRING:
        return '"' + text.replace('"', '""') + '"'
    if kind is HEXADECIMAL:
        return "#x" + text
    if kind is BINARY:
        return "#b" + text
    assert kind in (NUMERAL, DECIMAL, KEYWORD, RESERVED)
    return text


def tokens_of(tree, tokens):
    """Puts the tokens of a tree behind others: atoms, and parentheses as strings."""
    waiting = [tree]
    while waiting:
        part = waiting.pop()
        if type(part) is list:
            tokens.append("(")
            waiting.append(")")
            waiting.extend(reversed(part))
        else:
            tokens.append(part)


def written(trees, rng=None, odd=0.0):
    """The text of some trees: with one space between atoms, or with a part of all places odd."""
    tokens = []
    for tree in trees:
        tokens_of(tree, tokens)
    out = []
    before = "("
    for token in tokens:
        atom = type(token) is not str
        text = spelled(token) if atom else token
        if odd and rng.random() < odd:
            out.append(rng.choice(SPACES))
            if atom and token.kind is SYMBOL and rng.random() < 0.5:
                text = "|" + token.text + "|"
        elif before != "(" and token != ")" and not (odd and token == "(" and rng.random() < odd):
            out.append("\n" if before == ")" and token == "(" else " ")
        out.append(text)
        before = token
    return "".join(out).encode("latin-1")


def depth_of(tree):
    """How deep lists nest in a tree."""
    deepest = 0
    waiting = [(tree, 0)]
    while waiting:
        part, depth = waiting.pop()
        if type(part) is list:
            deepest = max(deepest, depth + 1)
            waiting.extend((inner, depth + 1) for inner in part)
    return deepest


def lists_in(trees):
    """All lists in some trees, from outside."""
    found = []
    waiting = [tree for tree in trees if type(tree) is list]
    while waiting:
        part = waiting.pop()
        found.append(part)
        waiting.extend(inner for inner in part if type(inner) is list)
    return found


def copied(tree):
    """A copy of a tree, whose lists are its own."""
    return [copied(part) for part in tree] if type(tree) is list else tree
