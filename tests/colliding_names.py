"""Compares what names take that were chosen to meet in `smt_names` with what names take that were drawn at random.

python3 tests/colliding_names.py PROGRAM [N] [TIMES]: for declared names, abbreviations of sorts, variables of one `let`, labels, and items of a
model, N of each kind (64,000), the seconds of the processor: of names drawn at random, of names that have one key, and of names with a few keys
that begin at one group of the library's table. It ends with 1 where the chosen ones take over TIMES (3) times as long as the drawn ones, and a
tenth of a second more. With --script in place of PROGRAM it prints a script that declares N names of one key.
"""
import os
import random
import subprocess
import sys
import tempfile

FACTOR = 11_400_714_819_323_198_485
ALL = (1 << 64) - 1
LENGTH = 24
# The number of names of one key.
ONE = [0x4142434445464748]
# What stands in bars: printable, but no bar and no backslash.
BYTES = [byte for byte in [*range(0x20, 0x7F), *range(0x80, 0x100)] if byte not in b"|\\"]


def mixed(key):
    """`mixed` in crates/smt_names/src/keys.rt."""
    product = key * FACTOR
    return (product >> 64) ^ (product & ALL)


def drawn(count, seed):
    """So many names at random."""
    maker, names = random.Random(seed), set()
    while len(names) < count:
        names.add(bytes(maker.choice(BYTES) for _ in range(LENGTH)))
    return sorted(names)


def table_hash(middle):
    """What the library's table sees of a name that `chosen` makes with this number: `key` of keys.rt, `hash_of` of hasher.rt, and both halves in one."""
    spread = mixed(mixed(mixed(middle)))
    return (spread ^ (spread >> 32)) & 0xFFFF_FFFF


def at_one_group(count):
    """Sixteen numbers whose names begin at one group of the library's table of so many names."""
    groups = 1
    while groups * 9 < count:
        groups *= 2
    maker, found = random.Random(1), []
    while len(found) < 16:
        middle = maker.getrandbits(64)
        if table_hash(middle) % groups == 0:
            found.append(middle)
    return found


def chosen(count, seed, middles):
    """So many names with these numbers in turn: of three pieces of eight bytes the third brings both hashes of the others to the number."""
    maker, names, allowed = random.Random(seed), set(), set(BYTES)
    while len(names) < count:
        pieces = [bytes(maker.choice(BYTES) for _ in range(8)) for _ in range(2)]
        first, second = (int.from_bytes(piece, "little") for piece in pieces)
        front, odd = mixed(mixed(LENGTH ^ first) ^ second), mixed(second)
        third = (front ^ odd ^ middles[len(names) % len(middles)]).to_bytes(8, "little")
        if allowed.issuperset(third):
            names.add(b"".join(pieces) + third)
    return sorted(names)


def joined(form, names):
    """The form, once with each name in bars."""
    return b"".join(form % (b"|" + name + b"|") for name in names)


# A kind of names: the script and the answers with these.
KINDS = {
    "declared names": lambda names: (joined(b"(declare-const %s Bool)\n", names), b""),
    "abbreviations": lambda names: (joined(b"(define-sort %s () Bool)\n", names), b""),
    "variables": lambda names: (b"(assert (let (" + joined(b"(%s true)\n", names) + b") true))\n", b""),
    "labels": lambda names: (b"(assert (! true " + joined(b":named %s\n", names) + b"))\n", b""),
    "items": lambda names: (b"(check-sat)(get-model)\n", b"sat\n(" + joined(b"(define-fun %s () Bool true)\n", names) + b")\n"),
}


def seconds(program, script, answers):
    """The least seconds of the processor of three runs, of which each has to take both texts."""
    taken = []
    for _ in range(3):
        before = os.times()
        report = subprocess.run([program, "--print-success", "off", script, answers], capture_output=True, check=False)
        after = os.times()
        if report.returncode != 0:
            sys.exit("colliding names: status %d: %s" % (report.returncode, report.stdout[:200]))
        taken.append(after.children_user + after.children_system - before.children_user - before.children_system)
    return min(taken)


def main(program, count="64000", times="3"):
    """Prints the table, and answers whether each kind is within the bound."""
    within, count = True, int(count)
    named = [drawn(count, 1), chosen(count, 1, ONE), chosen(count, 1, at_one_group(count))]
    with tempfile.TemporaryDirectory() as folder:
        script, answers = os.path.join(folder, "script"), os.path.join(folder, "answers")
        for kind, texts in KINDS.items():
            taken = []
            for names in named:
                for path, text in zip((script, answers), texts(names)):
                    with open(path, "wb") as file:
                        file.write(text)
                taken.append(seconds(program, script, answers))
            most = max(taken[1:])
            print("%-14s  %.2f s drawn  %.2f s of one key  %.2f s at one group  %.1f times" % (kind, *taken, most / max(taken[0], 0.001)))
            within = within and most <= float(times) * taken[0] + 0.1
    return within


if __name__ == "__main__" and sys.argv[1] == "--script":
    sys.stdout.buffer.write(KINDS["declared names"](chosen(int(sys.argv[2]), 1, ONE))[0])
elif __name__ == "__main__":
    sys.exit(0 if main(*sys.argv[1:]) else 1)
