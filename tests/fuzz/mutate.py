"""Dialogues that are made from others by changes, of bytes or of trees. The others are those of the rows in
crates/dialogue_rows/data, the dialogues of real solvers among them."""
import random

from dialogues import Dialogue, spoiled_text
from inventor import EDGES
from rows import dialogues_of
from text import NUMERAL, is_kind, read
from trees import copied, lists_in, numeral, symbol, word, written

LARGEST = 6000


class Corpus:
    """The dialogues of a folder of rows that are not too large."""

    def __init__(self, folder):
        self.dialogues = [found for found in dialogues_of(folder) if len(found[0]) + len(found[1]) <= LARGEST]

    def mutated(self, seed, with_steps):
        """The dialogue of a seed."""
        rng = random.Random(seed)
        script, answers, print_success, steps, _ = rng.choice(self.dialogues)
        if rng.random() < 0.05:
            print_success = not print_success
        other = rng.choice(self.dialogues)
        if rng.random() < 0.65:
            script, answers = self.changed_trees(rng, script, answers, other)
        if rng.random() < 0.35:
            for _ in range(rng.choice((1, 1, 2))):
                if rng.random() < 0.5:
                    script = self.changed_bytes(rng, script, other[0])
                else:
                    answers = self.changed_bytes(rng, answers, other[1])
        return Dialogue(script, answers, print_success, steps if with_steps else None)

    def with_changed_bytes(self, seed, with_steps):
        """The dialogue of a seed where nothing but bytes is changed, the number of the one that it was, and how many texts are changed."""
        rng = random.Random(seed)
        number = rng.randrange(len(self.dialogues))
        stored, other = self.dialogues[number], rng.choice(self.dialogues)
        texts = list(stored[:2])
        sides = rng.choice(((0,), (1,), (0, 1), (0, 1)))
        for side in sides:
            while texts[side] == stored[side]:
                for _ in range(rng.choice((1, 1, 2))):
                    texts[side] = self.changed_bytes(rng, texts[side], other[side])
        return Dialogue(*texts, stored.print_success, stored.steps if with_steps else None), number, len(sides)

    def changed_trees(self, rng, script, answers, other):
        """Both texts with changes of their trees."""
        commands, answered = read(script).trees, read(answers).trees
        others = read(other[0]).trees, read(other[1]).trees
        for _ in range(rng.choice((1, 1, 2, 3, 5))):
            side = rng.random() < 0.5
            change(rng, commands if side else answered, others[0] if side else others[1])
        odd = rng.choice((0, 0, 0.1))
        return written(commands, rng, odd), written(answered, rng, odd)

    @staticmethod
    def changed_bytes(rng, text, other):
        """A text with changes of its bytes."""
        choice = rng.random()
        if choice < 0.25 and other:
            # The beginning of one text and the end of another.
            return text[: rng.randint(0, len(text))] + other[rng.randint(0, len(other)) :]
        if choice < 0.5:
            begin = rng.randint(0, len(text))
            end = min(len(text), begin + rng.choice((1, 3, 10, 100)))
            place = rng.randint(0, len(text))
            return text[:place] + text[begin:end] + text[place:] if rng.random() < 0.5 else text[:begin] + text[end:]
        return spoiled_text(rng, text, rng.choice(("X1", "X3", "any", "any", "any", "any")))


def change(rng, trees, others):
    """One change of a tree, or of the order of trees."""
    choice = rng.random()
    if choice < 0.2 and trees:
        place = rng.randrange(len(trees))
        tree = trees.pop(place)
        if rng.random() < 0.5:
            trees.insert(rng.randint(0, len(trees)), tree)
    elif choice < 0.3 and others:
        trees.insert(rng.randint(0, len(trees)), copied(rng.choice(others)))
    else:
        lists = [part for part in lists_in(trees) if part]
        if not lists:
            return
        part = rng.choice(lists)
        place = rng.randrange(len(part))
        donor = rng.choice([found for found in lists_in(others if others and rng.random() < 0.3 else trees) if found] or [part])
        choice = rng.random()
        if is_kind(part[place], NUMERAL) and choice < 0.5:
            part[place] = numeral(max(0, int(part[place].text) + rng.choice((1, -1)) if rng.random() < 0.6 else rng.choice(EDGES + [0])))
        elif choice < 0.2:
            part.pop(place)
        elif choice < 0.3:
            part.insert(place, copied(part[place]))
        elif choice < 0.4:
            part[place] = rng.choice((symbol("x"), symbol("and"), word("let"), [], numeral(0), symbol("true"), [symbol("x")]))
        elif choice < 0.5:
            part.insert(place, copied(rng.choice(donor)))
        else:
            part[place] = copied(rng.choice(donor))
