"""What dialogues with arrays are made of: small arrays in all shapes, large ones, sorts and terms with faults, names that are operators or free."""
from arrays import LARGEST
from dialogues import is_right_form
from flaws import templates
from sorts import ARRAYS, BITS, BOOL, INTS, LOGICS, REALS, WIDE, Array, Free
from text import is_symbol
from trees import copied, keyword, listed, symbol, word

LACKING = sorted(name for name, theories in LOGICS[WIDE].items() if ARRAYS not in theories)
# Those that scripts have most, and some that have all theories.
USUAL = "QF_ALIA QF_AUFLIA QF_ABV QF_AUFBV QF_AX QF_AUFLIRA QF_ALRA QF_AUFBVLIA ALL ALL ALL ALL QF_AUF QF_AUFBVLRA".split()
OPERATORS = ("select", "store")

# Words in templates that stand for other trees: I for the sort of an index, E for that of an element, A for their arrays, ARRAY, INDEX and
# ELEMENT for terms of these sorts, NAME for a free name, OTHER for any sort, ANY for any term, OF for a declared sort.
SORTS = templates(
    """
    (Array) (Array I) (Array I E E) (Array let) (Array let E) (Array (Array)) Array (_ Array 1) (_ Array I E) (array I E) (Array Foo E) (Array I Foo)
    (Array Foo let) (Array let Foo) (Array String E) (Array I String) (Array (_ BitVec 0) E) (Array I (_ BitVec 129)) (Array A E) (Array A Foo)
    (Array A (Array A E)) (Array I A) (Array I (Array I A)) (Array I (Array I (Array I A))) (Array (Array I) E) (Array I (Array E)) (|Array| I E)
    (Array I (Array A E)) (Array I (Array Foo A)) (Array (Array I A) E) ((Array) I E) (Arrays I E) (Array I E let) (Array I "E") (Array (I) E)
    """
)
# Those with arrays inside are rarer otherwise.
SORTS += [tree for tree in SORTS if str(tree).count("'A'") + str(tree).count("Array") > 2] * 2
FAULTS = templates(
    """
    (select ARRAY) (select ARRAY ANY) (select ARRAY INDEX INDEX) (select INDEX ARRAY) (select ANY INDEX) (store ARRAY INDEX) (store ARRAY INDEX ANY)
    (store ARRAY ANY ELEMENT) (store ARRAY INDEX ELEMENT ELEMENT) (store ANY INDEX ELEMENT) (store ARRAY ELEMENT INDEX) select store (select) (store)
    (store ARRAY) ((as const A) ANY) ((as const A) ELEMENT ELEMENT) ((as const A)) ((as const) ELEMENT) ((as const A A) ELEMENT) ((as Const A) ELEMENT)
    ((as const OTHER) ELEMENT) ((as const Foo) ELEMENT) ((as const Foo) unknown) ((as const (Array I)) unknown) ((as const (Array A E)) ELEMENT)
    ((as |const| A) ELEMENT) ((as (const) A) ELEMENT) ((as "const" A) ELEMENT) ((as let A) ELEMENT) (as const A) ((as const let) ELEMENT) (const ELEMENT)
    const ((as select A) ELEMENT) (((as const A)) ELEMENT) ((_ const A) ELEMENT) ((as const A) (let)) (_ as-array NAME) (_ as-array) (lambda ((x I)) ELEMENT)
    ((_ select 1) ARRAY INDEX) (let ((select true)) (select ARRAY INDEX)) (let ((store INDEX)) store) (let ((const true)) ((as const A) ELEMENT))
    (let ((as true)) ELEMENT) (select (store ARRAY INDEX unknown) ()) (= ARRAY INDEX) (distinct ARRAY ARRAY ANY) (ite true ARRAY INDEX) (and ARRAY true)
    (not ARRAY) ARRAY (select (select ARRAY INDEX) INDEX) ((as const (Array I A)) ELEMENT) (! ARRAY :named NAME) (! (select ARRAY INDEX) :named store)
    ((as const A) (! ELEMENT :named NAME)) ((as const String) ELEMENT) ((as const (Array String E)) ELEMENT) ((as const (Array I String)) ELEMENT)
    (forall ((a A)) true) (select () INDEX) ((select ARRAY INDEX)) ((as const OF) ELEMENT) ((as const (Array OF E)) ELEMENT) ((as const (Array I OF)) ANY)
    """
)
# The first of them are rarer otherwise.
FAULTS += FAULTS[:11] + FAULTS[16:17] * 4 + FAULTS[-2:] * 3
# Commands that name a sort of arrays.
COMMANDS = templates(
    """
    (declare-const NAME A) (declare-fun NAME (A I) A) (define-fun NAME () A ARRAY) (define-fun NAME ((x A) (y I)) E (select x y)) (define-sort NAME () A)
    (define-fun NAME ((x A)) A (store x INDEX ELEMENT)) (define-fun NAME () A INDEX) (define-fun NAME () E ARRAY) (define-const NAME A ARRAY)
    (define-fun NAME ((x A) (y A)) Bool (= x y)) (declare-fun NAME ((Array I A)) (Array I A)) (declare-sort Array 0) (define-sort Array () A)
    (define-fun NAME ((x E)) A ((as const A) x)) (define-fun NAME ((x (Array I))) A x) (declare-const NAME (Array I A))
    """
)
# Bodies of items.
BODIES = templates(
    """
    ARRAY (_ as-array NAME) (lambda ((x I)) ELEMENT) ((as const A) ELEMENT) ((as const A) ANY) ((as const OTHER) ELEMENT) (store ((as const A) ELEMENT) INDEX ELEMENT)
    (let ((x ((as const A) ELEMENT))) (store x INDEX (select x INDEX))) ((as const (Array I Foo)) ELEMENT) ((as @a A) ELEMENT) (as @a A) (as const A) INDEX
    (ite true ((as const A) ELEMENT) ARRAY) ((as const A) (as @a OF)) (select ARRAY INDEX) (store ARRAY INDEX unknown)
    """
)

# What the profile `wide` has to reach.
KINDS = ["operator select", "operator store", "operator const"]
KINDS += ["wide: select where %s was written" % what for what in ("an element", "nothing")] + ["wide: store over an element"]
KINDS += ["wide: %s of arrays, %s" % (name, how) for name in ("=", "distinct") for how in ("true", "false", "open", "open of large ones")]
KINDS += ["wide: = of arrays of arrays, %s" % how for how in ("true", "false", "open", "open of large ones")]
INDEXES = ("truth values", "vectors of 1 bit", "vectors of 2 bits", "vectors of more bits", "integers", "reals", "elements")
KINDS += ["wide: array by " + index for index in INDEXES]
KINDS += ["wide: arrays by %s, the default counts, %s" % (index, how) for index in INDEXES for how in ("true", "false")]
KINDS += ["wide: arrays by %s, all of them written, %s" % (index, how) for index in INDEXES[:3] for how in ("true", "false")]
KINDS += ["wide: arrays by elements, the default counts, open", "wide: equal arrays of which more is written in one"]
KINDS += ["wide: " + what for what in (
    "a sort of arrays out of form, F1", "a sort of arrays without arrays, F3", "arrays as indexes, F2", "arrays three deep, F2",
    "a name of a sort behind const in a script, F3", "arguments of select, F4", "arguments of store, F4", "arguments of const, F4",
    "select without arrays, F3", "store without arrays, F3",
)]
KINDS += ["wide: %s by the name of an operator on arrays, F7" % what for what in ("a declaration", "a definition", "a label", "an item")]

# How many seeds in a row aim at what.
COUNTS = {"equality": 16, "declared": 22, "large": 8, "sort": 24, "fault": 26, "command": 10, "name": 15, "lacking": 15, "item": 13}


class ArrayAims:
    """What the stories of the profile `wide` may aim at."""

    def aim_now(self):
        """What the seed aims at."""
        if self.aim == "array":
            # Where a fault ends the report, it comes behind things that are right, or that the solver refused.
            for _ in range(3):
                if not self.over:
                    getattr(self, "aim_at_array_" + self.what)()
                self.turn += 29
        else:
            super().aim_now()

    def declare_sort(self):
        """A declared sort; now and then constants of arrays with it."""
        super().declare_sort()
        names = self.sort_names()
        if names and not self.over and self.has(ARRAYS) and self.rng.random() < 0.3:
            for _ in range(2):
                if not self.over:
                    other = self.rng.choice((symbol("Bool"), symbol(names[1])))
                    pair = [symbol(names[0]), other] if self.rng.random() < 0.7 else [other, symbol(names[0])]
                    self.do(listed("declare-const", self.new_name(), listed("Array", *pair)))

    def with_arrays(self):
        """The start again, in a logic with arrays; a sort of arrays, or None."""
        if not self.begin_with(USUAL) or not self.has(ARRAYS):
            return None
        return self.a_sort()

    def a_sort(self):
        """A sort of arrays that a script may name."""
        inventor, rng = self.inventor(), self.rng
        numbers = (1, 2) * self.has(BITS) + ("Int",) * self.has(INTS) + ("Real",) * self.has(REALS) + (BOOL,)
        element = rng.choice(numbers)
        if rng.random() < 0.2:
            element = Array(rng.choice(numbers), element)
        sort = Array(rng.choice(numbers + (8,) * self.has(BITS)), element)
        return sort if inventor.has_elements(sort) else Array(BOOL, BOOL)

    def filled(self, tree, sort):
        """A template in which words stand for other trees."""
        inventor, rng = self.inventor(), self.rng
        names = self.sort_names() or ["U"]
        makers = {
            "I": lambda: inventor.sort_tree(sort.index), "E": lambda: inventor.sort_tree(sort.element), "A": lambda: inventor.sort_tree(sort),
            "ARRAY": lambda: inventor.term(sort, rng.choice((1, 3)), {}), "INDEX": lambda: inventor.index(sort.index),
            "ELEMENT": lambda: inventor.leaf(sort.element, {}), "ANY": lambda: inventor.leaf(inventor.sort(), {}),
            "OTHER": lambda: inventor.sort_tree(inventor.sort()), "NAME": lambda: symbol(self.new_name()), "OF": lambda: symbol(names[0]),
        }

        def put(part):
            if type(part) is list:
                return [put(inner) for inner in part]
            return makers[part.text]() if is_symbol(part) and part.text in makers else part

        return put(tree)

    def small(self, sort, length):
        """An array of some writes of one of two elements, over one of two defaults."""
        inventor, rng = self.inventor(), self.rng
        few = [inventor.literal(sort.element) for _ in range(2)]
        tree = inventor.constant_array(sort, copied(rng.choice(few)))
        for _ in range(length):
            tree = listed("store", tree, inventor.index(sort.index), copied(rng.choice(few)))
        return tree

    def aim_at_array_equality(self):
        """Whether small arrays are equal: two of them, that are made another way, or three."""
        rng = self.rng
        self.with_arrays()
        indexes = (BOOL, *(1, 2, 2, 8) * self.has(BITS), *("Int",) * self.has(INTS), *("Real",) * self.has(REALS))
        for place in range(6):
            if not self.over and self.has(ARRAYS):
                sort = Array(indexes[(self.turn + place) % len(indexes)], self.a_sort().element)
                tree = listed(rng.choice(("=", "=", "distinct")), *self.alike(sort))
                self.assert_tree(listed("not", tree) if rng.random() < 0.3 else tree, self.chance(0.1))
        self.check_numbers()

    def alike(self, sort):
        """Two arrays or three, which are equal, or nearly."""
        rng = self.rng
        index = self.inventor().index(sort.index)
        first = self.small(sort, rng.choice((0, 1, 2, 2, 3, 4)))
        kind = rng.random()
        if kind < 0.2:
            # All that is read of it is written again.
            return first, listed("store", copied(first), index, listed("select", copied(first), copied(index)))
        if kind < 0.4 or kind < 0.6 and sort.index not in (BOOL, 1, 2):
            # Another default or another order of writes, or the same.
            second = copied(first)
            inner = second
            while len(inner) == 4:
                inner = inner[1]
            inner[1] = self.inventor().literal(sort.element) if rng.random() < 0.5 else inner[1]
            return first, listed("store", second, index, self.inventor().literal(sort.element)) if rng.random() < 0.3 else second
        if kind < 0.6:
            # All indexes are written.
            bits = 1 if sort.index == BOOL else sort.index
            numbers = list(range(1 << bits))
            elements = [self.inventor().literal(sort.element) for _ in numbers]
            trees = []
            for _ in range(2):
                tree = self.small(sort, rng.choice((0, 0, 1)))
                for number in rng.sample(numbers, len(numbers)):
                    index = symbol(("false", "true")[number]) if sort.index == BOOL else self.inventor().vector(number, bits)
                    tree = listed("store", tree, index, copied(elements[number]))
                trees.append(tree)
                if rng.random() < 0.3:
                    elements[0] = self.inventor().literal(sort.element)
            return trees
        return [first] + [self.small(sort, rng.choice((0, 1, 2, 3, 4))) for _ in range(rng.choice((1, 1, 1, 2)))]

    def aim_at_array_declared(self):
        """Arrays with elements of declared sorts, by items: equal, different or open."""
        rng = self.rng
        names = self.with_sorts() if self.begin_with(("QF_AX", "QF_AUFLIA", "ALL", "ALL", "QF_AUFBV")) and self.has(ARRAYS) else None
        if names is None:
            return
        declared = [self.force.abbreviations[name] for name in names]
        inner = Array(declared[1], BOOL)
        sort = (Array(declared[0], BOOL), Array(*declared), Array(declared[0], inner), Array(BOOL, inner))[self.turn % 4]
        constants = [self.new_name() for _ in range(3)]
        for name in constants:
            if not self.over:
                self.do(listed("declare-const", name, self.inventor().sort_tree(sort)))
        if self.over:
            return
        first, second, third = map(symbol, constants)
        index = self.inventor().leaf(sort.index, {})
        for _ in range(2):
            pairs = [listed(name, *some) for name in ("=", "distinct") for some in ((first, second), (first, second), (first, second, third))]
            pairs.append(listed("=", listed("store", first, index, listed("select", first, copied(index))), second if rng.random() < 0.5 else first))
            if not self.over:
                self.assert_tree(rng.choice(pairs), rng.random() < 0.7)
        if self.over:
            return
        bodies = [self.array_of_items(sort, rng.choice((0, 1, 1, 1, 2))) for _ in constants]
        if rng.random() < 0.6:
            bodies[1] = copied(bodies[0])
            inner = bodies[1]
            while len(inner) == 4:
                inner = inner[1]
            others = [self.array_of_items(sort, 0)[1] for _ in range(4)]
            inner[1] = next((other for other in others if other != inner[1]), inner[1])

        def change(items):
            for item in items:
                if is_right_form(item) and item[1].text in constants:
                    item[4] = bodies[constants.index(item[1].text)]

        self.sat_with(change)

    def array_of_items(self, sort, length):
        """An array as an item may have it, of few elements."""
        rng = self.rng

        def element(of):
            if type(of) is Free:
                return symbol("%s!val!%d" % (of.name, rng.randrange(2)))
            return symbol(rng.choice(("true", "false"))) if type(of) is not Array else self.array_of_items(of, rng.choice((0, 1, 1)))

        tree = [[word("as"), symbol("const"), self.inventor().sort_tree(sort)], element(sort.element)]
        for _ in range(length):
            tree = listed("store", tree, element(sort.index), element(sort.element))
        return tree

    def aim_at_array_large(self):
        """A comparison of arrays about as large as may be compared."""
        rng = self.rng
        if not self.begin_with(("QF_ALIA", "ALL")) or not self.has(ARRAYS, INTS):
            return
        inner, outer = listed("Array", "Int", "Int"), listed("Array", "Int", listed("Array", "Int", "Int"))
        tree = [[word("as"), symbol("const"), inner], self.inventor().literal("Int")]
        # How many are written, how large that is with an index or another array around it, and how often it fits.
        writes = rng.choice((6, 14, 15, 30, 62))
        for index in range(writes):
            tree = listed("store", tree, index, rng.randrange(3))
        unit = 2 + writes
        places = LARGEST // unit - 2 + rng.choice((-1, 0, 0, 1))
        both = ["r1", "r2"]
        made = []
        first = rng.randint(0, places)
        for count in (first, places - first):
            array = [[word("as"), symbol("const"), outer], symbol("r0")]
            for index in range(count):
                array = listed("store", array, index, "r0")
            made.append(array)
        body = listed(rng.choice(("=", "distinct")), *both)
        if rng.random() < 0.3:
            body = listed(body[0].text, listed("select", "r1", 0), *["r0"] * (LARGEST // (unit - 1) - rng.choice((0, 1, 1, 2))))
        tree = [word("let"), [[symbol("r0"), tree]], [word("let"), [[symbol(name), array] for name, array in zip(both, made)], body]]
        self.assert_tree(tree, rng.random() < 0.7)
        self.check_numbers()

    def aim_at_array_sort(self):
        """A sort of arrays that is right, or has a fault; or an array by such a sort."""
        rng = self.rng
        sort = self.with_arrays()
        if sort is None:
            return
        tree = self.filled(copied(SORTS[self.turn % len(SORTS)]), sort)
        kind = self.turn // len(SORTS) % 4
        if kind < 2:
            self.do(listed("declare-const", self.new_name(), tree))
        elif kind == 2:
            self.assert_tree(self.filled([[word("as"), symbol("const"), tree], self.inventor().leaf(sort.element, {})], sort))
        else:
            item = [word("define-fun"), symbol("extra.item"), [], symbol("Bool"), listed("=", *[[[word("as"), symbol("const"), tree], word("true")]] * 2)]
            self.sat_with(lambda items: self.put(items, item))
        if rng.random() < 0.5:
            self.check_numbers()

    def aim_at_array_fault(self):
        """A term with a fault, or nearly."""
        sort = self.with_arrays()
        if sort is None:
            return
        for _ in range(2):
            if not self.over:
                self.do(listed("declare-const", self.new_name(), self.inventor().sort_tree(sort)))
        if not self.over and self.rng.random() < 0.5:
            self.declare_sort()
        if not self.over:
            tree = self.filled(copied(FAULTS[self.turn % len(FAULTS)]), sort)
            kind = self.rng.random()
            if kind < 0.2:
                tree = self.inventor().spoiled(self.inventor().term(BOOL, 4, {}), tree)
            elif kind < 0.5:
                tree = listed("=", tree, copied(tree))
            self.assert_tree(tree)
        self.check_numbers()

    def aim_at_array_command(self):
        """A command that names a sort of arrays."""
        sort = self.with_arrays()
        if sort is not None:
            self.do(self.filled(copied(COMMANDS[self.turn % len(COMMANDS)]), sort))
            self.check_numbers()

    def aim_at_array_name(self):
        """A new name that is an operator's, or is free; and its use."""
        rng = self.rng
        if not self.begin_with(rng.choice((USUAL, USUAL, LACKING))):
            return
        name = symbol((*OPERATORS, *OPERATORS, "const")[self.turn % 5])
        kind = self.turn // 5 % 5
        if kind < 4:
            self.take(name, kind)
        else:
            item = [word("define-fun"), name, [], symbol("Bool"), symbol("true")]
            self.sat_with(lambda items: self.put(items, item))
        if not self.over and rng.random() < 0.5:
            self.assert_tree(rng.choice((name, [name, symbol("true")], listed("=", [[word("as"), name, symbol("Bool")], symbol("true")], "true"))))
        self.check_numbers()

    def aim_at_array_lacking(self):
        """What arrays bring, where they are not there."""
        rng = self.rng
        if not self.begin_with(LACKING):
            return
        sort = Array(BOOL, BOOL)
        if self.turn % 5 == 0:
            self.do(self.filled(copied(rng.choice(COMMANDS)), sort))
        elif self.turn % 5 == 1:
            self.assert_tree(self.filled(copied(rng.choice(FAULTS)), sort))
        elif self.turn % 5 < 4:
            name = OPERATORS[self.turn % 5 - 2]
            self.do(listed("assert", self.filled(listed(name, "true", "ANY"), sort)))
        else:
            item = [word("define-fun"), symbol("extra.item"), [], rng.choice((symbol("Bool"), listed("Array", "Bool", "Bool"))), copied(rng.choice(BODIES))]
            item = self.filled(item, sort)
            self.sat_with(lambda items: self.put(items, item))

    def aim_at_array_item(self):
        """The item of an array, with a body that may have a fault."""
        sort = self.with_arrays()
        if sort is None:
            return
        if self.rng.random() < 0.5:
            self.declare_sort()
        name = self.new_name()
        if self.rng.random() < 0.3 and not self.over:
            self.do([word("define-sort"), symbol("A" + name), [], self.inventor().sort_tree(sort)])
        if not self.over:
            self.do(listed("declare-const", name, self.inventor().sort_tree(sort)))
        if self.over:
            return
        self.assert_tree(listed("=", name, name), True)
        body = self.filled(copied(BODIES[self.turn % len(BODIES)]), sort)

        def change(items):
            for item in items:
                if is_right_form(item) and item[1].text == name:
                    item[4] = body

        self.sat_with(change)
