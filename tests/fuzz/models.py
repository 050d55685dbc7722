"""Printed models: their items, their cost, and what they make of the assertions in force and of the assumptions of their check."""
from fractions import Fraction

import arrays
from operators import FROM_INTS, ON_OVERFLOW, TO_INTS
from script import Assertion, Declaration, Definition, is_define_fun
from sorts import INT, REAL, WIDE, Faulty, element_sort, like_element, of_abbreviation, sort_of
from terms import Apply, Context, Let, Literal, Note, Use, Variable, check_definition, check_rank, taken
from text import begins_with, is_symbol
from values import LOWEST, OPEN, Abstract


class Structure:
    """The bodies of all names, over which terms have a cost and a value."""

    def __init__(self, bodies, reached=None):
        self.bodies = bodies
        self.costs = {}
        self.values = {}
        self.reached = reached

    def cost(self, node):
        """The cost of a term: 1, the costs of its parts, and that of the body of the name that it uses."""
        kind = type(node)
        if kind is Literal or kind is Variable:
            return 1
        if kind is Note:
            return 1 + self.cost(node.term)
        if kind is Let:
            return 1 + sum(map(self.cost, node.terms)) + self.cost(node.body)
        cost = 1 + sum(map(self.cost, node.arguments))
        if kind is Use:
            if node.name not in self.costs:
                self.costs[node.name] = self.cost(self.bodies[node.name].node)
            cost += self.costs[node.name]
        return cost

    def value(self, node, variables):
        """The value of a term, or OPEN; `variables` has the values of the variables by their numbers."""
        kind = type(node)
        if kind is Apply:
            values = [self.value(argument, variables) for argument in node.arguments]
            value = node.operator.value(values, node.sorts)
            if self.reached is not None:
                self.reached["operator " + node.operator.name] += 1
                count_numbers(self.reached, node, values, value)
                if OPEN not in values:
                    count_conversion(self.reached, node, values, value)
                    if node.sorts:
                        arrays.count(self.reached, node, values, value)
            return value
        if kind is Variable:
            return variables[node.number]
        if kind is Literal:
            if self.reached is not None and type(node.value) in (Abstract, Fraction):
                self.reached["wide: an element" if type(node.value) is Abstract else "wide: a decimal that is no integer"] += 1
            return node.value
        if kind is Note:
            return self.value(node.term, variables)
        if kind is Let:
            inner = dict(variables)
            for number, term in zip(node.numbers, node.terms):
                inner[number] = self.value(term, variables)
            return self.value(node.body, inner)
        # A name has one value for the same arguments.
        values = tuple([self.value(argument, variables) for argument in node.arguments])
        use = node.name, values
        if use not in self.values:
            body = self.bodies[node.name]
            self.values[use] = self.value(body.node, dict(zip(body.parameters, values)))
        return self.values[use]


def count_numbers(reached, node, values, value):
    """Counts which operators got numbers of both sorts, made a fraction, or are open of known reals."""
    name = node.operator.name
    if INT in node.sorts and REAL in node.sorts:
        reached["wide: mixed " + name] += 1
    if type(value) is Fraction:
        reached["wide: a fraction by " + name] += 1
    if value is OPEN and OPEN not in values and (REAL in node.sorts or name == "/"):
        reached["wide: open by %s%s" % (name, " of 0" if name == "/" and 0 in values[1:] else "")] += 1


def count_conversion(reached, node, values, value):
    """Counts what overflow predicates and conversions make of known values, and of which widths these are."""
    name = node.operator.name
    if name in ON_OVERFLOW:
        reached["wide: %s %s" % (name, "true" if value else "false")] += 1
        reached["wide: overflow of %d bits" % node.sorts[0]] += 1
    elif name in TO_INTS:
        reached["wide: conversion of %d bits" % node.sorts[0]] += 1
        if value is OPEN:
            reached["wide: open by " + name] += 1
        elif value < 0:
            reached["wide: %s %s" % (name, "below 0" if value > LOWEST else "of the lowest integer")] += 1
    elif name in FROM_INTS and values[0] != value:
        reached["wide: %s of a number %s" % (name, "below 0" if values[0] < 0 else "too large")] += 1


class ItemFault(Exception):
    """The first item of a model with a fault, by its number, and the letter of the fault."""

    def __init__(self, number, letter):
        super().__init__(number, letter)
        self.number = number
        self.letter = letter


def items_of(tree):
    """The items of a model: a leading symbol `model` is none."""
    return tree[1:] if tree and is_symbol(tree[0], "model") else tree


def set_aside(item, context, rank, reached):
    """One item that repeats a definition of the script, of this rank: it is no part of the model, and its body is not looked at."""
    try:
        check_rank(context, *item[2:4], rank)
    except Faulty as fault:
        if reached is not None:
            reached["wide: repeated item " + fault.letter] += 1
        raise
    if reached is None:
        return
    reached["wide: repeated item"] += 1
    if rank.parameters:
        reached["wide: repeated item with parameters"] += 1
    try:
        check_definition(context, *item[2:])
    except Faulty as fault:
        reached["wide: repeated item whose body would have " + fault.letter] += 1


def told_of_sorts(item, force, reached):
    """Whether one item tells of the elements of declared sorts, and is no part of the model; or its fault."""
    if begins_with(item, "forall") or begins_with(item, "declare-sort"):
        if reached is not None:
            reached["wide: item " + item[0].text] += 1
        return True
    if not begins_with(item, "declare-fun"):
        return False
    try:
        check_element(item, force)
    except Faulty as fault:
        if reached is not None:
            reached["wide: item declare-fun " + fault.letter] += 1
        raise
    if reached is not None:
        reached["wide: item declare-fun"] += 1
    return True


def check_element(item, force):
    """The faults of an item `(declare-fun x () S)`, by which x is an element of S."""
    sort = element_sort(item[1].text, force.abbreviations) if len(item) == 4 and is_symbol(item[1]) and item[2] == [] else None
    if sort is None:
        raise Faulty("F1")
    if item[1].text in force.ranks:
        raise Faulty("F7")
    if sort_of(item[3], force.abbreviations, force.theories) != sort:
        raise Faulty("F4")


def define_item(item, force, declared, ranks, bodies, reached=None):
    """One item, which is put into the ranks and the bodies of the items before it."""
    if force.profile == WIDE and told_of_sorts(item, force, reached):
        return
    if begins_with(item, "define-fun-rec") or begins_with(item, "define-funs-rec"):
        raise Faulty("F2")
    if not begins_with(item, "define-fun") or not is_define_fun(item[1:]):
        raise Faulty("F1")
    name = item[1].text
    context = Context(force.theories, force.abbreviations, ranks, force.profile == WIDE, force.ranks)
    if name in ranks:
        raise Faulty("F6")
    if force.profile == WIDE and element_sort(name, force.abbreviations) is not None:
        raise Faulty("F7")
    if force.profile == WIDE and name in force.ranks and name not in declared:
        set_aside(item, context, force.ranks[name], reached)
        return
    if name not in declared and (name in force.ranks or name in context.operators):
        raise Faulty("F7", taken(context, name, "an item"))
    ranks[name], bodies[name] = check_definition(context, *item[2:], rank=declared.get(name))
    if reached is not None and force.profile == WIDE and like_element(name):
        reached["wide: item by the name of " + ("an abbreviation" if of_abbreviation(name, force.abbreviations) else "no sort")] += 1


def bodies_of(tree, force, reached=None):
    """What a model defines, by name; the fault of its first item with one."""
    declared = {thing.name: thing.rank for thing in force.of_kind(Declaration)}
    ranks, bodies = {}, {}
    for index, item in enumerate(items_of(tree)):
        try:
            define_item(item, force, declared, ranks, bodies, reached)
        except Faulty as fault:
            if reached is not None and fault.kind:
                reached["wide: " + fault.kind] += 1
            raise ItemFault(index + 1, fault.letter)
    return bodies


CONFIRMED = "confirmed"


def judged(tree, force, assumed, steps, reached=None):
    """What a model makes of the assertions in force and of the nodes that are assumed.

    It is CONFIRMED, or the words that stand behind the model in the report.
    """
    try:
        bodies = bodies_of(tree, force, reached)
    except ItemFault as fault:
        return "item %d %s" % (fault.number, fault.letter)
    for thing in force.of_kind(Declaration):
        if thing.name not in bodies:
            return "lacks the symbol of command %d" % thing.command
    for thing in force.of_kind(Definition):
        bodies[thing.name] = thing.body
    structure = Structure(bodies, reached)
    assertions = force.of_kind(Assertion)
    costs = [structure.cost(assertion.node) for assertion in assertions], [structure.cost(node) for node in assumed]
    if reached is not None and assumed and steps is not None:
        count_costs(reached, *map(sum, costs), steps)
    if steps is not None and sum(map(sum, costs)) > steps:
        return "too long"
    asserted = [structure.value(assertion.node, {}) for assertion in assertions]
    found = [structure.value(node, {}) for node in assumed]
    if reached is not None:
        count_values(reached, asserted, found)
    if False in asserted:
        return "refuted by the assertion of command %d" % assertions[asserted.index(False)].command
    if False in found:
        return "refuted by assumption %d" % (found.index(False) + 1)
    if OPEN in asserted:
        return "assertion of command %d not decided" % assertions[asserted.index(OPEN)].command
    if OPEN in found:
        return "assumption %d not decided" % (found.index(OPEN) + 1)
    return CONFIRMED


def count_costs(reached, asserted, assumed, steps):
    """Counts how the costs of assertions and assumptions are to the limit."""
    if asserted <= steps < asserted + assumed:
        reached["assuming: too long by its literals"] += 1
    if asserted + assumed == steps:
        reached["assuming: as long as the limit"] += 1


def count_values(reached, asserted, assumed):
    """Counts which values of assertions and assumptions compete for the line of a model, by those that come first."""
    if not assumed:
        return
    first = {value: assumed.index(value) for value in (False, OPEN) if value in assumed}
    if assumed.count(True) == len(assumed):
        reached["assuming: all true" + (", an assertion false" if False in asserted else "")] += 1
    for value, words in ((False, "false"), (OPEN, "open")):
        if value in first and False in asserted:
            reached["assuming: %s, an assertion false" % words] += 1
        elif value in first and OPEN in asserted:
            reached["assuming: %s, an assertion open" % words] += 1
        elif first.get(value) and assumed[0] is True:
            reached["assuming: %s behind one that is true" % words] += 1
    if len(first) == 2:
        reached["assuming: false %s one that is open" % ("before" if first[False] < first[OPEN] else "behind")] += 1
