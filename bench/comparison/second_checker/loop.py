"""The loop rule: a definition is closed by a theorem for each of its leaves."""

from .codes import is_within
from .definitions import Leaves, variables
from .rules import landing
from .triples import Again, Assertion


def closes(terms, group, number, theorems):
    """Whether the theorems are, in order, those of the leaves of a definition."""
    definition = group.definitions[number]
    arguments = variables(terms, 0, len(group.registers), 0, group.memories)
    before = Assertion(terms.number(definition.entry),
                       tuple(zip(group.registers, arguments.words)), arguments.memories)
    leaves = Leaves(group, terms)
    count = 0
    for leaf in leaves.of(definition):
        if count == len(theorems):
            return False
        theorem = theorems[count]
        count += 1
        if (theorem.before != before or theorem.behind != asked(terms, group, definition, leaf)
                or not all(fact in leaves.path for fact in theorem.fact_set)
                or not is_within(theorem.code, group.code)):
            return False
    return count == len(theorems)


def asked(terms, group, definition, leaf):
    """The assertion behind that a leaf asks for."""
    if isinstance(leaf, Again):
        counter, words = terms.number(definition.entry), leaf.values.words
    else:
        counter, words = landing(terms, definition, leaf.way, leaf.values.words)
    return Assertion(counter, tuple(zip(group.registers, words)), leaf.values.memories)
