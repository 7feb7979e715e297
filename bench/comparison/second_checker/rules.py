"""The rules of whole lines: whether a stated triple is an instance of a figure.

Each takes the premises and the stated triple, and says whether it follows.
"""

from .codes import is_within, union
from .definitions import variables
from .equality import Facts
from .terms import Substitution, TooDeep
from .triples import Assertion, RETURN, Triple


def are_same(first, second):
    """Whether two triples are the same."""
    return first is not None and second is not None and (
        first.facts == second.facts and first.before == second.before
        and first.code == second.code and first.behind == second.behind)


def instance(terms, triple, places):
    """The triple with terms put in for variables, or None where it is past the limits."""
    put = Substitution(terms, places)

    def assertion(old):
        registers = tuple((register, put.term(word)) for register, word in old.registers)
        return Assertion(put.term(old.counter), registers, put.list(old.memories))

    try:
        return Triple(tuple(map(put.fact, triple.facts)), assertion(triple.before), triple.code,
                      assertion(triple.behind))
    except TooDeep:
        return None


def framed(triple, registers, memories):
    """The triple with further registers and memories, or None where a register is there."""
    taken = {register for side in (triple.before, triple.behind)
             for register, _ in side.registers}
    if any(register in taken for register, _ in registers):
        return None

    def assertion(old):
        return Assertion(old.counter, tuple(sorted(old.registers + registers, key=first_of)),
                         old.memories + memories)

    return triple.with_parts(before=assertion(triple.before), behind=assertion(triple.behind))


def first_of(pair):
    """The register of a pair."""
    return pair[0]


def is_framed(triple, stated):
    """Whether the stated triple is the triple with further registers and memories."""
    own = {register for register, _ in triple.before.registers}
    registers = tuple(pair for pair in stated.before.registers if pair[0] not in own)
    memories = stated.before.memories[len(triple.before.memories):]
    return are_same(framed(triple, registers, memories), stated)


def composed(first, second):
    """The triple of one behind the other, or None."""
    if first.behind != second.before:
        return None
    code = union(first.code, second.code)
    if code is None:
        return None
    further = tuple(fact for fact in second.facts if fact not in first.fact_set)
    return Triple(first.facts + further, first.before, code, second.behind)


def is_extended(triple, stated):
    """Whether the stated triple has more code, and nothing else that is new."""
    return (triple.facts == stated.facts and triple.before == stated.before
            and triple.behind == stated.behind and is_within(triple.code, stated.code))


def is_strengthened(triple, stated):
    """Whether the assertion before is equal by the stated facts, of which F are some."""
    return (triple.code == stated.code and triple.behind == stated.behind
            and triple.fact_set <= stated.fact_set
            and Facts(stated.facts).assertions_equal(triple.before, stated.before))


def is_weakened(triple, stated):
    """The same of the assertion behind."""
    return (triple.code == stated.code and triple.before == stated.before
            and triple.fact_set <= stated.fact_set
            and Facts(stated.facts).assertions_equal(triple.behind, stated.behind))


def is_discharged(triple, stated):
    """Whether each fact is a stated one or follows from these, and nothing else is new."""
    if not (triple.code == stated.code and triple.before == stated.before
            and triple.behind == stated.behind):
        return False
    facts = Facts(stated.facts)
    return all(map(facts.follows, triple.facts))


def is_steered(terms, triple, stated):
    """Whether a stated condition says where the program counter leads."""
    condition = terms.node("eq", triple.behind.counter, stated.behind.counter)
    return (triple.code == stated.code and triple.before == stated.before
            and triple.behind[1:] == stated.behind[1:]
            and triple.fact_set <= stated.fact_set
            and terms.fact("so", condition) in stated.fact_set)


def is_exchanged(triple, stated):
    """Whether the two memories have changed places."""
    def exchanged(old):
        return old._replace(memories=old.memories[::-1])

    return (len(triple.before.memories) == 2 == len(triple.behind.memories)
            and are_same(triple.with_parts(before=exchanged(triple.before),
                                           behind=exchanged(triple.behind)), stated))


def used(terms, group, number, way):
    """The triple of a definition, left by an exit."""
    definition = group.definitions[number]
    count = len(group.registers)
    arguments = variables(terms, 0, count, 0, group.memories)
    words, memories = group.results(definition, way)
    results = variables(terms, count, words, group.memories, memories)
    counter, registers = landing(terms, definition, way, results.words)
    fact = terms.fact("gives", number, way, *arguments, *results)
    before = Assertion(terms.number(definition.entry),
                       tuple(zip(group.registers, arguments.words)), arguments.memories)
    behind = Assertion(counter, tuple(zip(group.registers, registers)), results.memories)
    return Triple((fact,), before, group.code, behind)


def landing(terms, definition, way, words):
    """The program counter at an exit, and the words of the registers there."""
    if definition.exits[way] == RETURN:
        return words[0], words[1:]
    return terms.number(definition.exits[way]), words


# The rules that have one premise and need nothing beside it.
OF_ONE = {"frame": is_framed, "extend": is_extended, "strengthen": is_strengthened,
          "weaken": is_weakened, "discharge": is_discharged, "exchange": is_exchanged}
