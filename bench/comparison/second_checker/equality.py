"""Terms that are equal by facts, and facts that follow from others."""

from .operations import COMPARISONS
from .terms import CONDITION, MEMORY_VARIABLE, computed


class Facts:
    """What follows from a list of facts."""

    def __init__(self, facts):
        self.facts = frozenset(facts)
        self.equal = {fact.parts for fact in facts if fact.kind in ("is", "mis")}
        self.compared = {}
        self.conditions = None

    def are_equal(self, first, second):
        """Whether two words or two memories are equal by the facts."""
        if first is second:
            return True
        pair = first, second
        result = self.compared.get(pair)
        if result is None:
            result = (pair in self.equal or (second, first) in self.equal
                      or (bool(first.children) and first.form == second.form
                          and self.all_equal(first.children, second.children)))
            self.compared[pair] = result
        return result

    def all_equal(self, first, second):
        """Whether two lists are equal by the facts, one by one."""
        return len(first) == len(second) and all(map(self.are_equal, first, second))

    def assertions_equal(self, first, second):
        """Whether two assertions are equal by the facts."""
        return (first == second
                or [register for register, _ in first.registers]
                == [register for register, _ in second.registers]
                and self.are_equal(first.counter, second.counter)
                and self.all_equal([word for _, word in first.registers],
                                   [word for _, word in second.registers])
                and self.all_equal(first.memories, second.memories))

    def are_alike(self, first, second):
        """Whether two conditions are alike."""
        if first is second:
            return True
        if first.form != second.form:
            return False
        if first.form == "not":
            return self.are_alike(first.children[0], second.children[0])
        if first.form in COMPARISONS:
            return self.all_equal(first.children, second.children)
        memory, address = first.children
        other_memory, other_address = second.children
        return (self.are_equal(address, other_address)
                and (self.are_equal(memory, other_memory)
                     or self.are_equal(without_stores(memory), without_stores(other_memory))))

    def conditions_of(self, shape):
        """The conditions among the facts that have this shape."""
        if self.conditions is None:
            self.conditions = {}
            for fact in self.facts:
                if fact.kind == "so":
                    condition = fact.parts[0]
                    self.conditions.setdefault(shape_of(condition), []).append(condition)
        return self.conditions.get(shape, ())

    def follows(self, fact):
        """Whether a fact is among the facts, or follows from them."""
        if fact in self.facts:
            return True
        if fact.kind in ("is", "mis"):
            return self.are_equal(*fact.parts)
        if fact.kind == "gives":
            return False
        condition = fact.parts[0]
        if condition.constant and computed(condition):
            return True
        return any(self.are_alike(condition, other)
                   for other in self.conditions_of(shape_of(condition)))


def shape_of(condition):
    """How many times a condition is negated, and what is negated."""
    negations = 0
    while condition.form == "not":
        condition = condition.children[0]
        negations += 1
    assert condition.kind == CONDITION
    return negations, condition.form


def without_stores(memory):
    """The variable that a memory is when its stores are taken off."""
    while memory.form != MEMORY_VARIABLE:
        memory = memory.children[0]
    return memory
