"""The axioms: a triple for an address, the number of an instruction, and a form."""

from .compressed import decoded_parcel
from .instructions import decoded_word
from .operations import MASK
from .tokens import WORDS
from .triples import Assertion, Triple

TAKEN = "taken"


def axiom(terms, address, number, form):
    """The triple of the axiom, or None where there is none."""
    length = 4 if number & 3 == 3 else 2
    if number >> 8 * length or address % 2 or address + length > WORDS:
        return None
    instruction = decoded_word(number) if length == 4 else decoded_parcel(number)
    if instruction is None or instruction.kind == "environment":
        return None
    if form == TAKEN and instruction.kind != "branch":
        return None
    return Effect(terms, instruction, address, length, form).triple(
        number.to_bytes(length, "little"))


class Effect:
    """What an instruction at an address does, in terms."""

    def __init__(self, terms, instruction, address, length, form):
        self.terms = terms
        self.instruction = instruction
        self.address = address
        self.form = form
        self.following = address + length & MASK
        self.values = {register: terms.word(index)
                       for index, register in enumerate(instruction.registers)}

    def register(self, number):
        """The word of a register before."""
        return self.terms.number(0) if number == 0 else self.values[number]

    def triple(self, code):
        """The triple, over code of these bytes."""
        instruction, terms = self.instruction, self.terms
        touches = instruction.kind in ("load", "store")
        before = Assertion(terms.number(self.address), tuple(self.values.items()),
                           (terms.memory(0),) if touches else ())
        after = dict(self.values)
        if instruction.target:
            after[instruction.target] = self.result()
        memories = before.memories
        if instruction.kind == "store":
            memories = (terms.node(f"st{instruction.operation}", *memories, self.sum(),
                                   self.register(instruction.second)),)
        behind = Assertion(self.counter(), tuple(after.items()), memories)
        conditions = tuple(terms.fact("so", condition) for condition in self.conditions())
        return Triple(conditions, before, ((self.address, code),), behind)

    def sum(self):
        """The word of the first register and the immediate added."""
        return self.terms.node("add", self.register(self.instruction.first),
                               self.terms.number(self.instruction.immediate))

    def result(self):
        """The word that the instruction writes."""
        instruction, terms = self.instruction, self.terms
        if instruction.kind == "op":
            return terms.node(instruction.operation, self.register(instruction.first),
                              self.register(instruction.second))
        if instruction.kind == "opimm":
            return terms.node(instruction.operation, self.register(instruction.first),
                              terms.number(instruction.immediate))
        if instruction.kind == "lui":
            return terms.number(instruction.immediate)
        if instruction.kind == "auipc":
            return terms.number(self.address + instruction.immediate & MASK)
        if instruction.kind == "load":
            size = abs(instruction.operation)
            loaded = terms.node(f"ld{size}", terms.memory(0), self.sum())
            return terms.node(f"sx{size}", loaded) if instruction.operation < 0 else loaded
        return terms.number(self.following)

    def counter(self):
        """The program counter behind the instruction."""
        instruction, terms = self.instruction, self.terms
        if instruction.kind == "jal" or self.form == TAKEN:
            return terms.number(self.address + instruction.immediate & MASK)
        if instruction.kind == "jalr":
            return terms.node("and", self.sum(), terms.number(MASK - 1))
        return terms.number(self.following)

    def conditions(self):
        """The conditions of the step."""
        instruction, terms = self.instruction, self.terms
        if instruction.kind in ("load", "store"):
            return [terms.node(f"in{abs(instruction.operation)}", terms.memory(0), self.sum())]
        if instruction.kind == "branch":
            compared = terms.node(instruction.operation, self.register(instruction.first),
                                  self.register(instruction.second))
            return [compared if self.form == TAKEN else terms.node("not", compared)]
        return []
