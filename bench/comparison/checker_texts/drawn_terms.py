"""Draws terms and facts, and others that are equal to them by equations, or nearly so."""

import random

from second_checker.terms import FORMS, Terms, WORD, computed


EDGES = [0, 1, 2, 3, 4, 5, 7, 8, 31, 32, 63, 64, 0x7F, 0x80, 0xFF, 0x7FFF, 0x8000, 0x7FFFFFFF,
         0x80000000, 0xFFFFFFFF, 0x100000000, (1 << 63) - 1, 1 << 63, (1 << 64) - 1,
         (1 << 64) - 8]
OPERATION_NAMES = [name for name, (kind, children) in FORMS.items()
                   if kind == WORD and children == (WORD, WORD)]
EXTENSION_NAMES = ["sx1", "sx2", "sx4"]
COMPARISON_NAMES = ["eq", "ne", "lt", "ge", "ltu", "geu"]


class TermDrawer:
    """Draws terms and facts of one group of a version."""

    def __init__(self, version, seed):
        self.random = random.Random(seed)
        self.version = version
        self.terms = Terms()
        self.memories = 2 if version == 4 else self.random.choice((0, 1, 1))
        self.kinds = []

    def one(self, choices):
        """One of several."""
        return self.random.choice(list(choices))

    def chance(self, part):
        """True in this part of all cases."""
        return self.random.random() < part

    def constant(self):
        """A constant, often one at an edge."""
        r = self.random
        value = self.one(EDGES) if r.random() < 0.7 else r.getrandbits(self.one((8, 32, 33, 64)))
        return self.terms.number(value)

    def closed(self, depth=2):
        """A word without variables."""
        t = self.terms
        if depth == 0 or self.chance(0.3):
            return self.constant()
        if self.chance(0.2):
            return t.node(self.one(EXTENSION_NAMES), self.closed(depth - 1))
        return t.node(self.one(OPERATION_NAMES), self.closed(depth - 1), self.closed(depth - 1))

    def word(self, depth=2):
        """A word."""
        t = self.terms
        if depth == 0 or self.chance(0.35):
            return t.word(self.random.randrange(7)) if self.chance(0.75) else self.constant()
        pick = self.random.random()
        if pick < 0.15:
            return t.node(self.one(EXTENSION_NAMES), self.word(depth - 1))
        if pick < 0.35:
            return t.node("ld" + self.one("1248"), self.memory(depth - 1), self.word(depth - 1))
        return t.node(self.one(OPERATION_NAMES[:12]), self.word(depth - 1), self.word(depth - 1))

    def memory(self, depth=2):
        """A memory."""
        t = self.terms
        if depth == 0 or self.chance(0.5):
            return t.memory(self.random.randrange(3))
        return t.node("st" + self.one("1248"), self.memory(depth - 1), self.word(depth - 1),
                      self.word(depth - 1))

    def condition(self, depth=2):
        """A condition."""
        t = self.terms
        pick = self.random.random()
        if pick < 0.2 and depth:
            return t.node("not", self.condition(depth - 1))
        if pick < 0.45:
            return t.node("in" + self.one("1248"), self.memory(depth), self.word(max(depth - 1, 0)))
        return t.node(self.one(COMPARISON_NAMES), self.word(max(depth - 1, 0)),
                      self.word(max(depth - 1, 0)))

    def closed_condition(self):
        """A condition without variables, mostly a true one."""
        t = self.terms
        word = self.closed()
        if self.chance(0.6):
            other = t.number(computed(word) ^ (0 if self.chance(0.6) else 1))
            if self.chance(0.3):
                word, other = other, word
        else:
            other = self.closed()
        c = t.node(self.one(COMPARISON_NAMES), word, other)
        for _ in range(self.one((0, 0, 1, 2))):
            c = t.node("not", c)
        if not computed(c) and self.chance(0.93):
            c = t.node("not", c)
        return c

    def deep(self, depth):
        """A word of this depth."""
        word = self.terms.word(0)
        for _ in range(depth - 1):
            word = self.terms.node(self.one(EXTENSION_NAMES), word)
        return word

    def fact(self):
        """A fact."""
        t = self.terms
        pick = self.random.random()
        if pick < 0.3:
            return t.fact("is", self.word(), self.word())
        if pick < 0.4:
            return t.fact("mis", self.memory(), self.memory())
        if pick < 0.47 and self.group.definitions:
            d = self.random.randrange(len(self.group.definitions) + 1)
            lists = [tuple(self.word(1) for _ in range(self.random.randrange(3))),
                     tuple(self.memory(1) for _ in range(self.random.randrange(2)))]
            return t.fact("gives", d, self.random.randrange(3), *lists, *lists)
        if pick < 0.6:
            return t.fact("so", self.closed_condition())
        return t.fact("so", self.condition())

    def variant(self, term, equations):
        """A term that is mostly equal by the equations, to which some are added."""
        t = self.terms
        if term.children and self.chance(0.75):
            place = self.random.randrange(len(term.children))
            children = list(term.children)
            children[place] = self.variant(children[place], equations)
            if self.chance(0.3):
                other = self.random.randrange(len(children))
                children[other] = self.variant(children[other], equations)
            return t.node(term.form, *children)
        if term.kind == "condition":
            return term if self.chance(0.9) else self.condition(1)
        if term.kind == WORD:
            other = self.word(1)
            kind = "is"
        else:
            other = self.memory(1)
            kind = "mis"
        pick = self.random.random()
        if pick < 0.44:
            equations.append(t.fact(kind, term, other))
        elif pick < 0.88:
            equations.append(t.fact(kind, other, term))
        elif pick < 0.92 and kind == "is":
            equations.append(t.fact("so", t.node("eq", term, other)))
        elif pick < 0.97:
            between = self.word(1) if kind == "is" else self.memory(1)
            equations += [t.fact(kind, term, between), t.fact(kind, between, other)]
        return other

    def more_stores(self, memory):
        """The memory with further stores, or fewer."""
        t = self.terms
        while memory.children and self.chance(0.5):
            memory = memory.children[0]
        for _ in range(self.random.randrange(3)):
            memory = t.node("st" + self.one("1248"), memory, self.word(1), self.word(1))
        return memory

    def condition_variant(self, condition, equations):
        """A condition that is mostly alike, or nearly."""
        t = self.terms
        if condition.form == "not":
            if self.chance(0.05):
                return condition.children[0]
            return t.node("not", self.condition_variant(condition.children[0], equations))
        pick = self.random.random()
        if condition.form.startswith("in"):
            memory, address = condition.children
            if pick < 0.6:
                if self.chance(0.3):
                    address = self.variant(address, equations)
                base = self.more_stores(memory)
                if self.chance(0.3):
                    inner = base
                    while inner.children:
                        inner = inner.children[0]
                    other = t.memory(self.random.randrange(4))
                    left, right = (inner, other) if self.chance(0.5) else (other, inner)
                    if self.chance(0.8):
                        equations.append(t.fact("mis", left, right))
                    base = self.more_stores(other)
                return t.node(condition.form, base, address)
            if pick < 0.65:
                return t.node("in" + self.one("1248"), memory, address)
        elif pick < 0.05:
            return t.node(condition.form, *reversed(condition.children))
        elif pick < 0.08:
            return t.node(self.one(COMPARISON_NAMES), *condition.children)
        return self.variant(condition, equations)
