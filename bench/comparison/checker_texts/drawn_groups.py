"""Draws groups: code and definitions whose leaves are often what that code leads to."""

from second_checker.triples import Again, Body, Call, Definition, Group, If, Leave, RETURN, Values

from .drawn_terms import TermDrawer


class GroupDrawer(TermDrawer):
    """Draws a group of a version."""

    def instruction(self):
        """The number of an instruction, mostly of the group's registers."""
        r = self.random
        if self.chance(0.4):
            return self.one((0x0001, 0x00000013, 0x0FF0000F, 0x0000000F))
        registers = self.group.registers or (10,)
        rd, rs1, rs2 = (self.one(registers) if self.chance(0.9) else r.randrange(32)
                        for _ in range(3))
        kind = r.randrange(6)
        immediate = r.randrange(4096)
        if kind == 0:
            return 0x33 | rd << 7 | rs1 << 15 | rs2 << 20 | r.randrange(8) << 12
        if kind == 1:
            return 0x13 | rd << 7 | rs1 << 15 | immediate << 20
        if kind == 2:
            return 0x03 | rd << 7 | rs1 << 15 | r.randrange(7) << 12 | immediate << 20
        if kind == 3:
            return 0x23 | r.getrandbits(5) << 7 | rs1 << 15 | rs2 << 20 | r.randrange(4) << 12
        if kind == 4:
            return 0x63 | self.one((0, 1, 4, 5, 6, 7)) << 12 | rs1 << 15 | rs2 << 20
        return 0x67 | rd << 7 | rs1 << 15 | immediate << 20

    def draw_group(self, name="drawn"):
        """Draws the group, whose first instruction compares two of its registers."""
        r = self.random
        count = self.one((1, 2, 2, 3, 4)) if self.chance(0.95) else 0
        registers = tuple(sorted(r.sample(range(1, 32), count)))
        self.group = Group(name, registers, self.memories, (), [])
        self.start = 0x20000
        self.places = []
        address = self.start
        held = b""
        # The first instruction compares two of the registers, and leads to itself or behind.
        first, second = (self.one(registers or (0,)) for _ in range(2))
        numbers = [0x63 | first << 15 | second << 20]
        numbers += [self.instruction() for _ in range(r.randrange(1, 4))]
        for number in numbers:
            length = 4 if number & 3 == 3 else 2
            self.places.append((address, number))
            held += number.to_bytes(length, "little")
            address += length
        self.group.code = ((self.start, held),)
        self.comparison = self.register_word(first), self.register_word(second)
        for number in range(r.randrange(1, 4)):
            self.group.definitions.append(self.definition(number))

    def register_word(self, register):
        """The variable of a register, or 0x0."""
        if register in self.group.registers:
            return self.terms.word(self.group.registers.index(register))
        return self.terms.number(0)

    def definition(self, number):
        """A definition of the group."""
        exits = [self.start + 4]
        if self.chance(0.5):
            exits.append(RETURN)
        if self.chance(0.2):
            exits.append(self.start)
        self.random.shuffle(exits)
        count = len(self.group.registers)
        self.same = {index: [self.terms.word(index)] for index in range(count)}
        self.returned = []
        self.asked_exits = exits
        body = self.body(number, exits, count, self.memories, 0, None)
        return Definition(self.start, tuple(exits), body)

    def body(self, number, exits, words, memories, depth, taken):
        """A body; `taken` says which way the comparison went on the path."""
        t, r = self.terms, self.random
        steps = []
        for _ in range(r.randrange(4)):
            pick = r.random()
            if pick < 0.5:
                index = r.randrange(len(self.group.registers)) if self.group.registers else None
                if index is not None and self.chance(0.5):
                    steps.append(("let", t.word(index)))
                    self.same[index].append(t.word(words))
                elif self.chance(0.4):
                    steps.append(("let", t.number(self.start + 4)))
                    self.returned.append(t.word(words))
                else:
                    steps.append(("let", self.bound(self.word(), words, memories)))
                words += 1
            elif pick < 0.7 and self.memories:
                steps.append(("letm", self.bound(self.memory(), words, memories)))
                memories += 1
            else:
                steps.append(("need", self.bound(self.condition(), words, memories)))
        compared = t.node("eq", *self.comparison)
        if taken is None and depth < 3 and self.chance(0.8):
            if self.chance(0.5):
                return Body(steps, If(compared, tuple(
                    self.body(number, exits, words, memories, depth + 1, way)
                    for way in (True, False))))
            taken = self.chance(0.3)
            steps.append(("need", compared if taken else t.node("not", compared)))
        if number and depth < 3 and self.chance(0.4):
            called = r.randrange(number)
            arms = []
            for way in range(len(self.group.definitions[called].exits)):
                more, more_memories = self.group.results(self.group.definitions[called], way)
                arms.append(self.body(number, exits, words + more, memories + more_memories,
                                      depth + 1, taken))
            values = Values(tuple(self.bound(self.word(1), words, memories)
                                  for _ in self.group.registers),
                            tuple(t.memory(r.randrange(memories)) for _ in range(self.memories)))
            return Body(steps, Call(called, values, arms))
        return Body(steps, self.leaf(exits, words, memories, taken))

    def leaf(self, exits, words, memories, taken):
        """A `leave` or an `again` line, mostly with values that registers had at the entry."""
        t = self.terms
        values = []
        for index in range(len(self.group.registers)):
            known = [word for word in self.same[index] if word.value < words]
            values.append(self.one(known))
        kept = tuple(t.memory(index) for index in range(self.memories))
        if taken and self.chance(0.9):
            if self.start in exits and self.chance(0.5):
                return Leave(exits.index(self.start), Values(tuple(values), kept))
            return Again(Values(tuple(values), kept))
        way = self.random.randrange(len(exits))
        if exits[way] == self.start:
            way = exits.index(self.start + 4)
        if exits[way] == RETURN:
            known = [word for word in self.returned if word.value < words]
            values.insert(0, self.one(known) if known else t.number(self.start + 4))
        return Leave(way, Values(tuple(values), kept))

    def bound(self, term, words, memories):
        """The term with its variables in scope, mostly."""
        t = self.terms
        if term.children:
            return t.node(term.form, *(self.bound(c, words, memories) for c in term.children))
        if self.chance(0.003):
            return term
        if term.form == "v" and term.value >= words:
            return t.word(self.random.randrange(words)) if words else t.number(7)
        if term.form == "m" and term.value >= memories:
            return t.memory(self.random.randrange(memories)) if memories else term
        return term
