"""Draws lines by each rule, right ones and half-wrong ones.

A text is drawn line by line. Each candidate is judged by the second checker; right ones are kept, and a wrong one mostly ends the text. So one run of the program
says of many right lines that it takes them, and of one wrong line that it doesn't.
"""

from second_checker.axioms import axiom
from second_checker.lines import WholeLines
from second_checker.rules import composed, framed, instance, used
from second_checker.short_lines import ShortLines
from second_checker.terms import WORD
from second_checker.tokens import Bad, tokens_of
from second_checker.triples import Assertion
from second_checker.verdict import Bench

from . import spelling
from .drawn_groups import GroupDrawer


class LineDrawer(GroupDrawer):
    """Draws lines of a group's proof."""

    def start_lines(self):
        """Begins the proof."""
        self.bench = Bench(self.terms, self.group)
        self.table = spelling.Table()
        self.lines = []
        self.ended = False
        self.keep = False

    def theorem(self):
        """The number of a theorem, mostly one that is there."""
        live = [n for n, t in enumerate(self.bench.theorems) if t is not None]
        if not live or self.chance(0.01):
            return self.random.randrange(len(self.bench.theorems) + 1)
        return self.one(live[-8:]) if self.chance(0.7) else self.one(live)

    def perturbed(self, triple):
        """A triple that is nearly this one."""
        t, r = self.terms, self.random
        pick = r.randrange(12)
        facts = list(triple.facts)
        if pick == 0 and facts:
            facts.append(self.one(facts))
        elif pick == 1 and facts:
            facts.pop(r.randrange(len(facts)))
        elif pick == 2:
            r.shuffle(facts)
        elif pick == 3:
            facts.append(self.fact())
        elif pick == 4 and facts:
            place = r.randrange(len(facts))
            if facts[place].kind != "gives":
                kind = facts[place].kind
                parts = list(facts[place].parts)
                parts[0] = self.variant(parts[0], [])
                facts[place] = t.fact(kind, *parts)
        elif pick == 5:
            code = triple.code
            if code:
                start, held = code[0]
                other = (start, bytes([held[0] ^ 1]) + held[1:]) if self.chance(0.5) else (
                    start, held + b"\0")
                return triple.with_parts(code=(other,))
        elif pick == 6:
            return triple.with_parts(before=triple.behind, behind=triple.before)
        elif pick in (7, 8, 9):
            part = self.one(("before", "behind"))
            return triple.with_parts(**{part: self.perturbed_assertion(getattr(triple, part))})
        elif pick == 10:
            word = self.variant(triple.behind.counter, facts)
            return triple.with_parts(behind=triple.behind._replace(counter=word))
        return triple.with_parts(facts=tuple(facts))

    def perturbed_assertion(self, a):
        """An assertion that is nearly this one."""
        r = self.random
        registers = list(a.registers)
        memories = list(a.memories)
        pick = r.randrange(6)
        if pick == 0 and registers:
            registers.pop(r.randrange(len(registers)))
        elif pick == 1 and registers:
            place = r.randrange(len(registers))
            registers[place] = registers[place][0], self.word(1)
        elif pick == 2 and len(registers) > 1:
            words = [word for _, word in registers]
            r.shuffle(words)
            registers = [(pair[0], word) for pair, word in zip(registers, words)]
        elif pick == 3:
            free = set(range(1, 32)) - {register for register, _ in registers}
            registers.append((self.one(free), self.word(0)))
        elif pick == 4:
            memories.append(self.memory(0))
        elif memories:
            r.shuffle(memories)
            if self.chance(0.5):
                memories.pop()
        return Assertion(a.counter, tuple(sorted(registers, key=lambda pair: pair[0])),
                         tuple(memories))

    def emit(self, rule, head, stated, short=None, perturb=0.1):
        """A line by a rule: its head, the stated triple, and what a short line has of it."""
        if self.version == 2:
            line = spelling.joined([head, short(self.table.term) if short else ""])
        else:
            if stated is None:
                return False
            if self.chance(perturb):
                stated = self.perturbed(stated)
            line = f"{head} {spelling.triple(stated, self.group.code)}"
        return self.put(rule, line)

    def put(self, rule, line):
        """Keeps a line where it is right, or as the last one; says whether it is right."""
        if self.ended:
            return False
        if self.version == 2:
            reader = ShortLines(self.terms, self.group)
            reader.table = list(self.table.numbers)
        else:
            reader = WholeLines(self.terms, self.group, self.version)
        try:
            is_right = reader.read(tokens_of(line))(self.bench)
        except Bad:
            is_right = None
        if not is_right:
            if self.keep or self.chance(0.3 if is_right is False else 0.03):
                self.lines.append(line)
                self.kinds.append((rule, is_right))
                self.ended = True
            return False
        self.lines.append(line)
        self.kinds.append((rule, True))
        return True

    def by_axiom(self):
        """A line by `axiom`."""
        address, number = self.one(self.places)
        if self.chance(0.1):
            address, number = self.random.getrandbits(self.one((4, 20, 64))), self.instruction()
        form = "taken" if number & 0x7F == 0x63 and self.chance(0.5) else "next"
        if self.chance(0.02):
            form = "taken"
        triple = axiom(self.terms, address, number, form)
        return self.emit("axiom", f"axiom {address:#x} {number:#x} {form}", triple)

    def by_inst(self):
        """A line by `inst`."""
        cited = self.theorem()
        places = {}
        for index in sorted(self.random.sample(range(7), self.random.randrange(5))):
            places[self.terms.word(index)] = (self.word() if self.chance(0.97)
                                              else self.deep(self.one((60, 61, 62, 63, 64))))
        for index in sorted(self.random.sample(range(3), self.random.randrange(3))):
            places[self.terms.memory(index)] = self.memory()
        if not self.bench.has(cited):
            return False
        triple = instance(self.terms, self.bench.theorems[cited], places)

        def spelled(spell):
            return " ".join(f"({spelling.term(v)} {spell(t)})" for v, t in places.items())

        head = f"inst {cited}"
        if self.version != 2:
            head = spelling.joined([head, spelled(spelling.term)])
        return self.emit("inst", head, triple, spelled)

    def by_frame(self, cited=None, registers=None, memories=None, perturb=0.1):
        """A line by `frame`."""
        cited = self.theorem() if cited is None else cited
        if not self.bench.has(cited):
            return False
        theorem = self.bench.theorems[cited]
        if registers is None:
            taken = {r for side in (theorem.before, theorem.behind) for r, _ in side.registers}
            free = sorted(set(range(1, 32)) - (taken if self.chance(0.95) else set()))
            wished = [r for r in self.group.registers if r in free]
            pool = wished if wished and self.chance(0.6) else free
            count = min(len(pool), self.random.randrange(4))
            registers = tuple((r, self.word(1)) for r in sorted(self.random.sample(pool, count)))
            memories = tuple(self.memory(1) for _ in range(self.one((0, 0, 1, 2))))

        def spelled(spell):
            return spelling.joined([*(f"({r} {spell(w)})" for r, w in registers), ";",
                                    *map(spell, memories)])

        return self.emit("frame", f"frame {cited}", framed(theorem, registers, memories), spelled,
                         perturb)

    def by_extend(self):
        """A line by `extend`."""
        cited = self.theorem()
        if not self.bench.has(cited):
            return False
        theorem = self.bench.theorems[cited]
        code = self.group.code
        pick = self.random.random()
        if pick < 0.5:
            held = bytearray()
            start = code[0][0]
            if theorem.code:
                start = theorem.code[0][0] - self.random.randrange(3)
                held += bytes(theorem.code[0][0] - start)
                held += theorem.code[0][1]
            held += bytes(self.random.randrange(3))
            if start >= 0 and held:
                further = theorem.code[1:]
                if self.chance(0.4):
                    place = start + len(held) + self.one((0, 1, 2, 100))
                    if not further or place + 2 < further[0][0]:
                        further = ((place, b"\1\2"),) + further
                code = ((start, bytes(held)),) + further
        elif pick < 0.7:
            start, held = code[0]
            code = ((start, held[:self.random.randrange(len(held)) + 1]),)
        stated = theorem.with_parts(code=code)
        return self.emit("extend", f"extend {cited}", stated,
                         lambda spell: spelling.code(code, self.group.code))

    def by_compose(self):
        """A line by `compose`."""
        first = self.theorem()
        fitting = [n for n, t in enumerate(self.bench.theorems)
                   if t is not None and self.bench.has(first)
                   and t.before == self.bench.theorems[first].behind]
        second = self.one(fitting) if fitting and self.chance(0.95) else self.theorem()
        if not (self.bench.has(first) and self.bench.has(second)):
            return False
        triple = composed(self.bench.theorems[first], self.bench.theorems[second])
        if triple is None and self.chance(0.9):
            return False
        return self.emit("compose", f"compose {first} {second}", triple)

    def more_facts(self, facts, equations):
        """A list with these facts, mostly, in some order, some twice, and others."""
        result = list(facts) + equations
        result += [self.fact() for _ in range(self.one((0, 0, 1, 2)))]
        if result and self.chance(0.3):
            result.append(self.one(result))
        if result and self.chance(0.06):
            result.pop(self.random.randrange(len(result)))
        if self.chance(0.6):
            self.random.shuffle(result)
        return tuple(result)

    def assertion_variant(self, a, equations):
        """An assertion that is mostly equal by the equations, to which some are added."""
        registers = tuple(
            (register, self.variant(word, equations) if self.chance(0.4) else word)
            for register, word in a.registers)
        memories = tuple(self.variant(memory, equations) if self.chance(0.3) else memory
                         for memory in a.memories)
        counter = self.variant(a.counter, equations) if self.chance(0.2) else a.counter
        return Assertion(counter, registers, memories)

    def by_swap(self, rule, cited=None, facts=None, side=None, perturb=0.05):
        """A line by `strengthen` or `weaken`."""
        cited = self.theorem() if cited is None else cited
        if not self.bench.has(cited):
            return False
        theorem = self.bench.theorems[cited]
        part, word = ("before", "pre") if rule == "strengthen" else ("behind", "post")
        if side is None:
            equations = []
            side = self.assertion_variant(getattr(theorem, part), equations)
            if self.chance(0.05):
                side = self.perturbed_assertion(side)
            facts = self.more_facts(theorem.facts, equations)
        stated = theorem.with_parts(**{"facts": tuple(facts), part: side})
        return self.emit(rule, f"{rule} {cited}", stated, lambda spell: " ".join(
            [spelling.facts(facts, spell), word, spelling.assertion(side, spell)]), perturb)

    def by_discharge(self):
        """A line by `discharge`."""
        cited = self.theorem()
        if not self.bench.has(cited):
            return False
        theorem = self.bench.theorems[cited]
        result, equations = [], []
        for fact in theorem.facts:
            parts = fact.parts
            if fact.kind == "so" and parts[0].constant and self.chance(0.9):
                continue
            if self.chance(0.4) or fact.kind == "gives" and self.chance(0.9):
                result.append(fact)
            elif fact.kind == "so":
                result.append(self.terms.fact("so", self.condition_variant(parts[0], equations)))
            elif fact.kind in ("is", "mis") and self.chance(0.8):
                if parts[0] is not parts[1]:
                    if parts[0].form == parts[1].form and parts[0].children:
                        for a, b in zip(parts[0].children, parts[1].children):
                            if a is not b:
                                kind = "is" if a.kind == WORD else "mis"
                                pair = (a, b) if self.chance(0.5) else (b, a)
                                equations.append(self.terms.fact(kind, *pair))
                    else:
                        equations.append(self.terms.fact(fact.kind, *reversed(parts)))
            elif self.chance(0.2):
                continue
            else:
                result.append(fact)
        result += equations
        if self.chance(0.5):
            self.random.shuffle(result)
        if result and self.chance(0.05):
            result.pop()
        stated = theorem.with_parts(facts=tuple(result))
        return self.emit("discharge", f"discharge {cited}", stated,
                         lambda spell: spelling.facts(result, spell), 0.05)

    def by_weaken_facts(self):
        """A line by `weaken` that adds facts which can be discharged."""
        cited = self.theorem()
        if not self.bench.has(cited):
            return False
        theorem = self.bench.theorems[cited]
        t = self.terms
        facts = list(theorem.facts)[:8]
        if len(facts) < len(theorem.facts):
            return False
        for _ in range(self.random.randrange(1, 6)):
            pick = self.random.random()
            if pick < 0.5:
                facts.append(t.fact("so", self.closed_condition()))
            elif pick < 0.6:
                word = self.word()
                facts.append(t.fact("is", word, self.variant(word, [])))
            elif pick < 0.65:
                memory = self.memory()
                facts.append(t.fact("mis", memory, self.variant(memory, [])))
            elif pick < 0.7:
                word = self.one((self.word(), self.closed()))
                facts.append(t.fact("is", word, word))
            else:
                facts.append(self.fact())
        return self.by_swap("weaken", cited, facts, theorem.behind)

    def by_steer(self):
        """A line by `steer`."""
        cited = self.theorem()
        if not self.bench.has(cited):
            return False
        t = self.terms
        theorem = self.bench.theorems[cited]
        counter = theorem.behind.counter
        other = self.word() if self.chance(0.5) else t.number(self.start + 4 * self.random.randrange(3))
        pick = self.random.random()
        if pick < 0.8:
            fact = t.fact("so", t.node("eq", counter, other))
        elif pick < 0.9:
            fact = t.fact("so", t.node("eq", other, counter))
        elif pick < 0.95:
            fact = t.fact("is", counter, other)
        else:
            fact = t.fact("so", t.node("not", t.node("ne", counter, other)))
        stated = theorem.with_parts(facts=self.more_facts(theorem.facts, [fact]),
                                    behind=theorem.behind._replace(counter=other))
        return self.emit("steer", f"steer {cited}", stated)

    def by_exchange(self):
        """A line by `exchange`."""
        cited = self.theorem()
        two = [n for n, t in enumerate(self.bench.theorems)
               if t is not None and len(t.before.memories) == 2]
        if two and self.chance(0.9):
            cited = self.one(two)
        if not self.bench.has(cited):
            return False
        theorem = self.bench.theorems[cited]

        def exchanged(a):
            return a._replace(memories=a.memories[::-1])

        stated = theorem.with_parts(before=exchanged(theorem.before),
                                    behind=exchanged(theorem.behind))
        return self.emit("exchange", f"exchange {cited}", stated)

    def by_forget(self):
        """A line by `forget`."""
        return self.put("forget", f"forget {self.theorem()}")

    def by_use(self):
        """A line by `use`."""
        count = len(self.group.definitions)
        number = self.random.randrange(count + self.chance(0.03))
        if number not in self.bench.closed and self.chance(0.8):
            return False
        if number == count:
            way, triple = 0, None
        else:
            exits = len(self.group.definitions[number].exits)
            way = self.random.randrange(exits + self.chance(0.03))
            triple = used(self.terms, self.group, number, way) if way < exits else None
        return self.emit("use", f"use {number} {way}", triple)
