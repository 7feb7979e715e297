"""Draws whole texts: lines by all rules, up to definitions that are closed, or lines that try one thing, at which a wrong rule would be seen."""

from second_checker.axioms import axiom
from second_checker.definitions import Leaves, first_ill_formed
from second_checker.loop import asked
from second_checker.rules import composed, instance, used
from second_checker.terms import FORMS, computed

from . import spelling
from .drawn_lines import LineDrawer
from .drawn_terms import EXTENSION_NAMES, OPERATION_NAMES


class Drawer(LineDrawer):
    """Draws texts of one group of a version."""

    def close(self, number):
        """Lines that close a definition, mostly."""
        group, t = self.group, self.terms
        definition = group.definitions[number]
        leaves = Leaves(group, t)
        told = [(asked(t, group, definition, leaf), list(leaves.path))
                for leaf in leaves.of(definition)]
        compared = t.node("eq", *self.comparison)
        taken, following = t.fact("so", compared), t.fact("so", t.node("not", compared))
        if len(told) > 6:
            return False
        cited = []
        bases = {}
        for behind, path in told:
            form = "taken" if taken in path and following not in path else "next"
            if form not in bases:
                bases[form] = self.base(form)
            if bases[form] is None:
                return False
            theorem = self.bench.theorems[bases[form]]
            facts = [fact for fact in path if fact in theorem.fact_set or self.chance(0.7)]
            if any(fact not in path for fact in theorem.fact_set):
                facts += theorem.facts
            if self.chance(0.04):
                facts.append(self.fact())
            if self.chance(0.3):
                self.random.shuffle(facts)
            if not self.by_swap("weaken", bases[form], facts, behind, 0.02):
                # The facts that are needed may have been left out.
                if not self.by_swap("weaken", bases[form], path, behind, 0):
                    return False
            cited.append(len(self.bench.theorems) - 1)
        if cited and self.chance(0.05):
            self.random.shuffle(cited)
        if cited and self.chance(0.03):
            cited.pop()
        return self.put("loop", " ".join(["loop", str(number), *map(str, cited)]))

    def base(self, form):
        """The number of the theorem of the first instruction with all registers."""
        t, group = self.terms, self.group
        address, number = self.places[0]
        triple = axiom(t, address, number, form)
        if not self.emit("axiom", f"axiom {address:#x} {number:#x} {form}", triple, None, 0.01):
            return None
        own = len(self.bench.theorems) - 1
        places = {}
        for index, (register, _) in enumerate(triple.before.registers):
            places[t.word(index)] = t.word(group.registers.index(register))
        triple = instance(t, self.bench.theorems[own], places)

        def spelled(spell):
            return " ".join(f"({spelling.term(v)} {spell(w)})" for v, w in places.items())

        head = f"inst {own}"
        if self.version != 2:
            head = spelling.joined([head, spelled(spelling.term)])
        if not self.emit("inst", head, triple, spelled, 0.01):
            return None
        theorem = self.bench.theorems[-1]
        there = {register for register, _ in theorem.before.registers}
        registers = tuple((register, t.word(index))
                          for index, register in enumerate(group.registers)
                          if register not in there)
        memories = tuple(t.memory(index) for index in range(self.memories))
        if not self.by_frame(len(self.bench.theorems) - 1, registers, memories, 0.01):
            return None
        return len(self.bench.theorems) - 1

    def draw(self, most=60):
        """The lines of a text, and the rules of its last line."""
        self.draw_group()
        while first_ill_formed(self.group) is not None and self.chance(0.8):
            self.draw_group()
        self.start_lines()
        rules = [self.by_inst, self.by_frame, self.by_frame, self.by_extend, self.by_compose,
                 self.by_compose, lambda: self.by_swap("strengthen"),
                 lambda: self.by_swap("weaken"), self.by_discharge, self.by_discharge,
                 self.by_discharge, self.by_weaken_facts, self.by_use, self.by_forget]
        if self.version == 3:
            rules += [self.by_steer] * 3
        if self.version == 4:
            rules += [self.by_exchange] * 3
        wanted = list(range(len(self.group.definitions)))
        self.by_axiom()
        tries = 0
        while not self.ended and len(self.lines) < most and tries < 120:
            tries += 1
            if wanted and self.chance(0.15):
                self.close(wanted.pop(0) if self.chance(0.95) else wanted.pop())
            elif self.chance(0.08):
                self.by_axiom()
            else:
                self.one(rules)()
        return self.spelled()

    def spelled(self):
        """The text, and the rule of its last line."""
        if self.version == 2:
            for _ in range(self.random.randrange(3)):
                self.table.term(self.one((self.word, self.memory, self.condition))())
        lines = [f"mcproof {self.version}", *spelling.group(self.group)]
        if self.version == 2:
            lines += self.table.rows
        lines += self.lines + ["end"]
        kind = self.kinds[-1] if self.kinds else ("none", True)
        return "\n".join(lines) + "\n", kind

    # Lines that try one thing

    def discharged(self, facts, result):
        """A line that adds facts, and one that discharges them."""
        theorem = self.bench.theorems[-1]
        facts = [*theorem.facts, *facts]
        result = [*theorem.facts, *result]
        self.by_swap("weaken", len(self.bench.theorems) - 1, facts, theorem.behind, 0)
        self.keep = True
        self.random.shuffle(result)
        theorem = self.bench.theorems[-1].with_parts(facts=tuple(result))
        self.emit("discharge", f"discharge {len(self.bench.theorems) - 1}", theorem,
                  lambda spell: spelling.facts(result, spell), 0)

    def stores(self, variable, most=3):
        """A memory, and what it is with some of its stores taken off."""
        memories = [self.terms.memory(variable)]
        for _ in range(self.random.randrange(most + 1)):
            memories.append(self.terms.node("st" + self.one("18"), memories[-1],
                                            self.terms.word(self.random.randrange(2)),
                                            self.terms.word(0)))
        return memories[-1], self.one(memories)

    def try_stores(self):
        """Conditions that bytes are there, behind stores, with an equation of memories."""
        t = self.terms
        first, left = self.stores(0)
        second, right = self.stores(self.one((0, 1, 1, 1)))
        if self.chance(0.2):
            second, right = t.node("st8", first, t.word(0), t.word(1)), first
        pair = (left, right) if self.chance(0.5) else (right, left)
        address, other = t.word(2), t.word(self.one((2, 2, 2, 3)))
        size = self.one("18")
        wanted = t.node("in" + size, first, address)
        given = t.node("in" + self.one((size, size, size, "4")), second, other)
        for _ in range(self.one((0, 0, 1, 2))):
            wanted, given = t.node("not", wanted), t.node("not", given)
        if self.chance(0.05):
            wanted = t.node("not", wanted)
        result = [t.fact("so", given), t.fact("mis", *pair)]
        if other is not address and self.chance(0.8):
            result.append(t.fact("is", *self.random.sample((address, other), 2)))
        self.discharged([t.fact("so", wanted)], result)

    def try_gives(self):
        """That a definition gives results, from nearly the same."""
        t = self.terms
        words = [self.word(1) for _ in range(3)]
        lists = [tuple(words[:2]), (t.memory(0),), (words[2],), (t.memory(1),)]
        wanted = t.fact("gives", 0, 1, *lists)
        equations = []
        place = self.random.randrange(4)
        if self.chance(0.7):
            lists[place] = tuple(self.variant(part, equations) for part in lists[place])
        given = t.fact("gives", self.one((0, 0, 0, 1)), 1, *lists)
        self.discharged([wanted], [given, *equations])

    def try_equation(self):
        """An equation, from a condition or another equation."""
        t = self.terms
        left, right = self.word(), self.word()
        wanted = self.one((t.fact("is", left, right), t.fact("so", t.node("eq", left, right)),
                           t.fact("so", t.node("not", t.node("ne", left, right)))))
        given = self.one((t.fact("is", left, right), t.fact("is", right, left),
                          t.fact("so", t.node("eq", left, right)),
                          t.fact("so", t.node("eq", right, left)),
                          t.fact("so", t.node("not", t.node("ne", left, right)))))
        more = [t.fact("is", *self.random.sample((left, right), 2))] if self.chance(0.3) else []
        self.discharged([wanted], [given, *more])

    def try_computed(self):
        """Many conditions without variables, which are true when they are computed."""
        t = self.terms
        facts = []
        for name in OPERATION_NAMES * 3 + EXTENSION_NAMES * 3:
            parts = [self.constant() for _ in FORMS[name][1]]
            if self.chance(0.3):
                parts[-1] = t.number(self.one((0, 1, 31, 32, 63, 64, (1 << 64) - 1, 1 << 63, 1 << 31)))
            word = t.node(name, *parts)
            facts.append(t.fact("so", t.node("eq", word, t.number(computed(word)))))
        facts += [t.fact("so", self.closed_condition()) for _ in range(20)]
        facts = [fact for fact in facts if computed(fact.parts[0])]
        if self.chance(0.3):
            word = self.closed(1)
            facts.append(t.fact("so", t.node("eq", word, t.number(computed(word) ^ 1 << self.random.randrange(64)))))
        self.discharged(facts, [])

    def try_clash(self):
        """Two instructions whose bytes overlap, one behind the other."""
        t = self.terms
        pick = self.random.randrange(3)
        if pick == 0:
            first, target, second = 0x20006F, 2, self.one((0x20, 0x20, 0x28, 0x24, 0x40))
        elif pick == 1:
            first, target = 0xFFFFF06F, -2
            second = 0xF06F0013 ^ self.one((0, 0, 1 << 20, 1 << 31, 1 << 7))
        else:
            first, target, second = 0x6F, 0, self.one((0x6F, 0x6F, 0x13, 0x1, 0xA001, 0xEF))
        self.put_axiom(0x20000, first)
        self.put_axiom(0x20000 + target, second)
        place = len(self.bench.theorems) - 2
        before = self.bench.theorems[-1].before
        self.by_frame(place, before.registers, before.memories, 0)
        last = len(self.bench.theorems) - 1
        triple = composed(self.bench.theorems[last], self.bench.theorems[last - 1])
        stated = triple or self.bench.theorems[last].with_parts(
            behind=self.bench.theorems[last - 1].behind)
        self.keep = True
        self.emit("compose", f"compose {last} {last - 1}", stated, None, 0)

    def put_axiom(self, address, number):
        """A line by `axiom`, right."""
        self.emit("axiom", f"axiom {address:#x} {number:#x} next",
                  axiom(self.terms, address, number, "next"), None, 0)

    def try_further(self):
        """An exchange of two memories, before or behind alone; or a counter that is steered."""
        t = self.terms
        if self.version == 4:
            memories = [self.memory(1) for _ in range(self.one((1, 2, 2, 2, 3)))]
            self.by_frame(len(self.bench.theorems) - 1, (), tuple(memories), 0)
            theorem = self.bench.theorems[-1]
            turned = {part: getattr(theorem, part)._replace(
                memories=getattr(theorem, part).memories[::-1])
                for part in self.one((("before",), ("behind",), ("before", "behind"), ()))}
            self.keep = True
            self.emit("exchange", f"exchange {len(self.bench.theorems) - 1}",
                      theorem.with_parts(**turned), None, 0)
        elif self.version == 3:
            self.keep = True
            for _ in range(3):
                self.by_steer()
        else:
            self.try_equation()

    def try_leaf(self):
        """A leaf's theorem over code that isn't the group's, or with another fact."""
        number = self.random.randrange(len(self.group.definitions))
        made = self.base

        def extended(form):
            place = made(form)
            if place is None:
                return None
            theorem = self.bench.theorems[place]
            start, held = self.group.code[0]
            code = self.one((self.group.code, ((start, held + b"\0"),), ((start - 1, b"\0" + held),),
                             ((start, held), (start + len(held) + 1, b"\0"))))
            self.emit("extend", f"extend {place}", theorem.with_parts(code=code),
                      lambda spell: spelling.code(code, self.group.code), 0)
            return len(self.bench.theorems) - 1

        self.base = extended
        self.keep = True
        self.close(number)

    def try_depth(self):
        """Terms that become as deep as they may, or deeper."""
        t = self.terms
        self.put_axiom(0x20000, self.one((0x00108093, 0x00008083, 0x0020C0B3)))
        place = len(self.bench.theorems) - 1
        places = {t.word(0): self.deep(self.one((61, 62, 63, 64)))}
        triple = instance(t, self.bench.theorems[place], places)
        self.keep = True
        head = f"inst {place}"

        def spelled(spell):
            return " ".join(f"({spelling.term(v)} {spell(w)})" for v, w in places.items())

        if self.version != 2:
            head = f"{head} {spelled(spelling.term)}"
        self.emit("inst", head, triple or self.bench.theorems[place], spelled, 0)

    def try_use(self):
        """A definition that is used, open or closed, by an exit that is there or isn't."""
        number = self.random.randrange(len(self.group.definitions))
        if self.chance(0.6):
            self.close(number)
        if self.ended:
            return
        self.keep = True
        number = self.random.randrange(len(self.group.definitions))
        way = self.random.randrange(len(self.group.definitions[number].exits))
        self.emit("use", f"use {number} {way}", used(self.terms, self.group, number, way), None, 0.5)

    def draw_try(self):
        """A text that tries one thing, and its name."""
        self.draw_group()
        while first_ill_formed(self.group) is not None:
            self.draw_group()
        self.start_lines()
        self.put_axiom(*self.places[0])
        name = self.one(("stores", "stores", "gives", "equation", "computed", "computed", "clash",
                         "further", "further", "leaf", "leaf", "depth", "use"))
        getattr(self, "try_" + name)()
        text, (_, is_right) = self.spelled()
        return text, (name, is_right)
