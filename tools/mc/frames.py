"""Which loads and stores of a text of version 4 are to the stack, and which others may reach it.

An access is to the second memory, `m1`, where its address is at a constant offset from what sp was at the entry. An address that comes from sp in another way, as
that of an array's element, is of the first memory, `m0`. Where a function has accesses of both kinds, its frame may be in both memories.
"""
import dataclasses

from mc import proof
from mc.syntax import LOADS, STORES, Again, Call, Form, If, Leave, Let, Variable

SP = 2
# An operation that gives an address in a frame, where one of its parts is one.
KEEPING = ("add", "sub", "and", "or")


@dataclasses.dataclass(frozen=True)
class Accesses:
    """Counts of loads and stores: those to the second memory, all, and those to the first one at addresses that come from sp. These are counted only where there
    are some to the second one."""

    stack: int
    all: int
    others: int

    @property
    def is_in_both(self):
        return self.others > 0


def read(path):
    """The accesses of all functions of a text."""
    stack, every = counted(path)
    return Accesses(stack, every, sum(len(Walk(group).others()) for group in proof.read(path).groups) if stack else 0)


def counted(path):
    """How many accesses are to the second memory, and how many there are: each has an axiom with one memory, and an exchange where it is to the second one."""
    second, all_of_them = set(), set()
    with open(path, encoding="latin-1") as file:
        for line in file:
            if line.startswith("exchange "):
                second.add(line.partition(" pre (")[2].split(" ")[0])
            elif line.startswith("axiom ") and "; m0)" in line:
                all_of_them.add(line.partition(" pre (")[2].split(" ")[0])
    return len(second), len(all_of_them)


class Walk:
    """Follows what comes from sp through the definitions of a group, until nothing new is found."""

    def __init__(self, group):
        self.group = group
        count = len(group.definitions)
        # Of each definition the numbers of the registers that may hold such an address at its entry, and of each of its exits at its end.
        self.entries = [set() for _ in range(count)]
        self.ends = [{} for _ in range(count)]
        if SP in group.registers:
            self.entries[-1].add(group.registers.index(SP))
        self.found = set()
        self.changed = True

    def others(self):
        """The lines of the accesses to the first memory at such addresses."""
        while self.changed:
            self.changed = False
            for number, definition in enumerate(self.group.definitions):
                tainted = {Variable("v", k) for k in self.entries[number]}
                self.body(number, definition.body, tainted, {Variable("m", k): k for k in range(self.group.memories)})
        return self.found

    def body(self, number, body, tainted, roots):
        for step in body.steps:
            self.look(step, tainted, roots)
            if isinstance(step, Let):
                if step.variable.kind == "m":
                    roots[step.variable] = self.root(step.value, roots)
                elif comes_from(step.value, tainted):
                    tainted.add(step.variable)
        self.end(number, body.end, tainted, roots)

    def end(self, number, end, tainted, roots):
        if isinstance(end, If):
            for branch in (end.then, end.otherwise):
                self.body(number, branch, set(tainted), dict(roots))
        elif isinstance(end, Again):
            self.enter(number, end.words, tainted)
        elif isinstance(end, Leave):
            self.note(self.ends[number].setdefault(self.exit_of(number, end), set()), {k for k, word in enumerate(end.words) if comes_from(word, tainted)})
        elif isinstance(end, Call):
            self.enter(end.target, end.words, tainted)
            for arm in end.arms:
                held = self.ends[end.target].get(arm.exit, set())
                known = {variable for k, variable in enumerate(arm.words) if k in held}
                memories = {variable: self.root(memory, roots) for variable, memory in zip(arm.memories, end.memories)}
                self.body(number, arm.body, tainted | known, {**roots, **memories})

    def exit_of(self, number, leave):
        """The address of an exit, or `ret`, as an arm names it."""
        return self.group.definitions[number].exits[leave.exit]

    def enter(self, target, words, tainted):
        self.note(self.entries[target], {k for k, word in enumerate(words) if comes_from(word, tainted)})

    def note(self, known, new):
        if not new <= known:
            known |= new
            self.changed = True

    def root(self, memory, roots):
        """Which of the function's memories it comes from by stores."""
        while isinstance(memory, Form):
            memory = memory.parts[0]
        return roots[memory]

    def look(self, step, tainted, roots):
        """Notes an access to the first memory at an address that comes from sp."""
        value = step.value if isinstance(step, Let) else step.condition
        if isinstance(value, Form) and (value.name in LOADS or value.name in STORES) and self.root(value.parts[0], roots) == 0 and comes_from(value.parts[1], tainted):
            self.found.add(step.line)


def comes_from(term, tainted):
    """Whether a word is one of these, or computed from one as an address is from another."""
    if isinstance(term, Variable):
        return term in tainted
    return isinstance(term, Form) and term.name in KEEPING and any(comes_from(part, tainted) for part in term.parts)
