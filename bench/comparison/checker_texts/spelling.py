"""Spells terms, facts, triples, groups and lines, as whole lines and as short ones."""

from second_checker.terms import MEMORY_VARIABLE, NUMBER, WORD_VARIABLE
from second_checker.triples import Again, Call, If, RETURN


def term(t):
    """A term in full."""
    if t.form == NUMBER:
        return hex(t.value)
    if t.form in (WORD_VARIABLE, MEMORY_VARIABLE):
        return f"{t.form}{t.value}"
    return "(" + " ".join([t.form] + [term(child) for child in t.children]) + ")"


class Table:
    """Spells terms by numbers of a table, which it makes."""

    def __init__(self):
        self.numbers = {}
        self.rows = []

    def term(self, t):
        """The number of a term."""
        if t not in self.numbers:
            if t.children:
                row = "(" + " ".join([t.form] + [self.term(child) for child in t.children]) + ")"
            else:
                row = term(t)
            self.numbers[t] = len(self.rows)
            self.rows.append("term " + row)
        return f"t{self.numbers[t]}"


def joined(parts):
    """Tokens with one space between them."""
    return " ".join(part for part in parts if part)


def values(words, memories, spell):
    """Words and memories."""
    return joined([*map(spell, words), ";", *map(spell, memories)])


def fact(f, spell):
    """A fact."""
    if f.kind == "gives":
        d, k, words, memories, more_words, more_memories = f.parts
        return (f"(gives {d} {k} {values(words, memories, spell)} ; "
                f"{values(more_words, more_memories, spell)})")
    return "(" + " ".join([f.kind, *map(spell, f.parts)]) + ")"


def facts(fs, spell):
    """The word `facts` and facts."""
    return joined(["facts", *(fact(f, spell) for f in fs)])


def assertion(a, spell):
    """An assertion."""
    registers = [f"({register} {spell(word)})" for register, word in a.registers]
    return "(" + joined([spell(a.counter), *registers, ";", *map(spell, a.memories)]) + ")"


def ranges(code):
    """Ranges of code."""
    return " ".join(f"({start:#x} {held.hex()})" for start, held in code)


def code(c, own):
    """The word `code` and a code."""
    return joined(["code", "all" if c == own else ranges(c)])


def triple(t, own):
    """A triple."""
    return " ".join([facts(t.facts, term), "pre", assertion(t.before, term), code(t.code, own),
                     "post", assertion(t.behind, term)])


def body(b):
    """The lines of a body."""
    for kind, t in b.steps:
        yield f"{kind} {term(t)}"
    end = b.end
    if isinstance(end, If):
        yield "if " + term(end.condition)
        yield from body(end.bodies[0])
        yield "else"
        yield from body(end.bodies[1])
    elif isinstance(end, Call):
        yield f"call {end.definition} {len(end.arms)} {values(*end.values, term)}"
        for arm in end.arms:
            yield "arm"
            yield from body(arm)
    elif isinstance(end, Again):
        yield "again " + values(*end.values, term)
    else:
        yield f"leave {end.way} {values(*end.values, term)}"


def group(g):
    """The lines of a group."""
    yield f"group {g.name}"
    yield joined(["regs", *map(str, g.registers)])
    yield f"mems {g.memories}"
    yield joined(["code", ranges(g.code)])
    for d in g.definitions:
        yield joined(["def", hex(d.entry), *(e if e == RETURN else hex(e) for e in d.exits)])
        yield from body(d.body)
