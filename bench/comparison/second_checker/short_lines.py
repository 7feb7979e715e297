"""Version 2: the table of terms, and short lines, whose triples are computed."""

from .axioms import axiom
from .grammar import TermCursor
from .lines import axiom_place, common_line
from .rules import OF_ONE, composed, framed, instance, used
from .terms import DEEPEST, FORMS, MEMORY, WORD
from .tokens import Bad, END_OF_LINE, WORDS


class TableCursor(TermCursor):
    """A cursor over a line in which terms are numbers of a table."""

    def __init__(self, tokens, terms, table):
        super().__init__(tokens, terms)
        self.table = table

    def term(self, kind, room=DEEPEST):
        """The term of the table that a number names, of this kind."""
        number = self.lettered("t", WORDS)
        if number >= len(self.table) or self.table[number].kind != kind:
            raise Bad
        return self.table[number]

    def node(self):
        """The term that a line of the table makes of terms before it."""
        if not self.try_take("("):
            kind = MEMORY if self.peek()[0] == "m" else WORD
            return self.variable_or_number(kind)
        form = self.take()
        if form not in FORMS:
            raise Bad
        parts = [self.term(child) for child in FORMS[form][1]]
        self.expect(")")
        return self.terms.node(form, *parts)


class ShortLines:
    """Reads the lines behind a group of version 2, as WholeLines does."""

    def __init__(self, terms, group):
        self.terms = terms
        self.group = group
        self.table = []
        self.held = set()
        self.is_table_read = False

    def read(self, tokens):
        """The line of these tokens; None where it is one of the table, Bad where it is none."""
        cursor = TableCursor(tokens, self.terms, self.table)
        word = cursor.take()
        if word == "term":
            self.add_term(cursor)
            return None
        readers = {"axiom": self.axiom, "inst": self.instance, "frame": self.frame,
                   "extend": self.extend, "compose": self.compose, "use": self.use,
                   "strengthen": self.strengthen, "weaken": self.weaken,
                   "discharge": self.discharge}
        reader = readers.get(word)
        line = reader(cursor) if reader else common_line(word, cursor)
        cursor.finish()
        self.is_table_read = True
        return line

    def add_term(self, cursor):
        """A line of the table."""
        if self.is_table_read:
            raise Bad
        term = cursor.node()
        cursor.finish()
        if term.depth > DEEPEST or term in self.held:
            raise Bad
        self.table.append(term)
        self.held.add(term)

    def axiom(self, cursor):
        """A line by `axiom`."""
        place = axiom_place(cursor)
        return lambda bench: bench.add(axiom(self.terms, *place))

    def instance(self, cursor):
        """A line by `inst`."""
        cited = cursor.large()
        places = cursor.places()
        return lambda bench: bench.has(cited) and bench.add(
            instance(self.terms, bench.theorems[cited], places))

    def frame(self, cursor):
        """A line by `frame`."""
        cited = cursor.large()
        registers = cursor.registers()
        cursor.expect(";")
        memories = cursor.list(MEMORY, (END_OF_LINE,))
        return lambda bench: bench.has(cited) and bench.add(
            framed(bench.theorems[cited], registers, memories))

    def extend(self, cursor):
        """A line by `extend`."""
        cited = cursor.large()
        return self.changed("extend", cited, code=cursor.code(self.group.code))

    def compose(self, cursor):
        """A line by `compose`."""
        first, second = cursor.large(), cursor.large()
        return lambda bench: bench.has(first) and bench.has(second) and bench.add(
            composed(bench.theorems[first], bench.theorems[second]))

    def strengthen(self, cursor):
        """A line by `strengthen`."""
        cited, facts = cursor.large(), cursor.facts("pre")
        return self.changed("strengthen", cited, facts=facts, before=cursor.assertion())

    def weaken(self, cursor):
        """A line by `weaken`."""
        cited, facts = cursor.large(), cursor.facts("post")
        return self.changed("weaken", cited, facts=facts, behind=cursor.assertion())

    def discharge(self, cursor):
        """A line by `discharge`."""
        cited = cursor.large()
        return self.changed("discharge", cited, facts=cursor.facts(END_OF_LINE))

    def use(self, cursor):
        """A line by `use`."""
        number, way = cursor.small(), cursor.small()
        return lambda bench: bench.is_usable(number, way) and bench.add(
            used(self.terms, self.group, number, way))

    def changed(self, rule, cited, **parts):
        """A line by a rule of one premise, of which it tells some parts of the triple."""
        def judge(bench):
            if not bench.has(cited):
                return False
            theorem = bench.theorems[cited]
            stated = theorem.with_parts(**parts)
            return OF_ONE[rule](theorem, stated) and bench.add(stated)

        return judge
