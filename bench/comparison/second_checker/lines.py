"""The whole lines of versions 1, 3 and 4: read, and judged by the theorems before."""

from .axioms import TAKEN, axiom
from .grammar import TermCursor
from .rules import OF_ONE, are_same, composed, instance, is_steered, used
from .tokens import Bad, END_OF_LINE

FURTHER = {1: None, 3: "steer", 4: "exchange"}


class WholeLines:
    """Reads lines that state their triples, of one group. Each is given as a function that takes
    the bench and answers whether the line is right."""

    def __init__(self, terms, group, version):
        self.terms = terms
        self.group = group
        self.further = FURTHER[version]

    def read(self, tokens):
        """The line of these tokens; Bad where it is none."""
        cursor = TermCursor(tokens, self.terms)
        word = cursor.take()
        if word == "axiom":
            line = self.axiom(cursor)
        elif word == "inst":
            line = self.instance(cursor)
        elif word == "compose":
            line = self.compose(cursor)
        elif word == "use":
            line = self.use(cursor)
        elif word in OF_ONE and word != "exchange" or word == self.further:
            line = self.of_one(word, cursor)
        else:
            line = common_line(word, cursor)
        cursor.finish()
        return line

    def axiom(self, cursor):
        """A line by `axiom`."""
        place = axiom_place(cursor)
        stated = cursor.triple(self.group.code)
        return lambda bench: are_same(axiom(self.terms, *place), stated) and bench.add(stated)

    def instance(self, cursor):
        """A line by `inst`."""
        cited = cursor.large()
        places = cursor.places()
        stated = cursor.triple(self.group.code)
        return lambda bench: (
            bench.has(cited)
            and are_same(instance(self.terms, bench.theorems[cited], places), stated)
            and bench.add(stated))

    def compose(self, cursor):
        """A line by `compose`."""
        first, second = cursor.large(), cursor.large()
        stated = cursor.triple(self.group.code)
        return lambda bench: (
            bench.has(first) and bench.has(second)
            and are_same(composed(bench.theorems[first], bench.theorems[second]), stated)
            and bench.add(stated))

    def use(self, cursor):
        """A line by `use`."""
        number, way = cursor.small(), cursor.small()
        stated = cursor.triple(self.group.code)
        return lambda bench: (
            bench.is_usable(number, way)
            and are_same(used(self.terms, self.group, number, way), stated)
            and bench.add(stated))

    def of_one(self, word, cursor):
        """A line by a rule of one premise."""
        cited = cursor.large()
        stated = cursor.triple(self.group.code)

        def follows(bench):
            theorem = bench.theorems[cited]
            if word == "steer":
                return is_steered(self.terms, theorem, stated)
            return OF_ONE[word](theorem, stated)

        return lambda bench: bench.has(cited) and follows(bench) and bench.add(stated)


def axiom_place(cursor):
    """The address, the number and the form of an axiom."""
    address, number = cursor.hexadecimal(), cursor.hexadecimal()
    form = cursor.take()
    if number >= 1 << 32 or form not in ("next", TAKEN):
        raise Bad
    return address, number, form


def common_line(word, cursor):
    """A line by `loop` or `forget`, which are the same in each version."""
    if word == "forget":
        cited = cursor.large()
        return lambda bench: bench.forget(cited)
    if word != "loop":
        raise Bad
    number = cursor.small()
    cited = []
    while cursor.peek() != END_OF_LINE:
        cited.append(cursor.large())
    return lambda bench: bench.close(number, cited)
