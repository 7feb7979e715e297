"""Which definitions are well-formed, and the leaves of one with the facts of their paths."""

from .terms import MEMORY_VARIABLE, WORD_VARIABLE
from .triples import Again, Call, If, Values


class IllFormed(Exception):
    """A definition isn't well-formed."""


class Scope:
    """Judges one definition."""

    def __init__(self, group, number):
        self.group = group
        self.number = number
        self.seen = {}

    def judge(self):
        """IllFormed where the definition isn't well-formed."""
        definition = self.group.definitions[self.number]
        self.body(definition.body, len(self.group.registers), self.group.memories)

    def reach(self, term):
        """How many word variables and how many memory variables have to be in scope."""
        result = self.seen.get(term)
        if result is None:
            if term.children:
                words, memories = zip(*map(self.reach, term.children))
                result = max(words), max(memories)
            else:
                result = (term.value + 1 if term.form == WORD_VARIABLE else 0,
                          term.value + 1 if term.form == MEMORY_VARIABLE else 0)
            self.seen[term] = result
        return result

    def term(self, term, words, memories):
        """IllFormed where a variable of the term is out of scope."""
        word, memory = self.reach(term)
        if word > words or memory > memories:
            raise IllFormed

    def values(self, values, words, memories, more=0):
        """Likewise of values; there have to be as many as registers, and more, and memories."""
        if (len(values.words) != len(self.group.registers) + more
                or len(values.memories) != self.group.memories):
            raise IllFormed
        for term in values.words + values.memories:
            self.term(term, words, memories)

    def body(self, body, words, memories):
        """IllFormed where the body isn't well-formed with so many variables in scope."""
        for kind, term in body.steps:
            self.term(term, words, memories)
            words += kind == "let"
            memories += kind == "letm"
        end = body.end
        if isinstance(end, If):
            self.term(end.condition, words, memories)
            for inner in end.bodies:
                self.body(inner, words, memories)
        elif isinstance(end, Call):
            self.call(end, words, memories)
        elif isinstance(end, Again):
            self.values(end.values, words, memories)
        else:
            exits = self.group.definitions[self.number].exits
            if end.way >= len(exits):
                raise IllFormed
            self.values(end.values, words, memories, exits[end.way] == "ret")

    def call(self, call, words, memories):
        """The same of a call."""
        if call.definition >= self.number:
            raise IllFormed
        called = self.group.definitions[call.definition]
        if len(call.arms) != len(called.exits):
            raise IllFormed
        self.values(call.values, words, memories)
        for way, arm in enumerate(call.arms):
            more_words, more_memories = self.group.results(called, way)
            self.body(arm, words + more_words, memories + more_memories)


def first_ill_formed(group):
    """The number of the first definition that isn't well-formed, or None."""
    for number in range(len(group.definitions)):
        try:
            Scope(group, number).judge()
        except IllFormed:
            return number
    return None


class Leaves:
    """Walks along a definition's body, and holds the facts of the path to where it is."""

    def __init__(self, group, terms):
        self.group = group
        self.terms = terms
        self.path = {}

    def of(self, definition):
        """Each leaf in the order of the text; while it is told, `path` has its facts."""
        return self.walk(definition.body, len(self.group.registers), self.group.memories)

    def enter(self, fact):
        """The fact is one more of the path."""
        self.path[fact] = self.path.get(fact, 0) + 1

    def leave(self, facts):
        """The facts are no longer of the path."""
        for fact in facts:
            self.path[fact] -= 1
            if self.path[fact] == 0:
                del self.path[fact]

    def inside(self, fact, body, words, memories):
        """The leaves of a body that is entered with one more fact."""
        self.enter(fact)
        yield from self.walk(body, words, memories)
        self.leave([fact])

    def walk(self, body, words, memories):
        """The leaves of a body, so many variables being there at its beginning."""
        terms = self.terms
        own = []
        for kind, term in body.steps:
            if kind == "let":
                fact = terms.fact("is", terms.word(words), term)
                words += 1
            elif kind == "letm":
                fact = terms.fact("mis", terms.memory(memories), term)
                memories += 1
            else:
                fact = terms.fact("so", term)
            self.enter(fact)
            own.append(fact)
        end = body.end
        if isinstance(end, If):
            negated = terms.node("not", end.condition)
            for condition, inner in zip((end.condition, negated), end.bodies):
                yield from self.inside(terms.fact("so", condition), inner, words, memories)
        elif isinstance(end, Call):
            called = self.group.definitions[end.definition]
            for way, arm in enumerate(end.arms):
                more_words, more_memories = self.group.results(called, way)
                results = variables(terms, words, more_words, memories, more_memories)
                fact = terms.fact("gives", end.definition, way, *end.values, *results)
                yield from self.inside(fact, arm, words + more_words, memories + more_memories)
        else:
            yield end
        self.leave(own)


def variables(terms, first_word, words, first_memory, memories):
    """So many variables, from these numbers on."""
    return Values(tuple(terms.word(first_word + index) for index in range(words)),
                  tuple(terms.memory(first_memory + index) for index in range(memories)))
