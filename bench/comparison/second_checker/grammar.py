"""The grammar of groups, terms, facts and triples: from tokens to what they stand for."""

from .codes import is_formed
from .terms import DEEPEST, FORMS, MEMORY, WORD
from .tokens import Bad, BadLine, Cursor, END_OF_LINE
from .triples import (Again, Assertion, Body, Call, Definition, Group, If, Leave, RETURN, Triple,
                      Values)

MOST_EXITS = 16
MOST_ARMS = 16
MOST_DEFINITIONS = 4096
DEEPEST_BODY = 64
MEMORIES = {1: (0, 1), 2: (0, 1), 3: (0, 1), 4: (2,)}


class TermCursor(Cursor):
    """A cursor that reads terms, each in full."""

    def __init__(self, tokens, terms):
        super().__init__(tokens)
        self.terms = terms

    def term(self, kind, room=DEEPEST):
        """A term of this kind that is at most so deep as there is room."""
        token = self.tokens[self.position]
        if token != "(":
            return self.variable_or_number(kind)
        own_kind, children = FORMS.get(self.tokens[self.position + 1], (None, ()))
        if own_kind != kind or room == 1:
            raise Bad
        form = self.tokens[self.position + 1]
        self.position += 2
        parts = [self.term(child, room - 1) for child in children]
        self.expect(")")
        return self.terms.node(form, *parts)

    def variable_or_number(self, kind):
        """A variable of this kind, or of words a constant."""
        first = self.peek()[0]
        if kind == WORD and first == "v":
            return self.terms.word(self.lettered("v", 1 << 32))
        if kind == WORD:
            return self.terms.number(self.hexadecimal())
        if kind == MEMORY:
            return self.terms.memory(self.lettered("m", 1 << 32))
        raise Bad

    def list(self, kind, ends):
        """Terms of one kind up to one of these tokens, which isn't taken."""
        result = []
        while self.peek() not in ends:
            result.append(self.term(kind))
        return tuple(result)

    def values(self, end):
        """Words and memories, up to this token, which isn't taken."""
        words = self.list(WORD, (";",))
        self.expect(";")
        return Values(words, self.list(MEMORY, (end,)))

    def fact(self):
        """A fact. A cursor over a table reads it likewise, with other terms."""
        self.expect("(")
        kind = self.take()
        if kind == "is":
            parts = self.term(WORD), self.term(WORD)
        elif kind == "mis":
            parts = self.term(MEMORY), self.term(MEMORY)
        elif kind == "so":
            parts = (self.term("condition"),)
        elif kind == "gives":
            definition, way = self.small(), self.small()
            arguments = self.values(";")
            self.expect(";")
            results = self.values(")")
            parts = definition, way, *arguments, *results
        else:
            raise Bad
        self.expect(")")
        return self.terms.fact(kind, *parts)

    def facts(self, end):
        """The word `facts` and facts up to this word, which is taken."""
        self.expect("facts")
        result = []
        while not self.try_take(end):
            result.append(self.fact())
        return tuple(result)

    def registers(self):
        """Registers, which rise, with their words."""
        result = []
        last = 0
        while self.try_take("("):
            register = self.register()
            if register <= last:
                raise Bad
            last = register
            result.append((register, self.term(WORD)))
            self.expect(")")
        return tuple(result)

    def places(self):
        """Variables, words first, the numbers of each kind rising, with the terms for them."""
        result = {}
        letter, last = "v", -1
        while self.try_take("("):
            if self.peek()[0] == "m" and letter == "v":
                letter, last = "m", -1
            number = self.lettered(letter, 1 << 32)
            if number <= last:
                raise Bad
            last = number
            kind, variable = ((WORD, self.terms.word) if letter == "v"
                              else (MEMORY, self.terms.memory))
            result[variable(number)] = self.term(kind)
            self.expect(")")
        return result

    def assertion(self):
        """An assertion, in parentheses."""
        self.expect("(")
        counter = self.term(WORD)
        registers = self.registers()
        self.expect(";")
        memories = self.list(MEMORY, (")",))
        self.expect(")")
        return Assertion(counter, registers, memories)

    def ranges(self):
        """Ranges of code, well-formed."""
        result = []
        while self.try_take("("):
            start = self.hexadecimal()
            result.append((start, self.bytes()))
            self.expect(")")
        if not is_formed(result):
            raise Bad
        return tuple(result)

    def code(self, own):
        """The word `code` and a code, which is `all` where it is the group's own."""
        self.expect("code")
        if self.try_take("all"):
            return own
        code = self.ranges()
        if code == own:
            raise Bad
        return code

    def triple(self, own):
        """A triple."""
        facts = self.facts("pre")
        before = self.assertion()
        code = self.code(own)
        self.expect("post")
        return Triple(facts, before, code, self.assertion())

    def arguments(self):
        """Values up to the end of the line."""
        values = self.values(END_OF_LINE)
        self.finish()
        return values


class GroupReader:
    """Reads the groups of a text: the first lines, and each definition."""

    def __init__(self, lines, version, terms):
        self.lines = lines
        self.version = version
        self.terms = terms

    def next(self, word=None):
        """A cursor over the next line, behind its first word where that is told."""
        cursor = TermCursor(self.lines.next(), self.terms)
        if word is not None:
            cursor.expect(word)
        return cursor

    def group(self, cursor):
        """A group of which the word `group` was read, with its first definition."""
        try:
            name = cursor.name()
            cursor.finish()
            cursor = self.next("regs")
            registers = self.rising_registers(cursor)
            cursor = self.next("mems")
            memories = cursor.small()
            cursor.finish()
            if memories not in MEMORIES[self.version]:
                raise Bad
            cursor = self.next("code")
            code = cursor.ranges()
            cursor.finish()
            definitions = [self.definition()]
            while self.lines.first_token() == "def":
                if len(definitions) == MOST_DEFINITIONS:
                    self.lines.next()
                    raise Bad
                definitions.append(self.definition())
            return Group(name, registers, memories, code, definitions)
        except Bad:
            raise BadLine(self.lines.number) from None

    def rising_registers(self, cursor):
        """Registers up to the end of the line."""
        registers = [0]
        while cursor.peek() != END_OF_LINE:
            registers.append(cursor.register())
            if registers[-2] >= registers[-1]:
                raise Bad
        return tuple(registers[1:])

    def definition(self):
        """A definition."""
        cursor = self.next("def")
        entry = cursor.hexadecimal()
        exits = []
        while cursor.peek() != END_OF_LINE:
            exits.append(RETURN if cursor.try_take(RETURN) else cursor.hexadecimal())
        if len(exits) > MOST_EXITS or exits.count(RETURN) > 1:
            raise Bad
        return Definition(entry, tuple(exits), self.body(1))

    def body(self, depth):
        """A body, so deep in others."""
        steps = []
        while True:
            cursor = self.next()
            word = cursor.take()
            if word not in ("let", "letm", "need"):
                return Body(steps, self.end(word, cursor, depth))
            kind = {"let": WORD, "letm": MEMORY, "need": "condition"}[word]
            steps.append((word, cursor.term(kind)))
            cursor.finish()

    def end(self, word, cursor, depth):
        """What ends a body."""
        if word == "if":
            return self.branch(cursor, depth)
        if word == "call":
            return self.call(cursor, depth)
        if word == "again":
            return Again(cursor.arguments())
        if word == "leave":
            return Leave(cursor.small(), cursor.arguments())
        raise Bad

    def branch(self, cursor, depth):
        """An `if`, with both bodies."""
        condition = cursor.term("condition")
        cursor.finish()
        if depth == DEEPEST_BODY:
            raise Bad
        first = self.body(depth + 1)
        self.next("else").finish()
        return If(condition, (first, self.body(depth + 1)))

    def call(self, cursor, depth):
        """A `call`, with its arms."""
        definition = cursor.small()
        arms = cursor.small()
        values = cursor.arguments()
        if arms > MOST_ARMS or arms and depth == DEEPEST_BODY:
            raise Bad
        bodies = []
        for _ in range(arms):
            self.next("arm").finish()
            bodies.append(self.body(depth + 1))
        return Call(definition, values, bodies)
