"""Reads proof texts of versions 1 to 4, and certificates: their groups and definitions as trees. docs/FORMATS.md has the language.

A text is read as strictly as its definitions need: their lines are spelled in the one way, and each variable, exit and earlier definition is there.
Of the lines of proofs only the addresses of the axioms are taken, with the definition whose proof they stand in.
"""
import dataclasses
import re

from mc.syntax import (
    COMPARISONS, DEEPEST, EXTENSIONS, LOADS, OPERATIONS, PRESENT, RETURN, STORES,
    Again, Arm, Body, Call, Certificate, Definition, Form, Group, If, Leave, Let, Need, Number, Proof, Variable,
    exit_text, values_text,
)

PROOF_LINES = frozenset("axiom inst frame extend compose strengthen weaken discharge use loop forget steer exchange term".split())
NUMBER = re.compile(r"0x(0|[1-9a-f][0-9a-f]{0,15})")
DECIMAL = re.compile(r"0|[1-9][0-9]{0,9}")
NAME = re.compile(r"[!-'*-:<-~]{1,4096}")
TOKEN = re.compile(r"[();]|[^ ();]+")


class BadProof(Exception):
    """Why a text is no proof text and no certificate: a line's number and a reason."""

    def __init__(self, line, why):
        super().__init__(f"line {line}: {why}")
        self.line, self.why = line, why


def read(path):
    """The Proof or the Certificate in the file at this path. Raises BadProof, or OSError."""
    with open(path, encoding="latin-1", newline="") as file:
        return parse(file.read())


def parse(text):
    """The Proof or the Certificate that is this text."""
    return _Text(text.split("\n")).whole()


class _Line:
    """The tokens of a line, taken from the front."""

    def __init__(self, text, number):
        self.text, self.number = text, number
        self.tokens = TOKEN.findall(text)
        self.at = 0

    def bad(self, why):
        return BadProof(self.number, why)

    def peek(self):
        return self.tokens[self.at] if self.at < len(self.tokens) else None

    def take(self):
        if self.at == len(self.tokens):
            raise self.bad("it ends too early")
        self.at += 1
        return self.tokens[self.at - 1]

    def expect(self, token):
        if self.peek() != token:
            raise self.bad(f"`{token}` is missing" if self.peek() is None else f"`{self.peek()}` stands where `{token}` should")
        self.at += 1

    def decimal(self, what):
        token = self.take()
        if not DECIMAL.fullmatch(token) or int(token) >= 1 << 32:
            raise self.bad(f"`{token}` is no {what}")
        return int(token)

    def address(self, what="address"):
        token = self.take()
        if not NUMBER.fullmatch(token):
            raise self.bad(f"`{token}` is no {what}")
        return int(token, 16)

    def end(self, spelled=None):
        """The line is over, and, where that is given, spelled so."""
        if self.peek() is not None:
            raise self.bad(f"`{self.peek()}` stands behind its end")
        if spelled is not None and spelled != self.text:
            raise self.bad("its spaces aren't those of the format")


class _Scope:
    """How many variables of words and of memories there are."""

    def __init__(self, words, memories):
        self.words, self.memories = words, memories

    def copy(self):
        return _Scope(self.words, self.memories)

    def new(self, kind):
        if kind == "v":
            self.words += 1
            return Variable("v", self.words - 1)
        self.memories += 1
        return Variable("m", self.memories - 1)


class _Terms:
    """Reads the terms of a line whose variables are in scope."""

    def __init__(self, line, scope):
        self.line, self.scope = line, scope

    def variable(self, token):
        match = re.fullmatch(r"([vm])(0|[1-9][0-9]{0,9})", token)
        if match is None:
            raise self.line.bad(f"`{token}` is no term")
        count = self.scope.words if match[1] == "v" else self.scope.memories
        if int(match[2]) >= count:
            raise self.line.bad(f"there is no {token} here")
        return Variable(match[1], int(match[2]))

    def form(self, kinds, depth):
        """A form of one of these names, each with the readers of its parts."""
        if depth >= DEEPEST - 1:
            raise self.line.bad(f"a term is more than {DEEPEST} deep")
        self.line.expect("(")
        name = self.line.take()
        parts = next((parts for names, parts in kinds if name in names), None)
        if parts is None:
            raise self.line.bad(f"`{name}` is no operation here")
        read = tuple(part(depth + 1) for part in parts)
        self.line.expect(")")
        return Form(name, read)

    def word(self, depth=0):
        token = self.line.peek()
        if token == "(":
            return self.form(((OPERATIONS, (self.word, self.word)), (EXTENSIONS, (self.word,)), (LOADS, (self.memory, self.word))), depth)
        if token is not None and token.startswith("0x"):
            return Number(self.line.address("number"))
        variable = self.variable(self.line.take())
        if variable.kind != "v":
            raise self.line.bad(f"{variable} is no word")
        return variable

    def memory(self, depth=0):
        if self.line.peek() == "(":
            return self.form(((STORES, (self.memory, self.word, self.word)),), depth)
        variable = self.variable(self.line.take())
        if variable.kind != "m":
            raise self.line.bad(f"{variable} is no memory")
        return variable

    def condition(self, depth=0):
        return self.form(((COMPARISONS, (self.word, self.word)), (("not",), (self.condition,)), (PRESENT, (self.memory, self.word))), depth)

    def values(self, words, memories):
        """As many words and memories as there are to be."""
        found_words, found_memories = [], []
        while self.line.peek() not in (";", None):
            found_words.append(self.word())
        self.line.expect(";")
        while self.line.peek() is not None:
            found_memories.append(self.memory())
        if (len(found_words), len(found_memories)) != (words, memories):
            raise self.line.bad(f"{len(found_words)} words and {len(found_memories)} memories stand where {words} and {memories} should")
        return tuple(found_words), tuple(found_memories)


class _Text:
    """The lines of a text, read from the front."""

    def __init__(self, lines):
        self.lines, self.at = lines, 0

    def head(self):
        return self.lines[self.at].partition(" ")[0] if self.at < len(self.lines) else None

    def take(self, head=None):
        """The next line, which begins with this word."""
        if self.at >= len(self.lines) - 1:
            unended = self.at < len(self.lines) and self.lines[self.at]
            raise BadProof(self.at + 1, "the line has no end" if unended else "the text ends too early")
        found = self.head()
        if head is not None and found != head:
            wrong = f"`{found[:40]}` stands where `{head}` should" if found else f"`{head}` is missing"
            raise BadProof(self.at + 1, wrong)
        self.at += 1
        line = _Line(self.lines[self.at - 1], self.at)
        line.take() if line.tokens else None
        return line

    def whole(self):
        if self.head() not in ("mcproof", "mclaws"):
            raise BadProof(1, "a proof text begins with `mcproof`, a certificate with `mclaws`")
        is_proof = self.head() == "mcproof"
        first = self.take()
        version = first.decimal("version")
        first.end(f"{'mcproof' if is_proof else 'mclaws'} {version}")
        if version not in ((1, 2, 3, 4) if is_proof else (1,)):
            raise first.bad(f"version {version} isn't known")
        found = self.proof(version) if is_proof else self.certificate()
        self.take("end").end("end")
        if self.lines[self.at :] != [""]:
            raise BadProof(self.at + 1, "something stands behind the end")
        return found

    def proof(self, version):
        groups = []
        while self.head() == "group":
            group = self.group()
            axioms = self.proof_lines(len(group.definitions))
            definitions = tuple(dataclasses.replace(d, axioms=tuple(axioms[k])) for k, d in enumerate(group.definitions))
            groups.append(dataclasses.replace(group, definitions=definitions))
        return Proof(version, tuple(groups))

    def proof_lines(self, count):
        """The addresses of the axioms before each line that closes a definition."""
        axioms, seen = [[] for _ in range(count)], {}
        while self.head() in PROOF_LINES:
            words = self.lines[self.at].split(" ", 2)
            self.at += 1
            if words[0] == "axiom" and len(words) > 1 and NUMBER.fullmatch(words[1]):
                seen.setdefault(int(words[1], 16))
            elif words[0] == "loop" and len(words) > 1 and DECIMAL.fullmatch(words[1]) and int(words[1]) < count:
                axioms[int(words[1])].extend(seen)
                seen = {}
        return axioms

    def certificate(self):
        group = self.group()
        steps = 0
        while self.head() == "rw":
            self.take()
            steps += 1
        self.take("result").end("result")
        return Certificate(group, steps, dataclasses.replace(group, definitions=self.definitions(group.registers, group.memories)))

    def group(self):
        line = self.take("group")
        number, name = line.number, line.take()
        line.end(f"group {name}")
        if not NAME.fullmatch(name):
            raise line.bad("a name is up to 4,096 of the bytes 0x21 to 0x7e without `(`, `)` and `;`")
        line = self.take("regs")
        registers = []
        while line.peek() is not None:
            registers.append(line.decimal("register"))
        line.end(" ".join(["regs", *map(str, registers)]))
        if registers != sorted(set(registers)) or not set(registers) <= set(range(1, 32)):
            raise line.bad("the registers don't rise from 1 to 31")
        line = self.take("mems")
        memories = line.decimal("number of memories")
        line.end(f"mems {memories}")
        if memories > 2:
            raise line.bad("a function has two memories at most")
        code = self.code(self.take("code"))
        return Group(name, tuple(registers), memories, code, self.definitions(tuple(registers), memories), number)

    def code(self, line):
        ranges = []
        while line.peek() is not None:
            line.expect("(")
            address, digits = line.address(), line.take()
            if not re.fullmatch("([0-9a-f]{2})+", digits):
                raise line.bad(f"`{digits[:40]}` are no bytes")
            ranges.append((address, bytes.fromhex(digits)))
            line.expect(")")
        line.end("code" + "".join(f" ({address:#x} {found.hex()})" for address, found in ranges))
        return tuple(ranges)

    def definitions(self, registers, memories):
        definitions = []
        while self.head() == "def":
            definitions.append(_Definition(self, registers, memories, definitions).read())
        if not definitions:
            self.take("def")
        return tuple(definitions)


class _Definition:
    """Reads the definition that stands next."""

    def __init__(self, text, registers, memories, earlier):
        self.text, self.registers, self.memories, self.earlier = text, len(registers), memories, earlier
        self.needs, self.exits = 0, ()

    def read(self):
        line = self.text.take("def")
        entry, exits = line.address(), []
        while line.peek() is not None:
            exits.append(RETURN if line.peek() == RETURN and line.take() else line.address("exit"))
        self.exits = tuple(exits)
        line.end(" ".join(["def", f"{entry:#x}", *map(exit_text, exits)]))
        return Definition(entry, self.exits, self.body(_Scope(self.registers, self.memories), 0), line.number)

    def results(self, exit):
        return self.registers + (exit == RETURN)

    def body(self, scope, depth):
        steps = []
        while self.text.head() in ("let", "letm", "need"):
            steps.append(self.step(scope))
        return Body(tuple(steps), self.ending(scope, depth))

    def step(self, scope):
        head = self.text.head()
        line = self.text.take()
        terms = _Terms(line, scope)
        value = {"let": terms.word, "letm": terms.memory, "need": terms.condition}[head]()
        line.end(f"{head} {value}")
        if head == "need":
            self.needs += 1
            return Need(self.needs - 1, value, line.number)
        return Let(scope.new("v" if head == "let" else "m"), value, line.number)

    def ending(self, scope, depth):
        head = self.text.head()
        if head not in ("if", "call", "again", "leave"):
            raise BadProof(self.text.at + 1, "a body ends with `if`, `call`, `again` or `leave`" if head else "the text ends too early")
        line = self.text.take()
        terms = _Terms(line, scope)
        if head in ("if", "call") and depth >= DEEPEST - 1:
            raise line.bad(f"bodies are nested more than {DEEPEST} deep")
        if head == "if":
            condition = terms.condition()
            line.end(f"if {condition}")
            then = self.body(scope.copy(), depth + 1)
            self.text.take("else").end("else")
            return If(condition, then, self.body(scope.copy(), depth + 1), line.number)
        if head == "call":
            return self.call(line, terms, scope, depth)
        exit = None if head == "again" else line.decimal("exit")
        if exit is not None and exit >= len(self.exits):
            raise line.bad(f"the definition has no exit {exit}")
        words, memories = terms.values(self.registers if exit is None else self.results(self.exits[exit]), self.memories)
        line.end(f"again {values_text(words, memories)}" if exit is None else f"leave {exit} {values_text(words, memories)}")
        return Again(words, memories, line.number) if exit is None else Leave(exit, words, memories, line.number)

    def call(self, line, terms, scope, depth):
        target, count = line.decimal("definition"), line.decimal("number of arms")
        words, memories = terms.values(self.registers, self.memories)
        line.end(f"call {target} {count} {values_text(words, memories)}")
        if target >= len(self.earlier):
            raise line.bad(f"no definition {target} stands before this one")
        exits = self.earlier[target].exits
        if count != len(exits):
            raise line.bad(f"{count} arms follow, and definition {target} has {len(exits)} exits")
        arms = []
        for exit in exits:
            self.text.take("arm").end("arm")
            inner = scope.copy()
            results = tuple(inner.new("v") for _ in range(self.results(exit)))
            changed = tuple(inner.new("m") for _ in range(self.memories))
            arms.append(Arm(exit, results, changed, self.body(inner, depth + 1)))
        return Call(target, words, memories, tuple(arms), line.number)
