"""What a definition gives, computed twice: from the tree that `mc.proof` reads, and from the lines that `mc show` prints."""
import re

from mc.syntax import RETURN, Call, If, Leave, Let, Number, Variable

BITS = (1 << 64) - 1


class Refused(Exception):
    """A side condition is false: its definition and its number."""


class TooLong(Exception):
    """More entries than there are turns."""


def signed(word, bits=64):
    return (word & (1 << bits) - 1 ^ 1 << bits - 1) - (1 << bits - 1)


def divided(a, b):
    """The quotient towards zero and the rest, as the manual has them."""
    if b == 0:
        return -1, a
    quotient = abs(a) // abs(b) * (1 if (a < 0) == (b < 0) else -1)
    return quotient, a - quotient * b


def low(word):
    return word & 0xFFFFFFFF


OPERATIONS = {
    "add": lambda a, b: a + b, "sub": lambda a, b: a - b, "sll": lambda a, b: a << (b & 63), "slt": lambda a, b: signed(a) < signed(b), "sltu": lambda a, b: a < b,
    "xor": lambda a, b: a ^ b, "srl": lambda a, b: a >> (b & 63), "sra": lambda a, b: signed(a) >> (b & 63), "or": lambda a, b: a | b, "and": lambda a, b: a & b,
    "mul": lambda a, b: a * b, "mulh": lambda a, b: signed(a) * signed(b) >> 64, "mulhsu": lambda a, b: signed(a) * b >> 64, "mulhu": lambda a, b: a * b >> 64,
    "div": lambda a, b: divided(signed(a), signed(b))[0], "divu": lambda a, b: divided(a, b)[0],
    "rem": lambda a, b: divided(signed(a), signed(b))[1], "remu": lambda a, b: divided(a, b)[1],
    "addw": lambda a, b: signed(a + b, 32), "subw": lambda a, b: signed(a - b, 32), "mulw": lambda a, b: signed(a * b, 32),
    "sllw": lambda a, b: signed(a << (b & 31), 32), "srlw": lambda a, b: signed(low(a) >> (b & 31), 32), "sraw": lambda a, b: signed(a, 32) >> (b & 31),
    "divw": lambda a, b: divided(signed(a, 32), signed(b, 32))[0], "divuw": lambda a, b: signed(divided(low(a), low(b))[0], 32),
    "remw": lambda a, b: divided(signed(a, 32), signed(b, 32))[1], "remuw": lambda a, b: signed(divided(low(a), low(b))[1], 32),
    "sx1": lambda a: signed(a, 8), "sx2": lambda a: signed(a, 16), "sx4": lambda a: signed(a, 32),
}
COMPARISONS = {
    "eq": lambda a, b: a == b, "ne": lambda a, b: a != b, "lt": lambda a, b: signed(a) < signed(b), "ge": lambda a, b: signed(a) >= signed(b),
    "ltu": lambda a, b: a < b, "geu": lambda a, b: a >= b,
}
# What the usage text says of each sign.
SIGNS = {
    "+": "add", "-": "sub", "*": "mul", "&": "and", "|": "or", "^": "xor", "<<": "sll", ">>u": "srl", ">>s": "sra", "/s": "div", "/u": "divu", "%s": "rem", "%u": "remu",
    "+w": "addw", "-w": "subw", "*w": "mulw", "<<w": "sllw", ">>uw": "srlw", ">>sw": "sraw", "/sw": "divw", "/uw": "divuw", "%sw": "remw", "%uw": "remuw",
    "<s": "slt", "<u": "sltu", "==": "eq", "!=": "ne", ">=s": "ge", ">=u": "geu",
}


def operation(name, *values):
    return COMPARISONS[name](*values) if name in COMPARISONS else OPERATIONS[name](*values) & BITS


def places(address, size):
    return [address + k & BITS for k in range(size)]


def load(memory, address, size):
    return sum(memory.get(place, 0) << 8 * k for k, place in enumerate(places(address, size)))


def store(memory, address, size, value):
    return memory | {place: value >> 8 * k & 255 for k, place in enumerate(places(address, size)) if place in memory}


def present(memory, address, size):
    return all(place in memory for place in places(address, size))


class OfTrees:
    """Evaluates the definitions of a group."""

    def __init__(self, group, turns):
        self.group, self.turns = group, turns

    def enter(self, number, words, memories):
        """The exit, and what is left in words and memories."""
        while True:
            self.turns -= 1
            if self.turns < 0:
                raise TooLong
            self.number = number
            names = {Variable("v", k): word for k, word in enumerate(words)} | {Variable("m", k): memory for k, memory in enumerate(memories)}
            exit, words, memories = self.body(number, self.group.definitions[number].body, names)
            if exit is not None:
                return exit, words, memories

    def body(self, number, body, names):
        """As `enter`, the exit None for another turn of the same definition."""
        for step in body.steps:
            if isinstance(step, Let):
                names[step.variable] = self.value(step.value, names)
            elif not self.value(step.condition, names):
                raise Refused(number, step.number)
        end = body.end
        if isinstance(end, If):
            return self.body(number, end.then if self.value(end.condition, names) else end.otherwise, names)
        words, memories = ([self.value(term, names) for term in terms] for terms in (end.words, end.memories))
        if isinstance(end, Call):
            exit, words, memories = self.enter(end.target, words, memories)
            arm = next(arm for arm in end.arms if arm.exit == exit)
            return self.body(number, arm.body, names | dict(zip((*arm.words, *arm.memories), (*words, *memories))))
        return self.group.definitions[number].exits[end.exit] if isinstance(end, Leave) else None, words, memories

    def value(self, term, names):
        if isinstance(term, Number):
            return term.value
        if isinstance(term, Variable):
            return names[term]
        values = [self.value(part, names) for part in term.parts]
        special = {"ld": load, "st": lambda memory, address, size: store(memory, address, size, values[2]), "in": present}.get(term.name[:2])
        if term.name == "not":
            return not values[0]
        return special(*values[:2], int(term.name[2])) if special and term.name[2:].isdigit() else operation(term.name, *values)


class OfLines:
    """Evaluates the definitions of a listing."""

    def __init__(self, listing, turns):
        head, *parts = listing.split("\n\n")
        units = re.findall(r"(\w+) = (?:x\d+|m\d+) = ", head)
        self.memories = [name for name in units if name in ("mem", "stk")]
        self.registers = [name for name in units if name not in self.memories]
        self.definitions, self.turns = {}, turns
        for part in parts:
            title, *lines = part.rstrip("\n").split("\n")
            self.definitions[int(re.search(r"\bd(\d+), (?:part|loop) at ", title)[1])] = [((len(line) - len(line.lstrip())) // 4 - 1, line.strip()) for line in lines]
        self.first = max(self.definitions)

    def enter(self, number, values):
        """The exit, with the address that is returned to, and the values by names."""
        while True:
            self.turns -= 1
            if self.turns < 0:
                raise TooLong
            exit, values = self.block(number, 0, 0, dict(values), "")
            if exit is not None:
                return exit, values

    def block(self, number, at, depth, values, primes):
        lines = self.definitions[number]
        while True:
            words = lines[at][1]
            assert lines[at][0] == depth, words
            if words.startswith("need "):
                index, condition = re.fullmatch(r"need (\d+): (.*)", words).groups()
                if not Expression(condition, values).whole():
                    raise Refused(number, int(index))
                at += 1
            elif words.startswith("if "):
                other = next(k for k in range(at + 1, len(lines)) if lines[k] == (depth, "else:"))
                return self.block(number, at + 1 if Expression(words[3:-1], values).whole() else other + 1, depth + 1, values, primes)
            elif re.match(r"call d|continue as d", words):
                return self.call(number, at, depth, values, primes)
            elif re.match(r"again|leave to |return to ", words):
                return self.ending(words, values, primes)
            else:
                name, value, need = re.fullmatch(r"(\w+) = (.*?)(?:    \(need (\d+)\))?", words).groups()
                values[name] = Expression(value, values, need and (number, int(need))).whole()
                at += 1

    def changed(self, words, values, primes):
        """The registers and memories as they are at the end, where a text `name = value, ..` says which changed."""
        found = {name: values[name + primes] for name in (*self.registers, *self.memories)}
        # A comma that is followed by a name and a sign of equality stands between two of them.
        pairs = [pair.split(" = ", 1) for pair in re.split(r", (?=\w+ = )", words)] if words else []
        return found | {name: Expression(value, values).whole() for name, value in pairs}

    def ending(self, words, values, primes):
        head, _, changes = words.partition(" with ")
        found = self.changed(changes, values, primes)
        if head == "again":
            return None, found
        if head.startswith("leave to "):
            return int(head[9:], 16), found
        return (RETURN, Expression(head[10:], values).whole()), found

    def call(self, number, at, depth, values, primes):
        lines = self.definitions[number]
        head, target, changes = re.fullmatch(r"(call|continue as) d(\d+)(?: with (.*))?", lines[at][1]).groups()
        exit, found = self.enter(int(target), self.changed(changes or "", values, primes))
        if head == "continue as":
            return exit, found
        name = "after its return:" if isinstance(exit, tuple) else f"after it left to {exit:#x}:"
        arm = next(k for k in range(at + 1, len(lines)) if lines[k] == (depth, name))
        primes += "'"
        values = values | {name + primes: value for name, value in found.items()}
        if isinstance(exit, tuple):
            values["pc" + primes] = exit[1]
        return self.block(number, arm + 1, depth + 1, values, primes)


class Expression:
    """A term as a person reads it, evaluated."""

    def __init__(self, words, values, need=None):
        self.tokens, self.at, self.values, self.need = re.findall(r":=|:[1248]|[()\[\],]|[^\s()\[\],:]+", words), 0, values, need

    def peek(self):
        return self.tokens[self.at] if self.at < len(self.tokens) else None

    def take(self, token=None):
        assert token is None or self.peek() == token, (self.tokens, self.at)
        self.at += 1
        return self.tokens[self.at - 1]

    def whole(self):
        value = self.infix()
        assert self.at == len(self.tokens), (self.tokens, self.at)
        return value

    def infix(self):
        value = self.operand()
        if self.peek() == "has":
            self.take()
            return present(value, *self.place())
        return operation(SIGNS[self.take()], value, self.operand()) if self.peek() in SIGNS else value

    def place(self):
        self.take("[")
        address = self.infix()
        self.take("]")
        return address, int(self.take()[1:])

    def operand(self):
        token = self.take()
        if token == "(":
            value = self.infix()
            self.take(")")
        elif re.fullmatch(r"0x[0-9a-f]+|-?\d+", token):
            return int(token, 0) & BITS
        elif self.peek() == "(":
            return self.function(token)
        else:
            value = self.values[token]
        if self.peek() != "[":
            return value
        address, size = self.place()
        if self.need and (self.peek() == ":=" or isinstance(value, dict)) and not present(value, address, size) and self.is_own_access():
            raise Refused(*self.need)
        if self.peek() == ":=":
            self.take()
            return store(value, address, size, self.infix())
        return load(value, address, size)

    def is_own_access(self):
        """Whether the access that was read is the outermost one of the line, of which its need tells."""
        ends = (":=",) if ":=" in self.tokens else (")", None)
        return self.peek() in ends and self.tokens[: self.at].count("[") == self.tokens[: self.at].count("]")

    def function(self, name):
        self.take("(")
        values = [self.infix()]
        while self.peek() == ",":
            self.take()
            values.append(self.infix())
        self.take(")")
        return not values[0] if name == "not" else operation(name, *values)
