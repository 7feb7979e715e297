"""What `eval` answers: the function of a group, evaluated."""

import re

from .operations import COMPARISONS, EXTENSIONS, OPERATIONS
from .terms import MEMORY_VARIABLE, NUMBER, WORD_VARIABLE
from .tokens import BYTES, BadLine, LONGEST_NAME, TOKEN, WORDS, decimal_of, hexadecimal_of
from .triples import Again, Call, If, RETURN
from .verdict import Refused, TextReader

REGION = re.compile(r"(mem|stk)=([^:]*):(.*)", re.DOTALL)
REGISTER = re.compile(r"x([1-9]|[12][0-9]|3[01])=(.*)", re.DOTALL)


class NoCommand(Exception):
    """The words are no command."""


class TurnsUsed(Exception):
    """There is no turn left."""


class Arguments:
    """The words behind the number of turns."""

    def __init__(self, words):
        self.registers = {}
        self.regions = {"mem": [], "stk": []}
        for word in words:
            region, register = REGION.fullmatch(word), REGISTER.fullmatch(word)
            if region:
                self.add_region(*region.groups())
            elif register:
                self.add_register(*register.groups())
            else:
                raise NoCommand

    def add_register(self, register, value):
        """A word for a register."""
        number = hexadecimal_of(value)
        if int(register) in self.registers or number is None:
            raise NoCommand
        self.registers[int(register)] = number

    def add_region(self, kind, address, held):
        """Bytes from an address on."""
        start = hexadecimal_of(address)
        if start is None or BYTES.fullmatch(held) is None or start + len(held) // 2 > WORDS:
            raise NoCommand
        self.regions[kind].append((start, bytes.fromhex(held)))

    def memory(self, kind):
        """The bytes of a memory by their addresses."""
        return {start + index: byte for start, held in self.regions[kind]
                for index, byte in enumerate(held)}


class Values:
    """The values of a definition's variables, and of terms over them."""

    def __init__(self, words, memories):
        self.words = list(words)
        self.memories = list(memories)

    def of(self, term):
        """The value of a term."""
        form = term.form
        if form == NUMBER:
            return term.value
        if form == WORD_VARIABLE:
            return self.words[term.value]
        if form == MEMORY_VARIABLE:
            return self.memories[term.value]
        parts = [self.of(child) for child in term.children]
        for functions in (OPERATIONS, EXTENSIONS, COMPARISONS):
            if form in functions:
                return functions[form](*parts)
        if form == "not":
            return not parts[0]
        memory = parts[0]
        places = [(parts[1] + index) % WORDS for index in range(int(form[2:]))]
        if form.startswith("ld"):
            return sum(memory.get(place, 0) << 8 * index for index, place in enumerate(places))
        if form.startswith("in"):
            return all(place in memory for place in places)
        changed = {place: parts[2] >> 8 * index & 0xFF for index, place in enumerate(places)
                   if place in memory}
        return {**memory, **changed}

    def lists(self, values):
        """The values of words, and those of memories."""
        return list(map(self.of, values.words)), list(map(self.of, values.memories))


class Machine:
    """Evaluates a group's function."""

    def __init__(self, group, turns):
        self.group = group
        self.left = turns
        self.taken = 0
        self.needs = {}
        for number, definition in enumerate(group.definitions):
            self.number_needs(definition.body, number, [0])

    def number_needs(self, body, definition, counter):
        """Numbers the `need` lines of a definition in the order of the text."""
        own = []
        for kind, _ in body.steps:
            own.append((definition, counter[0]))
            counter[0] += kind == "need"
        self.needs[id(body)] = own
        for inner in getattr(body.end, "bodies", ()) or getattr(body.end, "arms", ()):
            self.number_needs(inner, definition, counter)

    def enter(self, number, words, memories):
        """The body and the values of a definition that is entered, which takes a turn."""
        if self.left == self.taken:
            raise TurnsUsed
        self.taken += 1
        return self.group.definitions[number].body, Values(words, memories)

    def run(self, words, memories):
        """The exit, the words and the memories with which the function is left."""
        number = len(self.group.definitions) - 1
        body, values = self.enter(number, words, memories)
        callers = []
        while True:
            self.steps(body, values)
            end = body.end
            if isinstance(end, If):
                body = end.bodies[not values.of(end.condition)]
            elif isinstance(end, Call):
                callers.append((end, number, values))
                number = end.definition
                body, values = self.enter(number, *values.lists(end.values))
            elif isinstance(end, Again):
                body, values = self.enter(number, *values.lists(end.values))
            else:
                words, memories = values.lists(end.values)
                if not callers:
                    return end.way, words, memories
                call, number, values = callers.pop()
                body = call.arms[end.way]
                values.words += words
                values.memories += memories

    def steps(self, body, values):
        """Carries out the steps of a body."""
        for (kind, term), name in zip(body.steps, self.needs[id(body)]):
            value = values.of(term)
            if kind == "let":
                values.words.append(value)
            elif kind == "letm":
                values.memories.append(value)
            elif not value:
                raise Refused("refused side {} {}".format(*name))


def told(group, machine, arguments):
    """The lines of what the function leaves."""
    regions = ("mem", "stk")[:group.memories]
    way, words, memories = machine.run(
        [arguments.registers.get(register, 0) for register in group.registers],
        [arguments.memory(kind) for kind in regions])
    place = group.definitions[-1].exits[way]
    if place == RETURN:
        place, *words = words
    lines = [f"done {machine.taken}", f"pc {place:#x}"]
    lines += [f"x{register} {word:#x}" for register, word in zip(group.registers, words)]
    for kind, memory in zip(regions, memories):
        for start, held in arguments.regions[kind]:
            bytes_there = bytes(memory.get(start + index, 0) for index in range(len(held)))
            lines.append(f"{kind} {start:#x} {bytes_there.hex()}")
    return "\n".join(lines)


def evaluate(words, read):
    """The status and the lines for the words behind `eval`; `read` gives a file's bytes."""
    proof, name, turns, *rest = words
    try:
        count = decimal_of(turns, WORDS)
        names_group = TOKEN.fullmatch(name) and name not in "();" and len(name) <= LONGEST_NAME
        if not proof or not names_group or count is None:
            raise NoCommand
        arguments = Arguments(rest)
    except NoCommand:
        return 2, "not a command"
    text = read(proof)
    groups = []

    def see_group(_, group):
        if group.name == name and not groups:
            groups.append(group)

    try:
        TextReader(text).read(see_group, lambda number, line: None)
        if not groups:
            return 1, "refused no function"
        return 0, told(groups[0], Machine(groups[0], count), arguments)
    except BadLine as bad:
        return 3, f"unreadable text {bad.number}"
    except Refused as refused:
        return 1, str(refused)
    except TurnsUsed:
        return 7, "turns used"
