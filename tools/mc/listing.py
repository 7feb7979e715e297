"""The definitions of a function as lines that a person reads: the function first, then what it calls, each before what that calls."""
import dataclasses

from mc.notation import MEMORIES, Name, is_plain, simplified, text
from mc.syntax import ABI, LOADS, RETURN, STORES, Again, Call, Form, If, Leave, Let, Need, Variable, exit_text

LONGEST = 60


@dataclasses.dataclass(frozen=True)
class Line:
    """A line of a definition: its depth, what stands there, the terms in it, the definition that it calls, the side condition that it tells of."""

    depth: int
    text: str
    terms: tuple = ()
    target: int = None
    need: int = None


@dataclasses.dataclass(frozen=True)
class Block:
    """A definition: its number, and its lines."""

    number: int
    definition: object
    lines: tuple


def blocks(group, fold=False):
    """The definitions, from the last one, which is the function, to the first."""
    return [Block(d, definition, tuple(_Body(group, fold).lines(definition))) for d, definition in reversed(list(enumerate(group.definitions)))]


def heading(group):
    """What the function has."""
    memories = ("without memory", "with memory", "with two memories")[group.memories]
    return f"function {group.name}: {sum(len(found) for _, found in group.code)} bytes of code, {memories}"


def kind(definition):
    """Whether the definition enters itself again."""
    return "loop" if any(isinstance(end, Again) for end in ends(definition.body)) else "part"


def title(group, number, place=exit_text):
    """A definition's number, where it is entered, and how it is left. `place` tells of an address."""
    definition = group.definitions[number]
    away = [place(exit) for exit in definition.exits if exit != RETURN]
    left = [f"leaves to {' '.join(away)}"] * bool(away) + ["returns"] * (RETURN in definition.exits)
    own = f"{group.name} = d{number}" if number == len(group.definitions) - 1 else f"d{number}"
    return f"{own}, {kind(definition)} at {place(definition.entry)}: {', '.join(left) or 'never ends'}"


def ends(body):
    """The ends of a body, and of the bodies in it."""
    yield body.end
    for inner in inner_bodies(body.end):
        yield from ends(inner)


def inner_bodies(end):
    """The bodies that an end leads to."""
    if isinstance(end, If):
        return (end.then, end.otherwise)
    return tuple(arm.body for arm in end.arms) if isinstance(end, Call) else ()


def passes(call, exits):
    """Whether a call is all that happens: each arm leaves by the same exit, with what the call gave."""
    return all(
        not arm.body.steps
        and isinstance(arm.body.end, Leave)
        and exits[arm.body.end.exit] == arm.exit
        and (arm.body.end.words, arm.body.end.memories) == (arm.words, arm.memories)
        for arm in call.arms
    )


def occurrences(variable, term):
    """How often the variable stands in a term."""
    if isinstance(term, Form):
        return sum(occurrences(variable, part) for part in term.parts)
    return int(term == variable)


def uses(variable, steps, end, skipped=()):
    """How often the variable stands in these steps and behind them, but for the needs of these numbers."""
    terms = [step.value if isinstance(step, Let) else step.condition for step in steps if isinstance(step, Let) or step.number not in skipped]
    terms += [end.condition] if isinstance(end, If) else [*end.words, *end.memories]
    return sum(occurrences(variable, term) for term in terms) + sum(uses(variable, body.steps, body.end, skipped) for body in inner_bodies(end))


def access(value):
    """The load or the store that a let is of, or None."""
    while isinstance(value, Form) and value.name.startswith("sx"):
        value = value.parts[0]
    return value if isinstance(value, Form) and value.name in LOADS | STORES else None


def told_by(need, step):
    """Whether the need asks for just the bytes of the access in the step behind it."""
    found = access(step.value) if isinstance(step, Let) else None
    return found is not None and need.condition == Form(f"in{found.name[2]}", found.parts[:2])


def joined_needs(body):
    """The numbers of the needs that are told with the access behind them: with a store, and with a load whose word is used more than once."""
    for at, (step, following) in enumerate(zip(body.steps, body.steps[1:])):
        if isinstance(step, Need) and told_by(step, following):
            if following.variable.kind == "m" or uses(following.variable, body.steps[at + 2 :], body.end) > 1:
                yield step.number
    for inner in inner_bodies(body.end):
        yield from joined_needs(inner)


class _Body:
    """Makes the lines of a definition's body."""

    def __init__(self, group, fold):
        self.group, self.fold = group, fold
        self.registers = [ABI[r] for r in group.registers]
        self.memories = MEMORIES[: group.memories]
        self.found, self.exits, self.joined = [], (), frozenset()

    def lines(self, definition):
        self.exits = definition.exits
        if self.fold:
            self.joined = frozenset(joined_needs(definition.body))
        names = {Variable("v", i): Name(name) for i, name in enumerate(self.registers)}
        names |= {Variable("m", i): Name(name) for i, name in enumerate(self.memories)}
        self.body(definition.body, names, "", 0)
        return self.found

    def put(self, depth, words, terms=(), target=None, need=None):
        self.found.append(Line(depth, words, tuple(terms), target, need))

    def body(self, body, names, primes, depth):
        """`primes` are those of the registers as the last call left them."""
        joined = None
        for at, step in enumerate(body.steps):
            if isinstance(step, Let):
                self.bind(step, body.steps[at + 1 :], body.end, names, depth, joined)
                joined = None
            elif step.number in self.joined:
                joined = step.number
            else:
                condition = simplified(step.condition, names)
                self.put(depth, f"need {step.number}: {text(condition)}", [condition], need=step.number)
        self.ending(body.end, names, primes, depth)

    def bind(self, step, steps, end, names, depth, joined):
        """Gives a variable its name, and where it needs one, a line. `joined` is the number of the need that is told in that line."""
        value, variable = simplified(step.value, names), step.variable
        if is_plain(value) or variable.kind == "v" and self.fold and joined is None and self.folds(variable, value, steps, end):
            names[variable] = value
            return
        names[variable] = Name(str(variable) if variable.kind == "v" else f"{self.stored_to(value)}{variable.index}")
        told = "" if joined is None else f"    (need {joined})"
        self.put(depth, f"{text(names[variable])} = {text(value)}{told}", [value], need=joined)

    def folds(self, variable, value, steps, end):
        """Whether a word is written in the place where it is used: it is used once, and isn't long. One that isn't used is left out."""
        count = uses(variable, steps, end, self.joined)
        return count == 0 or count == 1 and len(text(value)) <= LONGEST

    def stored_to(self, value):
        """What the memory after these stores is called, but for its number."""
        while isinstance(value, Form):
            value = value.parts[0]
        return value.text.rstrip("0123456789'") if len(self.memories) == 2 else "m"

    def changed(self, words, memories, names, primes):
        """The values that aren't those at the definition's entry, or those that the last call left."""
        values = [simplified(value, names) for value in (*words, *memories)]
        pairs = [(name, value) for name, value in zip((*self.registers, *self.memories), values) if text(value) != name + primes]
        changes = ", ".join(f"{name} = {text(value)}" for name, value in pairs)
        return f" with {changes}" if changes else "", [value for _, value in pairs]

    def ending(self, end, names, primes, depth):
        if isinstance(end, If):
            condition = simplified(end.condition, names)
            self.put(depth, f"if {text(condition)}:", [condition])
            self.body(end.then, dict(names), primes, depth + 1)
            self.put(depth, "else:")
            self.body(end.otherwise, dict(names), primes, depth + 1)
        elif isinstance(end, Call):
            self.call(end, names, primes, depth)
        elif isinstance(end, Again):
            changes, values = self.changed(end.words, end.memories, names, primes)
            self.put(depth, f"again{changes}", values)
        else:
            self.leave(end, names, primes, depth)

    def leave(self, end, names, primes, depth):
        exit, words = self.exits[end.exit], end.words
        where, values = f"leave to {exit_text(exit)}", []
        if exit == RETURN:
            values, words = [simplified(words[0], names)], words[1:]
            where = f"return to {text(values[0])}"
        changes, changed = self.changed(words, end.memories, names, primes)
        self.put(depth, where + changes, values + changed)

    def call(self, end, names, primes, depth):
        changes, values = self.changed(end.words, end.memories, names, primes)
        if passes(end, self.exits):
            self.put(depth, f"continue as d{end.target}{changes}", values, end.target)
            return
        self.put(depth, f"call d{end.target}{changes}", values, end.target)
        primes += "'"
        for arm in end.arms:
            self.put(depth, "after its return:" if arm.exit == RETURN else f"after it left to {exit_text(arm.exit)}:")
            results = ["pc"] * (arm.exit == RETURN) + self.registers
            inner = names | {variable: Name(name + primes) for variable, name in zip((*arm.words, *arm.memories), (*results, *self.memories))}
            self.body(arm.body, inner, primes, depth + 1)
