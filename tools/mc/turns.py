"""Texts of groups for `smt` alone: one turn of a loop, loops whose results are left open, no side conditions. And what a definition leaves as it is.

`smt` judges no proof, so it takes any text of definitions. In these, `again` of one loop is written as `leave` by a further exit, to where the loop is
entered: its script tells how one turn ends. A definition that is left open has a body that gives its arguments back, for which the script's reader puts
functions of which nothing is known.
"""
from mc.syntax import RETURN, Again, Call, If, Leave, Let, Need, Variable, exit_text, values_text

TWO_MEMORIES = 4


def body_rows(body, again=None, with_needs=True):
    """The lines of a body. Where `again` is a number, the body leaves by that exit where it would enter its definition again."""
    for step in body.steps:
        if isinstance(step, Let):
            yield f"{'let' if step.variable.kind == 'v' else 'letm'} {step.value}"
        elif with_needs:
            yield f"need {step.condition}"
    end = body.end
    if isinstance(end, If):
        yield f"if {end.condition}"
        yield from body_rows(end.then, again, with_needs)
        yield "else"
        yield from body_rows(end.otherwise, again, with_needs)
    elif isinstance(end, Call):
        yield f"call {end.target} {len(end.arms)} {values_text(end.words, end.memories)}"
        for arm in end.arms:
            yield "arm"
            yield from body_rows(arm.body, again, with_needs)
    elif isinstance(end, Leave):
        yield f"leave {end.exit} {values_text(end.words, end.memories)}"
    else:
        yield ("again " if again is None else f"leave {again} ") + values_text(end.words, end.memories)


def open_row(group, definition):
    """A body that gives its arguments back by the first exit."""
    words = [Variable("v", k) for k in range(len(group.registers))]
    returned = words[:1] or [Variable("v", 0)]
    return f"leave 0 {values_text((returned if definition.exits[0] == RETURN else []) + words, [Variable('m', k) for k in range(group.memories)])}"


def text(group, number, turn=None, left_open=(), with_needs=True):
    """A text of the group's definitions up to that number, for `smt` alone."""
    rows = [f"mcproof {TWO_MEMORIES if group.memories == 2 else 1}", f"group {group.name}", " ".join(["regs", *map(str, group.registers)]), f"mems {group.memories}"]
    rows.append(" ".join(["code", *(f"({address:#x} {found.hex()})" for address, found in group.code)]))
    for k, definition in enumerate(group.definitions[: number + 1]):
        exits = [exit_text(exit) for exit in definition.exits] + ([f"{definition.entry:#x}"] if k == turn else [])
        rows.append(" ".join(["def", f"{definition.entry:#x}", *exits]))
        if k in left_open:
            rows.append(open_row(group, definition))
        else:
            rows += body_rows(definition.body, len(definition.exits) if k == turn else None, with_needs)
    return "\n".join([*rows, "end", ""])


def ends_of(body):
    """The ends of a body and of those in it."""
    yield body.end
    inner = [body.end.then, body.end.otherwise] if isinstance(body.end, If) else [arm.body for arm in body.end.arms] if isinstance(body.end, Call) else []
    for part in inner:
        yield from ends_of(part)


def is_loop(definition):
    return any(isinstance(end, Again) for end in ends_of(definition.body))


def reached(group, number, left_open=()):
    """The definitions that one reaches by calls, without going through those that are left open; itself among them."""
    found, todo = {number}, [number]
    while todo:
        at = todo.pop()
        if at in left_open and at != number:
            continue
        for end in ends_of(group.definitions[at].body):
            if isinstance(end, Call) and end.target not in found:
                found.add(end.target)
                todo.append(end.target)
    return found


class Kept:
    """Which registers and memories each way through a definition leaves as they are, however often it is entered again: told by its text alone."""

    def __init__(self, group):
        self.group, self.known = group, {}

    def of(self, number):
        """The places of these registers, and those of these memories."""
        if number not in self.known:
            words, memories = set(range(len(self.group.registers))), set(range(self.group.memories))
            self.follow(self.group.definitions[number].body, list(range(len(words))), list(range(len(memories))), (words, memories))
            self.known[number] = frozenset(words), frozenset(memories)
        return self.known[number]

    def follow(self, body, words, memories, kept):
        """Goes on where variables stand for these parameters, or None, and takes out of what is kept what a way changes."""
        words, memories = list(words), list(memories)
        for step in body.steps:
            if isinstance(step, Need):
                continue
            if step.variable.kind == "v":
                words.append(origin(step.value, words))
            else:
                memories.append(origin(step.value, memories))
        end = body.end
        if isinstance(end, If):
            self.follow(end.then, words, memories, kept)
            self.follow(end.otherwise, words, memories, kept)
        elif isinstance(end, Call):
            same_words, same_memories = self.of(end.target)
            passed = [origin(word, words) if k in same_words else None for k, word in enumerate(end.words)]
            passed_memories = [origin(memory, memories) if k in same_memories else None for k, memory in enumerate(end.memories)]
            for arm in end.arms:
                self.follow(arm.body, words + [None] * (len(arm.words) - len(passed)) + passed, memories + passed_memories, kept)
        else:
            returns = isinstance(end, Leave) and len(end.words) > len(self.group.registers)
            left = ([origin(word, words) for word in end.words[returns:]], [origin(memory, memories) for memory in end.memories])
            for part, values in zip(kept, left):
                part.intersection_update(k for k, value in enumerate(values) if value == k)


def origin(term, variables):
    """The parameter that a term is, or None."""
    return variables[term.index] if isinstance(term, Variable) else None
