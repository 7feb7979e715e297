"""How a person reads a term: registers by their ABI names, operations between their operands, numbers in decimal where they are small."""
import dataclasses

from mc.syntax import ABI, LOADS, PRESENT, STORES, Form, Number, Variable

SIGNS = {
    "add": "+", "sub": "-", "sll": "<<", "slt": "<s", "sltu": "<u", "xor": "^", "srl": ">>u", "sra": ">>s", "or": "|", "and": "&",
    "mul": "*", "div": "/s", "divu": "/u", "rem": "%s", "remu": "%u",
    "addw": "+w", "subw": "-w", "sllw": "<<w", "srlw": ">>uw", "sraw": ">>sw", "mulw": "*w", "divw": "/sw", "divuw": "/uw", "remw": "%sw", "remuw": "%uw",
    "eq": "==", "ne": "!=", "lt": "<s", "ge": ">=s", "ltu": "<u", "geu": ">=u",
}
MEMORIES = ("mem", "stk")
CONTRARY = {"eq": "ne", "ne": "eq", "lt": "ge", "ge": "lt", "ltu": "geu", "geu": "ltu"}
WORDS = 1 << 64
SMALL = 4096


@dataclasses.dataclass(frozen=True)
class Name:
    """What a person calls a value, in the place of a variable."""

    text: str


def simplified(term, names):
    """The term with its variables replaced by what `names` has for them, and with sums of numbers, sums with 0 and negated comparisons as one writes them."""
    if isinstance(term, Variable):
        return names[term]
    if not isinstance(term, Form):
        return term
    parts = tuple(simplified(part, names) for part in term.parts)
    if term.name in ("add", "addw") and all(isinstance(part, Number) for part in parts):
        return Number(_sum(term.name, parts[0].value + parts[1].value))
    if term.name == "add" and Number(0) in parts:
        return parts[1] if parts[0] == Number(0) else parts[0]
    if term.name == "not" and isinstance(parts[0], Form) and parts[0].name in CONTRARY:
        return Form(CONTRARY[parts[0].name], parts[0].parts)
    return Form(term.name, parts)


def _sum(name, total):
    """A sum of words, of all bits or of the low 32 with their sign extended."""
    return total % WORDS if name == "add" else ((total & 0xFFFFFFFF ^ 1 << 31) - (1 << 31)) % WORDS


def is_plain(term):
    """Whether it is a name or a number, which needs no name of its own."""
    return isinstance(term, (Name, Number))


def number(value):
    """A number as a person writes it."""
    if value < SMALL:
        return str(value)
    return str(value - WORDS) if value > WORDS - SMALL else f"{value:#x}"


def address(term):
    """A simplified term that is an address."""
    return f"{term.value:#x}" if isinstance(term, Number) else text(term)


def text(term, inside=False):
    """A simplified term, in parentheses where it stands inside another."""
    if isinstance(term, Name):
        return term.text
    if isinstance(term, Number):
        return number(term.value)
    parts = term.parts
    if term.name in SIGNS:
        return _enclosed(_between(term.name, *parts), inside)
    if term.name == "not":
        return f"not ({text(parts[0])})"
    if term.name in LOADS:
        return f"{text(parts[0], True)}[{address(parts[1])}]:{term.name[2]}"
    if term.name in STORES:
        return _enclosed(f"{text(parts[0], True)}[{address(parts[1])}]:{term.name[2]} := {text(parts[2])}", inside)
    if term.name in PRESENT:
        return f"{text(parts[0], True)} has [{address(parts[1])}]:{term.name[2]}"
    return f"{term.name}({', '.join(text(part) for part in parts)})"


def _between(name, left, right):
    sign, other = SIGNS[name], text(right, True)
    if name == "add" and isinstance(right, Number) and other.startswith("-"):
        sign, other = "-", other[1:]
    return f"{text(left, True)} {sign} {other}"


def _enclosed(words, inside):
    return f"({words})" if inside else words


def inner(term):
    """A simplified term and all terms in it."""
    yield term
    for part in term.parts if isinstance(term, Form) else ():
        yield from inner(part)


def names_line(group):
    """What each register and memory is called: by the ABI, by its number, in the text, in a script."""
    registers = [f"{ABI[r]} = x{r} = v{i} = w{i}" for i, r in enumerate(group.registers)]
    return registers + [f"{name} = m{i} = mem{i}, dom{i}" for i, name in enumerate(MEMORIES[: group.memories])]
