"""The trees of proof texts: groups, definitions, bodies and terms. `proof` reads them; docs/FORMATS.md has the language."""
import dataclasses

ABI = tuple("zero ra sp gp tp t0 t1 t2 s0 s1 a0 a1 a2 a3 a4 a5 a6 a7 s2 s3 s4 s5 s6 s7 s8 s9 s10 s11 t3 t4 t5 t6".split())
OPERATIONS = frozenset(
    "add sub sll slt sltu xor srl sra or and mul mulh mulhsu mulhu div divu rem remu "
    "addw subw sllw srlw sraw mulw divw divuw remw remuw".split()
)
EXTENSIONS = frozenset("sx1 sx2 sx4".split())
LOADS, STORES, PRESENT = (frozenset(f"{form}{size}" for size in (1, 2, 4, 8)) for form in ("ld", "st", "in"))
COMPARISONS = frozenset("eq ne lt ge ltu geu".split())
RETURN = "ret"
DEEPEST = 64


@dataclasses.dataclass(frozen=True)
class Number:
    """A constant word."""

    value: int

    def __str__(self):
        return f"{self.value:#x}"


@dataclasses.dataclass(frozen=True)
class Variable:
    """A variable: of a word, `v3`, or of a memory, `m0`."""

    kind: str
    index: int

    def __str__(self):
        return f"{self.kind}{self.index}"


@dataclasses.dataclass(frozen=True)
class Form:
    """An operation on terms, by the name that the text has for it."""

    name: str
    parts: tuple

    def __str__(self):
        return f"({self.name} {' '.join(map(str, self.parts))})"


@dataclasses.dataclass(frozen=True)
class Let:
    """Binds the next word or memory variable."""

    variable: Variable
    value: object
    line: int


@dataclasses.dataclass(frozen=True)
class Need:
    """A side condition: `number` counts those of its definition from 0, as the answer `refused side D I` does."""

    number: int
    condition: object
    line: int


@dataclasses.dataclass(frozen=True)
class If:
    condition: object
    then: "Body"
    otherwise: "Body"
    line: int


@dataclasses.dataclass(frozen=True)
class Arm:
    """Goes on where the called definition left by `exit`: the variables of the results, those of `ret` with the returned address first."""

    exit: object
    words: tuple
    memories: tuple
    body: "Body"


@dataclasses.dataclass(frozen=True)
class Call:
    target: int
    words: tuple
    memories: tuple
    arms: tuple
    line: int


@dataclasses.dataclass(frozen=True)
class Again:
    words: tuple
    memories: tuple
    line: int


@dataclasses.dataclass(frozen=True)
class Leave:
    """Leaves by the exit of this number. The words of RETURN begin with the returned address."""

    exit: int
    words: tuple
    memories: tuple
    line: int


@dataclasses.dataclass(frozen=True)
class Body:
    """Steps, each a Let or a Need, and an end: an If, a Call, an Again or a Leave."""

    steps: tuple
    end: object


@dataclasses.dataclass(frozen=True)
class Definition:
    """`exits` are addresses, or RETURN. `axioms` are the addresses of instructions that its proof cites, in that order."""

    entry: int
    exits: tuple
    body: Body
    line: int
    axioms: tuple = ()


@dataclasses.dataclass(frozen=True)
class Group:
    """A function: its last definition, with those that it calls before it. `code` are pairs of an address and bytes."""

    name: str
    registers: tuple
    memories: int
    code: tuple
    definitions: tuple
    line: int

    @property
    def entry(self):
        return self.definitions[-1].entry


@dataclasses.dataclass(frozen=True)
class Proof:
    version: int
    groups: tuple


@dataclasses.dataclass(frozen=True)
class Certificate:
    """The group that was rewritten, with the definitions before the steps, and the `result`: the group with those behind them."""

    group: Group
    steps: int
    result: Group


def values_text(words, memories):
    """Values as they stand in a text."""
    return "".join(f"{word} " for word in words) + ";" + "".join(f" {memory}" for memory in memories)


def exit_text(exit):
    """An exit as it stands in a text."""
    return exit if exit == RETURN else f"{exit:#x}"
