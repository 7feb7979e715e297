"""Draws the text of a number: of a version, a kind, and with an ELF file or words for `eval` beside it."""

import random
from typing import NamedTuple

from second_checker import axioms
from second_checker.terms import Terms
from second_checker.triples import Group

from . import cases, changes, drawing, elf_cases, spelling
from .drawn_terms import EDGES
from .made import EXAMPLES

# How often each kind is drawn.
KINDS = {"changed": 3, "drawn": 2, "tried": 1, "axioms": 1, "numbers": 1, "elf": 1, "eval": 1}
ENDS = {True: "right", False: "wrong", None: "bad"}
OPCODES = (0x37, 0x17, 0x6F, 0x67, 0x63, 0x03, 0x23, 0x13, 0x1B, 0x33, 0x3B, 0x0F, 0x73, 0x2F, 0x53, 0x07)
# Instructions that aren't in an axiom, and others beside these.
SPECIAL = (0x73, 0x100073, 0x9002, 0, 1, 0x10001, 0x8002, 0x6101, 0x6001, 0x2001, 0x4002, 0x6002, 0x100F)


class Text(NamedTuple):
    """A text to compare on: for `check` with an ELF file, or for `eval` with the words behind the text's name. `lines` tells the lines that were drawn."""

    version: str
    kind: str
    elf: bytes | None
    held: bytes
    words: list | None = None
    lines: tuple = ()


def small_elf(code, flags=5, padding=0):
    """A small ELF file with one segment of this code, which is one range."""
    ((start, held),) = code
    size = len(held)
    segment = elf_cases.segment(start, 120, size, size + padding, flags=flags)
    return elf_cases.elf([segment], names=b"", behind=held, sections_at=0)


def thought_out():
    """The texts, ELF files and words that were thought out."""
    with open(f"{EXAMPLES}/rules/rules.elf", "rb") as file:
        elf = file.read()
    for _, text in [*cases.texts(), *cases.dags()]:
        version = text[8:9]
        yield Text(version if version in tuple("1234") else "-", "thought out", elf, text.encode("latin-1"))
    for _, other in elf_cases.files():
        yield Text("1", "thought out elf", other, b"mcproof 1\nend\n")
    for _, other, text in elf_cases.code_files():
        yield Text("1", "thought out elf", other, text)
    for words, text in elf_cases.eval_words():
        yield Text("4", "thought out eval", None, text, words)


def of_number(seed, number, kinds, bases):
    """The text of a number: its version goes round with the number, all else is drawn."""
    source = Source(random.Random(f"{seed} {number}"), number % 4 + 1, bases)
    kind = source.random.choices(kinds, [KINDS[kind] for kind in kinds])[0]
    return getattr(source, kind)()


class Source:
    """Draws one text of a version; `bases` are the texts that are changed, with their ELF files, by version."""

    def __init__(self, draw, version, bases):
        self.random, self.version, self.bases = draw, version, bases[version]
        self.changer = changes.Changer(draw)

    def text(self, kind, elf, held, **more):
        """A text of the version."""
        return Text(str(self.version), kind, elf, held, **more)

    def drawer(self):
        """What draws lines."""
        return drawing.Drawer(self.version, self.random.getrandbits(48))

    def changed(self):
        """A text that the program made, changed."""
        elf, held = self.random.choice(self.bases)
        held, _ = self.changer.text(held, [other for _, other in self.bases])
        return self.text("changed", elf, held)

    def elf(self):
        """A changed ELF file."""
        elf, held = self.random.choice(self.bases)
        return self.text("elf", self.changer.elf(elf), held)

    def drawn(self):
        """Lines that were drawn by each rule."""
        drawer = self.drawer()
        held, _ = drawer.draw()
        elf = small_elf(drawer.group.code, self.random.choice((5, 5, 5, 4)), self.random.choice((0, 0, 3)))
        lines = tuple((rule, ENDS[right]) for rule, right in drawer.kinds)
        return self.text("drawn", elf, held.encode("ascii"), lines=lines)

    def tried(self):
        """Lines that try one thing, at which a wrong rule would be seen."""
        drawer = self.drawer()
        held, _ = drawer.draw_try()
        lines = tuple((rule, ENDS[right]) for rule, right in drawer.kinds)
        return self.text("tried", small_elf(drawer.group.code), held.encode("ascii"), lines=lines)

    def axioms(self):
        """Many axioms that are there; a triple that is nearly one sometimes ends the text."""
        terms = Terms()
        memories = " m0 m1" if self.version == 4 else ""
        lines = [f"mcproof {self.version}", "group a", "regs", f"mems {2 if memories else 0}", "code", "def 0x0", "again ;" + memories]
        triple, told = None, []
        for _ in range(400):
            address = self.random.getrandbits(self.random.choice((8, 20, 63, 64))) & ~1
            number, form = self.number(), self.random.choice(("next", "taken"))
            triple = axioms.axiom(terms, address, number, form)
            if triple is not None:
                head = f"axiom {address:#x} {number:#x} {form}"
                lines.append(head if self.version == 2 else f"{head} {spelling.triple(triple, ())}")
                told.append(("axiom", "right"))
        if self.version != 2 and self.random.random() < 0.3 and triple is not None:
            drawer = self.drawer()
            drawer.terms, drawer.group = terms, Group("a", (), 0, (), [])
            lines[-1] = f"{head} {spelling.triple(drawer.perturbed(triple), ())}"
            told.pop()
        lines.append("end\n")
        return self.text("axioms", small_elf(((0, b"\0"),)), "\n".join(lines).encode(), lines=tuple(told))

    def number(self):
        """A number, mostly of an instruction."""
        if self.random.random() < 0.5:
            return self.random.getrandbits(16)
        opcode = self.random.choice(OPCODES)
        number = self.random.getrandbits(25) << 7 | opcode
        if self.random.random() < 0.6 and opcode in (0x33, 0x3B, 0x1B, 0x13):
            number = number & 0x01FFFFFF | self.random.choice((0, 0x20, 1, 0x21)) << 25
        return number & ~0x7000 if opcode == 0x67 else number

    def numbers(self):
        """One axiom, mostly of a number which is no instruction, in a text of version 2."""
        address = self.random.choice((0x20000, 0x20000, 0x20001, (1 << 64) - 2, (1 << 64) - 4))
        for _ in range(200):
            number = self.random.choice(SPECIAL) if self.random.random() < 0.1 else self.number()
            form = self.random.choice(("next", "next", "next", "taken"))
            if axioms.axiom(Terms(), address, number, form) is None:
                break
        held = f"mcproof 2\ngroup a\nregs\nmems 0\ncode\ndef 0x0\nagain ;\naxiom {address:#x} {number:#x} {form}\nend\n"
        return Text("2", "numbers", small_elf(((0, b"\0"),)), held.encode())

    def eval(self):
        """Evaluation of a function with drawn registers and bytes; the text is sometimes changed."""
        _, held = self.random.choice(self.bases)
        if self.random.random() < 0.2:
            held, _ = self.changer.text(held, [other for _, other in self.bases])
        names = [line[6:] for line in held.decode("latin-1").split("\n") if line.startswith("group ")]
        names += ["absent"] * (self.random.random() < 0.05)
        words = [self.random.choice(names or ["x"]) or "x", str(self.random.choice((0, 1, 2, 5, 20, 200)))]
        for register in sorted({*self.random.sample(range(1, 32), 12), 1, 2, 10, 11}):
            values = (0x1000, 0x1008, 0x1010, self.random.getrandbits(6), self.random.getrandbits(64), self.random.choice(EDGES))
            words.append(f"x{register}={self.random.choice(values):#x}")
        for kind in ("mem", "stk"):
            for _ in range(self.random.randrange(3)):
                start, size = self.random.choice((0xFC0, 0x1000, 0x1008, (1 << 64) - 8)), self.random.choice((8, 8, 64))
                if start + size <= 1 << 64:
                    words.append(f"{kind}={start:#x}:{self.random.randbytes(size).hex()}")
        return self.text("eval", None, held, words=words)
