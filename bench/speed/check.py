#!/usr/bin/env python3
"""check.py [PROGRAM] [FILE]: how fast the commands `check` and `eval` of a built program are on proofs, and how much memory they take.

It makes an ELF file and proof texts of several lengths in a folder that it removes again, runs the program on them, and prints a table.
A text is one function's group, again and again: 1,023 additions on 30 registers and a return, with the lines by which such a function is
proved a part of 32 instructions after the other. Its groups have 31 registers, and its theorems up to 32 facts. One more text is a single group of 64 MiB:
behind the lines of its proof an axiom is stated and forgotten, again and again. With FILE, the text of
16 MiB and its ELF file, FILE.elf, are written there and nothing is run.
"""
import os
import struct
import sys
import tempfile

sys.path.insert(0, os.path.join(os.path.dirname(os.path.abspath(__file__)), "..", "library"))
from elf_files import BASE, write_elf
from instructions import RETURN, arithmetic
from measuring import MIB, measure
from programs import is_program, program_of

PART = 32
INSTRUCTIONS = 1024
REGISTERS = range(1, 32)
MASK = "0xfffffffffffffffe"
SIZES = (4, 16, 64, 256)
# The text of a single group, in MiB.
ONE = 64


def operands(i):
    """The registers of addition number i: the first is the sum of both."""
    return 2 + i % 30, 1 + i % 30


def word(i):
    if i == INSTRUCTIONS - 1:
        return RETURN
    target, other = operands(i)
    return arithmetic(0, 0, target, target, other)


CODE = b"".join(struct.pack("<I", word(i)) for i in range(INSTRUCTIONS))


def code(start, end):
    """The range of the instructions from one number to another."""
    return "all" if end - start == INSTRUCTIONS else f"({BASE + 4 * start:#x} {CODE[4 * start:4 * end].hex()})"


def holds(pc, registers):
    """An assertion of the program counter and of terms in registers."""
    return f"({pc} {' '.join(f'({r} {registers[r]})' for r in sorted(registers))} ;)"


def values(registers):
    return " ".join(registers[r] for r in REGISTERS)


class Part:
    """The definition and the lines of the instructions from one number to another, or to the return."""

    def __init__(self, number, start, end, lines):
        self.number, self.start, self.end, self.lines = number, start, end, lines
        self.first = lines.count
        self.body = []
        self.at = {r: f"v{r - 1}" for r in REGISTERS}
        self.begin = dict(self.at)
        self.variables = len(REGISTERS)
        self.facts, self.theorem = [], None

    def pc(self, i):
        return f"{BASE + 4 * i:#x}"

    def compose(self, last, facts, covered, post):
        """The theorem up to here, with one more theorem."""
        self.facts += [fact for fact in facts if fact not in self.facts]
        if self.theorem is None:
            self.theorem = last
            return
        self.theorem = self.lines.state(f"compose {self.theorem} {last}", self.facts, holds(self.pc(self.start), self.begin), covered, post)

    def add(self, i):
        """An addition."""
        target, other = operands(i)
        low, high = sorted((target, other))
        names = {low: "v0", high: "v1"}
        total = f"(add {names[target]} {names[other]})"
        here, there, only = self.pc(i), self.pc(i + 1), code(i, i + 1)
        state = self.lines.state
        axiom = state(f"axiom {here} {word(i):#x} next", [], holds(here, names), only, holds(there, {**names, target: total}))
        names = {low: self.at[low], high: self.at[high]}
        total = f"(add {self.at[target]} {self.at[other]})"
        rule = f"inst {axiom} (v0 {names[low]}) (v1 {names[high]})"
        inst = state(rule, [], holds(here, names), only, holds(there, {**names, target: total}))
        frame = state(f"frame {inst}", [], holds(here, self.at), only, holds(there, {**self.at, target: total}))
        fact = f"(is v{self.variables} {total})"
        before, self.at[target] = dict(self.at), f"v{self.variables}"
        last = state(f"weaken {frame}", [fact], holds(here, before), only, holds(there, self.at))
        self.body.append(f"let {total}")
        self.variables += 1
        self.compose(last, [fact], code(self.start, i + 1), holds(there, self.at))

    def go_back(self, i):
        """The return."""
        here, only, back = self.pc(i), code(i, i + 1), f"(and (add v0 0x0) {MASK})"
        axiom = self.lines.state(f"axiom {here} {RETURN:#x} next", [], holds(here, {1: "v0"}), only, holds(back, {1: "v0"}))
        frame = self.lines.state(f"frame {axiom}", [], holds(here, self.at), only, holds(back, self.at))
        self.compose(frame, [], code(self.start, i + 1), holds(back, self.at))
        self.body.append(f"leave 0 {back} {values(self.at)} ;")

    def call(self):
        """The part behind this one."""
        here, called = self.pc(self.end), self.number - 1
        results = {r: f"v{len(REGISTERS) + r}" for r in REGISTERS}
        fact = f"(gives {called} 0 {values(self.begin)} ; ; v{len(REGISTERS)} {values(results)} ;)"
        use = self.lines.state(f"use {called} 0", [fact], holds(here, self.begin), "all", holds(f"v{len(REGISTERS)}", results))
        after = {r: f"v{self.variables + r}" for r in REGISTERS}
        back = f"v{self.variables}"
        fact = f"(gives {called} 0 {values(self.at)} ; ; {back} {values(after)} ;)"
        terms = [self.at[r] for r in REGISTERS] + [back] + [after[r] for r in REGISTERS]
        pairs = " ".join(f"(v{n} {term})" for n, term in enumerate(terms))
        inst = self.lines.state(f"inst {use} {pairs}", [fact], holds(here, self.at), "all", holds(back, after))
        self.compose(inst, [fact], "all", holds(back, after))
        self.body += [f"call {called} 1 {values(self.at)} ;", "arm", f"leave 0 {back} {values(after)} ;"]

    def write(self):
        for i in range(self.start, self.end):
            self.go_back(i) if i == INSTRUCTIONS - 1 else self.add(i)
        if self.end < INSTRUCTIONS:
            self.call()
        self.lines.text.append(f"loop {self.number} {self.theorem}")
        return [f"def {self.pc(self.start)} ret", *self.body]


class Lines:
    """The lines of a proof, and the number of the next theorem."""

    def __init__(self):
        self.text, self.count = [], 0

    def state(self, rule, facts, pre, covered, post):
        self.text.append(" ".join([rule, "facts", *facts, "pre", pre, "code", covered, "post", post]))
        self.count += 1
        return self.count - 1


def group():
    """The text of the group, and how many lines its proof has."""
    lines, definitions = Lines(), []
    for number, start in enumerate(reversed(range(0, INSTRUCTIONS, PART))):
        definitions += Part(number, start, start + PART, lines).write()
    head = ["group f", f"regs {' '.join(map(str, REGISTERS))}", "mems 0", f"code ({BASE:#x} {CODE.hex()})"]
    return "\n".join(head + definitions + lines.text) + "\n", len(lines.text)


def write_text(path, text, count):
    with open(path, "w") as file:
        file.write("mcproof 1\n")
        for _ in range(count):
            file.write(text)
        file.write("end\n")


def write_one_group(path, text, lines, size):
    """A text of one group of about so many bytes. Gives how many lines its proof has."""
    here, only = f"{BASE + 4 * (INSTRUCTIONS - 1):#x}", code(INSTRUCTIONS - 1, INSTRUCTIONS)
    stated = f"pre {holds(here, {1: 'v0'})} code {only} post {holds(f'(and (add v0 0x0) {MASK})', {1: 'v0'})}"
    axiom = f"axiom {here} {RETURN:#x} next facts {stated}"
    theorems = sum(not line.startswith(("loop ", "forget ")) for line in text[text.index("\naxiom ") + 1 :].splitlines())
    count = (size - len(text)) // (len(axiom) + len("\nforget 1000000\n"))
    with open(path, "w") as file:
        file.write(f"mcproof 1\n{text}")
        for i in range(count):
            file.write(f"{axiom}\nforget {theorems + i}\n")
        file.write("end\n")
    return lines + 2 * count


def write_code(path):
    write_elf(path, [(BASE, CODE, len(CODE), len(CODE))])


def tell(case, length, seconds, peak):
    print(f"{case:16} {seconds:9.2f} {peak / MIB:9.0f} {length / 1e6 / seconds:12.2f} {peak / length:18.2f}", flush=True)


def main():
    text, lines = group()
    files = [word for word in sys.argv[1:] if not is_program(word) and not word.startswith("-")]
    if len(files) == 1:
        write_text(files[0], text, 16 * MIB // len(text))
        write_code(f"{files[0]}.elf")
        return
    program, _ = program_of(__doc__, sys.argv[1:])
    print(f"{'case':16} {'seconds':>9} {'peak MiB':>9} {'MB a second':>12} {'bytes kept a byte':>18}")
    with tempfile.TemporaryDirectory() as folder:
        elf, proof = os.path.join(folder, "e"), os.path.join(folder, "p")
        write_code(elf)
        for size in SIZES:
            count = size * MIB // len(text)
            write_text(proof, text, count)
            length = os.path.getsize(proof)
            for words, expected in (
                (["check", elf, proof], f"accepted {count} {count * lines}\n"),
                (["eval", proof, "f", "99", "x1=0x2000"], f"done {INSTRUCTIONS // PART}\n"),
            ):
                answer, seconds, peak = measure(program, words)
                if not answer.startswith(expected.encode()):
                    sys.exit(f"{words[0]}, {size} MiB: {answer[:200]!r}")
                tell(f"{words[0]:6} {size:5} MiB", length, seconds, peak)
        count = write_one_group(proof, text, lines, ONE * MIB)
        answer, seconds, peak = measure(program, ["check", elf, proof])
        if answer != f"accepted 1 {count}\n".encode():
            sys.exit(f"one group, {ONE} MiB: {answer[:200]!r}")
        tell(f"one    {ONE:5} MiB", os.path.getsize(proof), seconds, peak)


if __name__ == "__main__":
    main()
