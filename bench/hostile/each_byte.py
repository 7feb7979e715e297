#!/usr/bin/env python3
"""each_byte.py [PROGRAM] [STEP]: gives a built program files that are made to do harm, and looks at how it ends.

- Ten million opening brackets in a line, of a definition or of its proof: `eval` and `check` must refuse the text at that line.
- Each front of a small proof file: both must refuse it at the first line that isn't whole.
- That file with each of its bytes in turn replaced by others: `check` must end with a line of its own and that line's status, and refuse no line
  before the changed one. It may accept the text only where the changed byte stands in the function's name.
- The ELF file with each of its bytes replaced: so must `check` and `decompile`, and what is decompiled is accepted.

With STEP, only each STEP-th front and byte is tried, with as many times fewer brackets. The exit status is 1 where something is otherwise.
"""
import os
import re
import subprocess
import sys
import tempfile
import time
from concurrent.futures import ThreadPoolExecutor

sys.path.insert(0, os.path.join(os.path.dirname(os.path.abspath(__file__)), "..", "library"))
from measuring import MIB, measure
from programs import numbers, program_of

DATA = os.path.join(os.path.dirname(os.path.abspath(__file__)), "..", "..", "crates", "mcdec", "data")
BRACKETS = 10_000_000
HEAD = "mcproof 1\ngroup f\nregs 10\nmems 1\ncode (0x10000 13000000)\ndef 0x10000 0x10004\n"
BODY = HEAD + "leave 0 v0 ; m0\n"
AXIOM = "axiom 0x10000 0x13 next facts "
# What stands before the brackets, a bracket with the words behind it, and the line.
LINES = (
    ("regs", "mcproof 1\ngroup f\nregs ", "(", 3),
    ("code", "mcproof 1\ngroup f\nregs 10\nmems 1\ncode ", "(", 5),
    ("let", HEAD + "let ", "(add ", 7),
    ("letm", HEAD + "letm ", "(st8 ", 7),
    ("need", HEAD + "need ", "(not ", 7),
    ("leave", HEAD + "leave 0 ", "(", 7),
    ("proof line", BODY, "(", 8),
    ("inst", BODY + "inst 0 ", "(", 8),
    ("facts", BODY + AXIOM + "(so ", "(not ", 8),
    ("pre", BODY + AXIOM + "pre (0x10000 (10 ", "(sub ", 8),
    ("post", BODY + AXIOM + "pre (0x10000 ;) code all post ", "(", 8),
)
OTHERS = b" \n();09afv\0\xff"
ENDS = {
    0: re.compile(rb"accepted \d+ \d+\n|decompiled \S+ 0x[0-9a-f]+ \d+ \d+\n"),
    1: re.compile(rb"refused (line|group|def \d+) \d+\n|refused 0x10000 [a-z-]+( 0x[0-9a-f]+)*\n"),
    3: re.compile(rb"unreadable (text \d+|elf [a-z-]+( \d+)*)\n"),
}


def say(program, *words):
    """The status and the lines of a command; nothing else may be told."""
    done = subprocess.run([program, *words], capture_output=True)
    return done.returncode, done.stdout + done.stderr


def is_end(status, lines):
    """Whether a command may end with this status and these lines."""
    return status in ENDS and ENDS[status].fullmatch(lines) is not None


def try_brackets(program, folder, elf, count):
    """Lines of opening brackets. Gives what went wrong."""
    path, wrong = os.path.join(folder, "brackets"), []
    for name, front, bracket, line in LINES:
        with open(path, "w") as file:
            file.write(front + bracket * count + "\nend\n")
        for words in (["eval", path, "f", "1"], ["check", elf, path]):
            told, seconds, peak = measure(program, words)
            print(f"brackets, {name:10} {words[0]:6} {seconds:7.2f} s {peak / MIB:6.0f} MiB")
            if told != f"unreadable text {line}\n".encode():
                wrong.append(f"brackets, {name}, {words[0]}: {told[:200]!r}")
    return wrong


class Small:
    """A small ELF file with its proof file, and what becomes of them where they are cut or changed."""

    def __init__(self, program, folder, elf, proof):
        self.program, self.folder, self.elf, self.proof = program, folder, elf, proof
        with open(elf, "rb") as file:
            self.code = file.read()
        with open(proof, "rb") as file:
            self.text = file.read()

    def write(self, name, data):
        path = os.path.join(self.folder, name)
        with open(path, "wb") as file:
            file.write(data)
        return path

    def cut(self, length):
        """The text's front of this length."""
        path = self.write(f"front-{length}", self.text[:length])
        expected = 3, b"unreadable text %d\n" % (1 + self.text[:length].count(b"\n"))
        ends = [say(self.program, "eval", path, "f", "1"), say(self.program, "check", self.elf, path)]
        os.remove(path)
        return [f"front of {length} bytes: {end}" for end in ends if end != expected]

    def change_text(self, change):
        """The text with another byte."""
        place, byte = change
        path = self.write(f"text-{place}-{byte}", self.text[:place] + bytes([byte]) + self.text[place + 1 :])
        status, lines = say(self.program, "check", self.elf, path)
        os.remove(path)
        line = 1 + self.text[:place].count(b"\n")
        found = ENDS[status].fullmatch(lines) if status in ENDS else None
        is_told = found is not None and lines.startswith((b"refused line", b"unreadable text"))
        is_later = found is not None and (not is_told or int(lines.split()[2]) >= line)
        is_named = status != 0 or line == 2
        return [] if is_later and is_named else [f"text with {byte:#x} at {place}, line {line}: {status}, {lines[:200]!r}"]

    def change_elf(self, change):
        """The ELF file with another byte."""
        place, byte = change
        path = self.write(f"elf-{place}-{byte}", self.code[:place] + bytes([byte]) + self.code[place + 1 :])
        out, ends = path + ".text", [say(self.program, "check", path, self.proof)]
        ends.append(say(self.program, "decompile", path, out, "0x10000"))
        if ends[1][0] == 0:
            ends.append(say(self.program, "check", path, out))
        is_right = all(is_end(*end) for end in ends) and (len(ends) == 2 or ends[2][0] == 0) and os.path.exists(out) == (len(ends) == 3)
        for name in (path, out):
            if os.path.exists(name):
                os.remove(name)
        return [] if is_right else [f"ELF file with {byte:#x} at {place}: {ends}"]


def changes(data, step, others):
    """Each place with each byte that is put there."""
    return [(place, byte) for place in range(0, len(data), step) for byte in sorted(set(others(data[place])) - {data[place]})]


def main():
    program, words = program_of(__doc__, sys.argv[1:], most=1)
    (step,) = numbers(words, 1)
    elf, proof = os.path.join(DATA, "add.elf"), os.path.join(DATA, "add.proof")
    with tempfile.TemporaryDirectory() as folder, ThreadPoolExecutor(os.cpu_count()) as pool:
        wrong = try_brackets(program, folder, elf, BRACKETS // step)
        small = Small(program, folder, elf, proof)
        for name, work, cases in (
            ("fronts of the text", small.cut, range(0, len(small.text), step)),
            ("changes of the text", small.change_text, changes(small.text, step, lambda old: OTHERS)),
            ("changes of the ELF file", small.change_elf, changes(small.code, step, lambda old: (0, 0xFF, old ^ 1, old ^ 0x80))),
        ):
            start = time.perf_counter()
            found = [why for some in pool.map(work, cases) for why in some]
            print(f"{name}: {len(cases)}, {len(found)} that end otherwise, {time.perf_counter() - start:.1f} s", flush=True)
            wrong += found
    for why in wrong:
        print(why)
    return 1 if wrong else 0


if __name__ == "__main__":
    sys.exit(main())
