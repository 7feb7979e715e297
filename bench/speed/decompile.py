#!/usr/bin/env python3
"""decompile.py [PROGRAM] [LARGEST]: how fast the commands `decompile`, `check` and `eval` of a built program are on functions of LARGEST
instructions, and how much memory they take.

LARGEST is 1,024 where it isn't given, as many as one function may have. The functions use all 31 registers:

- straight: additions and a return;
- diamonds: a loop in which each instruction is a branch to the next two, with 8 exits;
- armed: inner loops of 8 instructions and 8 exits, one after the other in a loop of 8 exits;
- deep: loops in loops, two instructions each, with 8 exits each.

The texts of the last three are about the largest that one function has. Of each, and of a half, a fourth and an eighth of its instructions, it makes
an ELF file in a folder that it removes again, decompiles it and checks the text, five times each, and tells the least seconds of these. It tells
the slope of the seconds over the text's bytes, both in logarithms: 1 is in proportion. At last it evaluates a function of texts that have the group
of the straight function again and again, with its proof: 8, 16, 32 and 64 MiB, or less by as much as LARGEST is below 1,024.
"""
import math
import os
import sys
import tempfile

sys.path.insert(0, os.path.join(os.path.dirname(os.path.abspath(__file__)), "..", "library"))
from elf_files import BASE, write_elf
from instructions import RETURN, arithmetic, branch, jump, words
from measuring import MIB, measure
from programs import numbers, program_of

NAME = f"{BASE:#x}"
EXITS = 8
TIMES = 5
TEXTS = (8, 16, 32, 64)


def leave(i, place, target):
    """A branch on two of the registers."""
    return branch(1, 1 + i % 31, 1 + (i + 7) % 31, 4 * (target - place))


def straight(size):
    return [arithmetic(0, 0, 2 + i % 30, 2 + i % 30, 1 + i % 30) for i in range(size - 1)] + [RETURN]


def diamonds(size):
    inside = size - 1 - EXITS
    apart = inside // EXITS
    code = []
    for i in range(inside):
        is_exit = i % apart == 0 and i // apart < EXITS
        code.append(leave(i, i, inside + 1 + i // apart if is_exit else min(i + 2, inside)))
    return code + [jump(-4 * inside)] + [RETURN] * EXITS


def armed(size):
    loops = (size - 2 - EXITS) // EXITS
    last = 1 + loops * EXITS
    code = [arithmetic(0, 0, 2, 2, 1)]
    for head in range(1, last, EXITS):
        code += [leave(head + i, head + i, last + 2 + i) for i in range(EXITS - 1)]
        code.append(leave(head, head + EXITS - 1, head))
    return code + [leave(0, last, 0)] + [RETURN] * EXITS


def deep(size):
    loops = (size - EXITS) // 2
    code = [leave(i, i, 2 * loops + 1 + i % (EXITS - 1)) for i in range(loops)]
    code += [leave(i, 2 * loops - 1 - i, i) for i in reversed(range(loops))]
    return code + [RETURN] * EXITS


SHAPES = (straight, diamonds, armed, deep)


def least(program, arguments):
    """Runs the program so many times, and gives its output, the least seconds that it took and its peak in bytes."""
    runs = [measure(program, arguments) for _ in range(TIMES)]
    return runs[0][0], min(seconds for _, seconds, _ in runs), max(peak for _, _, peak in runs)


class Measured:
    """What decompiling and checking a function took."""

    def __init__(self, program, folder, shape, size):
        self.code = shape(size)
        self.text = os.path.join(folder, f"{shape.__name__}-{size}")
        code = words(self.code)
        elf = self.text + ".elf"
        write_elf(elf, [(BASE, code, len(code), len(code))])
        told, *self.decompile = least(program, ["decompile", elf, self.text, NAME])
        begin = f"decompiled {NAME} {NAME} {len(self.code)} ".encode()
        if not told.startswith(begin):
            sys.exit(f"decompile, {shape.__name__} of {size}: {told[:200]!r}")
        self.definitions = int(told.split()[4])
        self.bytes = os.path.getsize(self.text)
        told, *self.check = least(program, ["check", elf, self.text])
        if not told.startswith(b"accepted 1 "):
            sys.exit(f"check, {shape.__name__} of {size}: {told[:200]!r}")
        self.lines = int(told.split()[2])

    def show(self, name):
        took = [f"{seconds:9.2f} {peak / MIB:9.0f}" for seconds, peak in (self.decompile, self.check)]
        print(f"{name:10} {len(self.code):6} {self.definitions:6} {self.lines:7} {self.bytes / 1e6:9.2f} {took[0]} {took[1]}", flush=True)


def slope(points):
    """The slope of the line that fits best, over logarithms."""
    xs, ys = ([math.log(max(point[i], 1e-6)) for point in points] for i in (0, 1))
    x, y = sum(xs) / len(xs), sum(ys) / len(ys)
    return sum((a - x) * (b - y) for a, b in zip(xs, ys)) / sum((a - x) ** 2 for a in xs)


def write_groups(path, group, size):
    """Writes a text of about that many bytes, of this group again and again."""
    with open(path, "w") as file:
        file.write("mcproof 1\n")
        for _ in range(max(1, int(size) // len(group))):
            file.write(group)
        file.write("end\n")


def measure_eval(program, text, share):
    """Evaluation of the first function of a long text, which is read to its end."""
    with open(text) as file:
        group = file.read()[len("mcproof 1\n") : -len("end\n")]
    print(f"\n{'eval, MiB':10} {'seconds':>9} {'peak MiB':>9} {'MB a second':>12} {'bytes kept a byte':>18}")
    for size in TEXTS:
        write_groups(text, group, size * MIB * share)
        length = os.path.getsize(text)
        told, seconds, peak = measure(program, ["eval", text, NAME, "99", "x1=0x2000"])
        if not told.startswith(b"done "):
            sys.exit(f"eval, {length} bytes: {told[:200]!r}")
        print(f"{length / MIB:10.1f} {seconds:9.2f} {peak / MIB:9.0f} {length / 1e6 / seconds:12.2f} {peak / length:18.2f}", flush=True)


def main():
    program, words = program_of(__doc__, sys.argv[1:], most=1)
    (largest,) = numbers(words, 1024)
    head = f"{'seconds':>9} {'peak MiB':>9}"
    print(f"{'':41} {'decompile':>19} {'check':>19}")
    print(f"{'function':10} {'instr':>6} {'defs':>6} {'lines':>7} {'text MB':>9} {head} {head}")
    with tempfile.TemporaryDirectory() as folder:
        for shape in SHAPES:
            found = []
            for size in (largest // 8, largest // 4, largest // 2, largest):
                found.append(Measured(program, folder, shape, size))
                found[-1].show(shape.__name__)
            for name in ("decompile", "check"):
                print(f"{'':10} slope of {name}: {slope([(one.bytes, getattr(one, name)[0]) for one in found]):.2f}", flush=True)
        measure_eval(program, os.path.join(folder, f"straight-{largest}"), largest / 1024)


if __name__ == "__main__":
    main()
