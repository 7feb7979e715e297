#!/usr/bin/env python3
"""table.py [--beside OTHER] [PROGRAM] ELF..: what proofs of real functions cost: how long they are in both versions, and how fast `check` and `decompile` are.

The functions of an ELF file are those that PROGRAM takes, each by itself; OTHER must take them too, and has a second column. The table has

- bytes an instruction of versions 1 and 2: of all functions together, and of the function in the middle;
- how many instructions `check` executes for a byte of version 1, by one run under Valgrind: of the shapes of decompile.py with 256 instructions, and of the
  largest function of each file;
- the seconds of `check` on all functions in version 2, in percent of those in version 1;
- microseconds an instruction of `check` on version 1 and of `decompile`, of all functions and of the largest one. `check` has the largest function's group again
  and again, in 4 MiB; of `decompile` on the largest what it takes on the smallest is taken off, which is mostly reading the file;
- MB a second of `check` on version 1 of all functions, and of `sha256sum` and `wc -w` on the same text.

Seconds are those of a processor, the least of five runs, and of 25 where one function is decompiled; what is compared runs in turn. The files stand in a
folder that is removed again. The exit status is 1 where a text isn't accepted, or in version 2 with other numbers.
"""
import os
import re
import shutil
import statistics
import subprocess
import sys
import tempfile

FOLDER = os.path.dirname(os.path.abspath(__file__))
sys.path += [os.path.join(FOLDER, "..", "library"), os.path.join(FOLDER, "..", "..", "tools")]
from decompile import NAME, SHAPES, TIMES, write_groups
from elf_files import BASE, write_elf
from instructions import words
from mc.functions import Functions
from measuring import MIB, executed, measure
from programs import is_program, program_of

SIZE, LONG, MOST = 256, 4 * MIB, 25
TOOLS = {"sha256sum": [], "wc": ["-w"]}


def in_turn(commands, times=TIMES):
    """The least seconds of each of these commands."""
    runs = [[measure(program, arguments)[1] for program, *arguments in commands] for _ in range(times)]
    return [max(min(of_one), 1e-6) for of_one in zip(*runs)]


def groups(path):
    """The texts of the groups of a proof file."""
    with open(path, encoding="latin-1") as file:
        _, *found = re.split("^(?=group )", file.read().removesuffix("end\n"), flags=re.M)
    return found


def show(row, cells):
    print(f"{row:64} {' '.join(f'{cell:>9}' for cell in cells)}", flush=True)


class Side:
    """A program, and what it makes of the functions of a file."""

    def __init__(self, program, folder, number):
        self.program = program
        self.text, self.table, self.one, self.out = (os.path.join(folder, f"{name}-{number}") for name in ("text", "table", "one", "out"))

    def say(self, *arguments):
        return subprocess.run([self.program, *arguments], capture_output=True, text=True, check=False).stdout

    def takes(self, elf, name):
        return self.say("decompile", elf, self.text, name).startswith("decompiled ")

    def make(self, elf, names):
        """Writes the texts of these functions, and gives the instructions of each."""
        told = [line.split() for line in self.say("decompile", elf, self.text, *names).splitlines()]
        if [line[0] for line in told] != ["decompiled"] * len(names):
            sys.exit(f"{elf}: {self.program} says {told[:1]}")
        migrated, *checked = self.say("migrate", elf, self.text, self.table), self.say("check", elf, self.text), self.say("check", elf, self.table)
        if not checked[0].startswith("accepted ") or set(checked) != {migrated.replace("migrated", "accepted")}:
            sys.exit(f"{elf}: migrate says {migrated!r}, check {checked}")
        self.versions = groups(self.text), groups(self.table)
        return [int(line[3]) for line in told]

    def write_one(self, number, size):
        """Writes a text of the group of this number, again and again up to that many bytes, and gives how often."""
        group = self.versions[0][number]
        write_groups(self.one, group, size)
        return max(1, size // len(group))

    def count(self, elf, text):
        """The instructions that `check` executes for a byte of the text."""
        return f"{executed(self.program, ['check', elf, text])[1] / os.path.getsize(text):.1f}"


def count_shapes(sides, elf):
    """Prints the rows of the shapes of decompile.py."""
    for shape in SHAPES:
        code = words(shape(SIZE))
        write_elf(elf, [(BASE, code, len(code), len(code))])
        if not all(side.takes(elf, NAME) for side in sides):
            sys.exit(f"{shape.__name__}: refused")
        show(f"instructions a byte, check: {shape.__name__}", [side.count(elf, side.text) for side in sides])


def measure_lengths(sides, sizes):
    for version in (0, 1):
        texts = [side.versions[version] for side in sides]
        show(f"bytes an instruction, version {version + 1}: all", [f"{sum(map(len, found)) / sum(sizes):.0f}" for found in texts])
        middles = [statistics.median(len(text) / size for text, size in zip(found, sizes)) for found in texts]
        show(f"bytes an instruction, version {version + 1}: the function in the middle", [f"{middle:.0f}" for middle in middles])


def measure_all(sides, elf, names, instructions):
    """Prints the rows of all functions together."""
    commands = [[side.program, "decompile", elf, side.out, *names] for side in sides]
    made = in_turn(commands)
    commands = [[side.program, "check", elf, text] for side in sides for text in (side.text, side.table)]
    commands += [[shutil.which(tool), *options, side.text] for side in sides for tool, options in TOOLS.items()]
    took = in_turn(commands)
    whole, short = took[: 2 * len(sides) : 2], took[1 : 2 * len(sides) : 2]
    show("check of version 2, % of version 1", [f"{100 * two / one:.0f}" for one, two in zip(whole, short)])
    show("microseconds an instruction, check: all", [f"{1e6 * seconds / instructions:.1f}" for seconds in whole])
    show("microseconds an instruction, decompile: all", [f"{1e6 * seconds / instructions:.1f}" for seconds in made])
    for row, seconds in ("check", whole), ("sha256sum", took[2 * len(sides) :: 2]), ("wc -w", took[2 * len(sides) + 1 :: 2]):
        show(f"MB a second, {row}: all", [f"{os.path.getsize(side.text) / 1e6 / each:.0f}" for side, each in zip(sides, seconds)])


def measure_largest(sides, elf, names, sizes):
    """Prints the rows of the largest function."""
    most, least = (sizes.index(size) for size in (max(sizes), min(sizes)))
    counts = []
    for side in sides:
        side.write_one(most, 1)
        counts.append(side.count(elf, side.one))
    copies = [side.write_one(most, LONG) for side in sides]
    checked = in_turn([[side.program, "check", elf, side.one] for side in sides])
    made = in_turn([[side.program, "decompile", elf, side.out, names[number]] for side in sides for number in (most, least)], MOST)
    apart = [large - small for large, small in zip(made[::2], made[1::2])]
    show(f"instructions a byte, check: {names[most]}", counts)
    show(f"microseconds an instruction, check: {names[most]}", [f"{1e6 * seconds / count / sizes[most]:.1f}" for seconds, count in zip(checked, copies)])
    show(f"microseconds an instruction, decompile: {names[most]}", [f"{1e6 * seconds / max(1, sizes[most] - sizes[least]):.1f}" for seconds in apart])


def main():
    arguments = sys.argv[1:]
    other = arguments[1:2] if arguments[:1] == ["--beside"] else []
    if not all(map(is_program, other)):
        sys.exit(__doc__)
    program, elves = program_of(__doc__, arguments[2 * len(other) :], 1, len(arguments))
    with tempfile.TemporaryDirectory() as folder:
        sides = [Side(os.path.abspath(path), folder, number) for number, path in enumerate([program, *other])]
        show("", ["PROGRAM", "OTHER"][: len(sides)])
        count_shapes(sides, os.path.join(folder, "elf"))
        for elf in elves:
            names = [word for word in Functions(elf).words.values() if sides[0].takes(elf, word)]
            if not names:
                sys.exit(f"{elf}: no function is inside")
            *_, sizes = (side.make(elf, names) for side in sides)
            print(f"\n{os.path.basename(elf)}: {len(names)} functions, {sum(sizes)} instructions, at most {max(sizes)}")
            measure_lengths(sides, sizes)
            measure_all(sides, elf, names, sum(sizes))
            measure_largest(sides, elf, names, sizes)


if __name__ == "__main__":
    main()
