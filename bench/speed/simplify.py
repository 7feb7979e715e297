#!/usr/bin/env python3
"""simplify.py [PROGRAM] [LARGEST [ELF]]: how fast the commands `simplify` and `laws` of a built program are, how much memory they take, and how much smaller
real functions get.

The functions have LARGEST instructions, 1,024 where it isn't given, as many as one function may have, and a half, a fourth and an eighth of that. Four shapes are
those of decompile.py, whose largest texts are about the largest that one function has. Two more are for many steps:

- copies: moves between registers and a return: each is a term that a law makes smaller;
- tree: a move and a branch at each node of a binary tree, and a return at each leaf: one definition, of which each path has a few instructions.

Of each function it makes an ELF file in a folder that it removes again, decompiles it, simplifies the text and has the certificate judged, and tells the seconds
of a processor and the peak of memory. It tells the slope of the seconds over the text's bytes, both in logarithms: 1 is in proportion.

Then it simplifies each function of ELF, `bench/comparison/functions.elf` where it isn't given, that is inside: how many steps a certificate has, and how many
nodes the terms of its definitions before and after them. The exit status is 1 where a certificate isn't accepted.
"""
import os
import resource
import sys
import tempfile

FOLDER = os.path.dirname(os.path.abspath(__file__))
sys.path += [os.path.join(FOLDER, "..", "library"), os.path.join(FOLDER, "..", "..", "tools")]
from decompile import NAME, SHAPES, slope
from elf_files import BASE, write_elf
from instructions import RETURN, branch, immediate, words
from mc.functions import Functions
from measuring import MIB, given_words, measure_work

FUNCTIONS = os.path.join(FOLDER, "..", "comparison", "functions.elf")
LIMIT, MEMORY = 3600, resource.RLIM_INFINITY
# How many atoms of a line of a body stand before its terms.
BEFORE = {"let": 1, "letm": 1, "need": 1, "if": 1, "again": 1, "leave": 2, "call": 3}


def copies(size):
    return [immediate(0, 2 + i % 30, 1 + i % 29, 0) for i in range(size - 1)] + [RETURN]


def tree(size):
    """Each node has two instructions, each leaf one. The first child stands behind the node, the second behind the first."""

    def node(leaves):
        if leaves == 1:
            return [RETURN]
        first, second = node(leaves // 2), node(leaves - leaves // 2)
        return [immediate(0, 2 + leaves % 30, 1 + leaves % 29, 0), branch(1, 1 + leaves % 31, 1 + (leaves + 7) % 31, 4 * len(first) + 4), *first, *second]

    return node((size + 2) // 3)


class Bench:
    def __init__(self, program, folder):
        self.program, self.folder, self.failed = program, folder, 0

    def path(self, name):
        return os.path.join(self.folder, name)

    def say(self, *arguments):
        """The first line, the seconds of a processor, and the peak in bytes."""
        _, line, seconds, peak = measure_work(self.program, arguments, LIMIT, MEMORY, self.path("said"))
        return line, seconds, peak

    def decompile(self, elf, name):
        return self.say("decompile", elf, self.path("text"), name)[0].startswith("decompiled ")

    def simplify(self, name):
        """The steps of the certificate of a function of the text, and what making and judging it took."""
        told, *made = self.say("simplify", self.path("text"), name, self.path("laws"))
        judged, *judging = self.say("laws", self.path("text"), self.path("laws"))
        steps = told.removeprefix("simplified ")
        if not told.startswith("simplified ") or judged != f"accepted {steps}":
            self.failed += 1
            print(f"{name}: simplify says {told[:100]!r}, laws {judged[:100]!r}", flush=True)
        return steps, made, judging


def measure_shape(bench, shape, largest):
    points = []
    for size in (largest // 8, largest // 4, largest // 2, largest):
        code = words(shape(size))
        write_elf(bench.path("elf"), [(BASE, code, len(code), len(code))])
        if not bench.decompile(bench.path("elf"), NAME):
            sys.exit(f"{shape.__name__} of {size}: refused")
        steps, made, judging = bench.simplify(NAME)
        length = os.path.getsize(bench.path("text"))
        points.append((length, made[0], judging[0]))
        cells = [f"{seconds:9.2f} {peak / MIB:9.0f}" for seconds, peak in (made, judging)]
        print(f"{shape.__name__:10} {len(code) // 4:6} {length / 1e6:9.2f} {steps:>8} {cells[0]} {cells[1]}", flush=True)
    slopes = [slope([(point[0], point[i]) for point in points]) for i in (1, 2)]
    print(f"{'':10} slope of simplify: {slopes[0]:.2f}, of laws: {slopes[1]:.2f}", flush=True)


def nodes(path):
    """The nodes of the terms before and behind the steps of a certificate."""
    counts, place = [0, 0], 0
    with open(path, encoding="latin-1") as file:
        for line in file:
            head, *atoms = line.replace("(", "").replace(")", "").replace(";", "").split()
            if head == "result":
                place = 1
            counts[place] += 1 + len(atoms) - BEFORE[head] if head in BEFORE else 0
    return counts


def measure_functions(bench, elf):
    functions = Functions(elf)
    total, smaller = [0, 0, 0], 0
    print(f"\n{'function':32} {'steps':>8} {'nodes before':>13} {'after':>8}")
    count = 0
    for address, name in functions.names.items():
        word = functions.words[address]
        if not bench.decompile(elf, word):
            continue
        steps, _, _ = bench.simplify(word)
        before, after = nodes(bench.path("laws"))
        count, smaller = count + 1, smaller + (after < before)
        total = [a + b for a, b in zip(total, (int(steps), before, after))]
        print(f"{name[:32]:32} {steps:>8} {before:13} {after:8}", flush=True)
    print(f"{count} functions, {smaller} of them smaller: {total[0]} steps, {total[1]} nodes before, {total[2]} after: {100 * (1 - total[2] / total[1]):.1f} % less")


def main():
    program, largest, elf = given_words(__doc__, FUNCTIONS)
    with tempfile.TemporaryDirectory() as folder:
        bench = Bench(program, folder)
        head = f"{'seconds':>9} {'peak MiB':>9}"
        print(f"{'':36} {'simplify':>19} {'laws':>19}")
        print(f"{'function':10} {'instr':>6} {'text MB':>9} {'steps':>8} {head} {head}")
        for shape in (*SHAPES, copies, tree):
            measure_shape(bench, shape, largest)
        measure_functions(bench, elf)
    return 1 if bench.failed else 0


if __name__ == "__main__":
    sys.exit(main())
