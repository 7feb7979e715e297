#!/usr/bin/env python3
"""compare.py [--counts] TEXTS PROGRAM PROGRAM..: how long `check` of several built programs takes on the same texts, and how much memory.

TEXTS is an ELF file, all of whose functions that are inside are one text, or `groups`, `one` or `shapes`, with commas between several of these:

- groups: those of check.py, many groups, of 4, 16, 64 and 256 MiB;
- one: that of check.py, a single group of 64 MiB;
- shapes: what the first program decompiles of the four functions of decompile.py, of 1,024 instructions, or with --counts of 256.

The programs are run on a text in turn, five times each and on, until one of them has had ten seconds, so that what else the machine does meets them alike.
Of each the least seconds of a processor are told, MB a second, and the greatest peak; with --counts in their place how many instructions it executes, by one
run under Valgrind, which takes a hundred times as long and needs no quiet machine. The files stand in a folder that is removed again. The exit status is 1
where two programs say otherwise.
"""
import os
import subprocess
import sys
import tempfile

FOLDER = os.path.dirname(os.path.abspath(__file__))
sys.path += [os.path.join(FOLDER, "..", "library"), os.path.join(FOLDER, "..", "..", "tools")]
import check
from decompile import NAME, SHAPES
from elf_files import BASE, write_elf
from instructions import words
from mc.functions import Functions
from measuring import MIB, executed, measure

TIMES, ENOUGH = 5, 10


class Bench:
    def __init__(self, programs, folder):
        self.programs, self.folder, self.failed = programs, folder, 0
        self.elf, self.text = (os.path.join(folder, name) for name in ("elf", "text"))

    def decompile(self, elf, names):
        told = subprocess.run([self.programs[0], "decompile", elf, self.text, *names], stdout=subprocess.DEVNULL, check=False)
        return told.returncode == 0

    def run(self, program, elf):
        lines, seconds, peak = measure(program, ["check", elf, self.text])
        return lines.decode(), seconds, peak

    def judge(self, case, lines):
        if len(set(lines)) > 1 or not lines[0].startswith("accepted "):
            self.failed += 1
            print(f"{case}: {lines}", flush=True)

    def measure(self, case, elf):
        """The programs in turn, each turn beginning with another."""
        runs = {program: [] for program in self.programs}
        order, spent = list(self.programs), 0
        while min(map(len, runs.values())) < TIMES or spent < ENOUGH:
            for program in order:
                runs[program].append(self.run(program, elf))
            order.append(order.pop(0))
            spent = max(sum(seconds for _, seconds, _ in of_one) for of_one in runs.values())
        self.judge(case, [line for of_one in runs.values() for line, _, _ in of_one])
        length = os.path.getsize(self.text)
        cells = []
        for of_one in runs.values():
            seconds, peak = min(seconds for _, seconds, _ in of_one), max(peak for _, _, peak in of_one)
            cells.append(f"{seconds:9.2f} {length / 1e6 / max(seconds, 1e-3):8.1f} {peak / MIB:7.0f}")
        print(f"{case:24} {length / 1e6:8.2f} {' '.join(cells)}", flush=True)

    def count(self, case, elf):
        """Billions of instructions, and instructions a byte."""
        length, cells, lines = os.path.getsize(self.text), [], []
        for program in self.programs:
            told, count = executed(program, ["check", elf, self.text])
            lines.append(told)
            cells.append(f"{count / 1e9:9.3f} {count / length:8.1f} {'':7}")
        self.judge(case, lines)
        print(f"{case:24} {length / 1e6:8.2f} {' '.join(cells)}", flush=True)


def texts(bench, what, largest):
    """Writes the texts one after the other, and gives the name and the ELF file of each."""
    if what in ("groups", "one"):
        text, lines = check.group()
        check.write_code(bench.elf)
        for size in check.SIZES if what == "groups" else ():
            check.write_text(bench.text, text, size * MIB // len(text))
            yield f"groups, {size} MiB", bench.elf
        if what == "one":
            check.write_one_group(bench.text, text, lines, check.ONE * MIB)
            yield f"one group, {check.ONE} MiB", bench.elf
    elif what == "shapes":
        for shape in SHAPES:
            code = words(shape(largest))
            write_elf(bench.elf, [(BASE, code, len(code), len(code))])
            if not bench.decompile(bench.elf, [NAME]):
                sys.exit(f"{shape.__name__}: refused")
            yield shape.__name__, bench.elf
    else:
        inside = [word for word in Functions(what).words.values() if bench.decompile(what, [word])]
        if not bench.decompile(what, inside):
            sys.exit(f"{what}: no function is inside")
        yield f"{len(inside)} functions of ELF", what


def main():
    arguments = sys.argv[1:]
    counts = arguments[:1] == ["--counts"]
    asked, *programs = arguments[counts:] or [""]
    if len(programs) < 2:
        sys.exit(__doc__)
    with tempfile.TemporaryDirectory() as folder:
        bench = Bench([os.path.abspath(program) for program in programs], folder)
        head = " ".join(f"{os.path.basename(program)[-26:]:>26}" for program in programs)
        units = ("10^9", "a byte", "") if counts else ("seconds", "MB/s", "MiB")
        print(f"{'':33} {head}\n{'text':24} {'MB':>8} {' '.join(len(programs) * [f'{units[0]:>9} {units[1]:>8} {units[2]:>7}'])}")
        for what in asked.split(","):
            for case, elf in texts(bench, what, 256 if counts else 1024):
                (bench.count if counts else bench.measure)(case, elf)
    return 1 if bench.failed else 0


if __name__ == "__main__":
    sys.exit(main())
