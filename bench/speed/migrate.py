#!/usr/bin/env python3
"""migrate.py [PROGRAM] [LARGEST [ELF]]: how much shorter texts of version 2 are than those of version 1 of which the command `migrate` of a built program makes
them, and how long `check` takes of both.

The texts are those of the other scripts here: of check.py, of many groups in several lengths; of decompile.py and simplify.py, the function of LARGEST
instructions, 1,024 where it isn't given, of each shape; and the text of all functions of ELF, `bench/comparison/functions.elf` where it isn't given, that are
inside. Of each it tells the bytes of both versions and their ratio, the seconds and the peak of `migrate`, and the least seconds of five runs of `check` of
both, with their peaks. The files stand in a folder that is removed again. The exit status is 1 where a text isn't accepted, or in version 2 with other numbers.
"""
import os
import subprocess
import sys
import tempfile

FOLDER = os.path.dirname(os.path.abspath(__file__))
sys.path += [os.path.join(FOLDER, "..", "library"), os.path.join(FOLDER, "..", "..", "tools")]
import check
from decompile import NAME, SHAPES, least
from elf_files import BASE, write_elf
from instructions import words
from mc.functions import Functions
from measuring import MIB, given_words, measure
from simplify import FUNCTIONS, copies, tree

SIZES = (4, 16, 64)


class Bench:
    def __init__(self, program, folder):
        self.program, self.failed = program, 0
        self.elf, self.text, self.table = (os.path.join(folder, name) for name in ("elf", "text", "table"))

    def decompile(self, elf, names):
        return subprocess.run([self.program, "decompile", elf, self.text, *names], stdout=subprocess.DEVNULL, check=False).returncode == 0

    def compare(self, case, elf):
        """Migrates the text, and checks both."""
        told, *made = measure(self.program, ["migrate", elf, self.text, self.table])
        whole, *of_whole = least(self.program, ["check", elf, self.text])
        counts = whole.removeprefix(b"accepted")
        if told != b"migrated" + counts:
            self.failed += 1
            print(f"{case}: migrate says {told[:100]!r}, check {whole[:100]!r}", flush=True)
            return
        short, *of_short = least(self.program, ["check", elf, self.table])
        if short != whole:
            self.failed += 1
            print(f"{case}: check says {whole[:100]!r}, and of version 2 {short[:100]!r}", flush=True)
            return
        one, two = os.path.getsize(self.text), os.path.getsize(self.table)
        cells = " ".join(f"{seconds:9.2f} {peak / MIB:9.0f}" for seconds, peak in (made, of_whole, of_short))
        print(f"{case:24} {one / 1e6:9.2f} {two / 1e6:9.2f} {two / one:6.2f} {cells}", flush=True)


def compare_groups(bench):
    text, _ = check.group()
    check.write_code(bench.elf)
    for size in SIZES:
        check.write_text(bench.text, text, max(1, size * MIB // len(text)))
        bench.compare(f"groups, {size} MiB", bench.elf)


def compare_shapes(bench, largest):
    for shape in (*SHAPES, copies, tree):
        code = words(shape(largest))
        write_elf(bench.elf, [(BASE, code, len(code), len(code))])
        if not bench.decompile(bench.elf, [NAME]):
            sys.exit(f"{shape.__name__} of {largest}: refused")
        bench.compare(f"{shape.__name__} of {largest}", bench.elf)


def compare_functions(bench, elf):
    inside = [word for word in Functions(elf).words.values() if bench.decompile(elf, [word])]
    if not bench.decompile(elf, inside):
        sys.exit(f"{elf}: no function is inside")
    bench.compare(f"{len(inside)} functions of ELF", elf)


def main():
    program, largest, elf = given_words(__doc__, FUNCTIONS)
    with tempfile.TemporaryDirectory() as folder:
        bench = Bench(program, folder)
        pair = f"{'seconds':>9} {'peak MiB':>9}"
        print(f"{'':24} {'version 1':>9} {'version 2':>9} {'':6} {'migrate':>19} {'check, version 1':>19} {'check, version 2':>19}")
        print(f"{'text':24} {'MB':>9} {'MB':>9} {'ratio':>6} {pair} {pair} {pair}")
        compare_groups(bench)
        compare_shapes(bench, largest)
        compare_functions(bench, elf)
    return 1 if bench.failed else 0


if __name__ == "__main__":
    sys.exit(main())
