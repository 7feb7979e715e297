#!/usr/bin/env python3
"""run.py [PROGRAM]: how fast the command `run` of a built program is, and how much memory it takes.

It makes ELF files in a folder that it removes again, runs the program on each, and prints a table. The peak is the
largest resident set of the child, as the system counts it.
"""
import os
import sys
import tempfile

sys.path.insert(0, os.path.join(os.path.dirname(os.path.abspath(__file__)), "..", "library"))
from elf_files import BASE, write_elf
from instructions import RETURN, arithmetic, immediate, load, store, words
from measuring import MIB, measure
from programs import program_of

DATA = 0x100000
LOOP_STEPS = 10_000_000
SYMBOLS = 100_000

# Each loop has ten instructions; the last jumps to x5, which holds the address of the first.
AGAIN = 5 << 15 | 0x67
ARITHMETIC = [
    immediate(0, 11, 11, 1),
    arithmetic(0, 0, 10, 10, 11),
    arithmetic(0x20, 0, 12, 10, 11),
    arithmetic(0, 4, 13, 12, 10),
    arithmetic(0, 6, 14, 13, 11),
    arithmetic(0, 7, 15, 14, 12),
    immediate(1, 16, 15, 3),
    immediate(5, 17, 16, 5),
    arithmetic(0, 3, 18, 17, 10),
    AGAIN,
]
# mul, mulh, mulhsu, mulhu, div, divu, rem, remu
PRODUCTS = [arithmetic(1, funct3, 12 + funct3, 10, 11) for funct3 in range(8)] + [immediate(0, 11, 11, 1), AGAIN]
# ld, sd, lw, sw, lhu, sh, lbu, sb
ACCESSES = [
    load(3, 10, 20, 0),
    store(3, 10, 20, 8),
    load(2, 11, 20, 4),
    store(2, 11, 20, 12),
    load(5, 12, 20, 2),
    store(1, 12, 20, 6),
    load(4, 13, 20, 1),
    store(0, 13, 20, 3),
    immediate(0, 14, 14, 1),
    AGAIN,
]
# ld and sd in turn, each in a segment of its own
SCATTERED = [(load if i % 2 == 0 else store)(3, 10, 20 + i, 8) for i in range(8)] + [immediate(0, 14, 14, 1), AGAIN]
BASES = [DATA * (i + 1) for i in range(8)]


def loop(code, data=()):
    """A case of ten million steps in a loop of ten, over these segments."""
    bases = [f"x{20 + i}={segment[0]:#x}" for i, segment in enumerate(data)]
    arguments = ["0x10000", "0x0", str(LOOP_STEPS), "x5=0x10000", "x10=0xfedcba9876543210", *bases]
    return [(BASE, words(code), 40, 40), *data], (), arguments, b"steps used\n", LOOP_STEPS


def begin(file_size, memory_size):
    """A case of no steps, over one segment of these sizes."""
    return [(BASE, words([RETURN]), file_size, memory_size)], (), ["0x10000", "0x10000", "0"], b"met 0\n", 0


def named(count):
    """A case of no steps, from the last of that many functions."""
    symbols = [(f"function_{i}", BASE + 4 * i) for i in range(count)]
    name, value = symbols[-1]
    return [(BASE, words([RETURN]), 4, 4)], symbols, [name, f"{value:#x}", "0"], b"met 0\n", 0


def main():
    program, _ = program_of(__doc__, sys.argv[1:])
    segments = [(at, bytes(range(256)), 256, 256) for at in BASES]
    cases = {
        "nothing": begin(4, 4),
        "arithmetic": loop(ARITHMETIC),
        "products and quotients": loop(PRODUCTS),
        "accesses, 1 segment": loop(ACCESSES, segments[:1]),
        "accesses, 8 segments": loop(SCATTERED, segments),
        "100,000 symbols": named(SYMBOLS),
        "file of 64 MiB": begin(64 * MIB - 120, 64 * MIB - 120),
        "segment of 1 GiB": begin(4, 1024 * MIB),
    }
    print(f"{'case':24} {'seconds':>9} {'peak MiB':>9} {'steps a second':>15}")
    with tempfile.TemporaryDirectory() as folder:
        path = os.path.join(folder, "e")
        for name, (data, symbols, arguments, expected, steps) in cases.items():
            write_elf(path, data, symbols)
            lines, seconds, peak = measure(program, ["run", path, *arguments])
            if not lines.startswith(expected):
                sys.exit(f"{name}: {lines[:200]!r}")
            rate = f"{steps / seconds:15,.0f}" if steps else f"{'':15}"
            print(f"{name:24} {seconds:9.2f} {peak / MIB:9.0f} {rate}")


if __name__ == "__main__":
    main()
