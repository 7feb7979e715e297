#!/usr/bin/env python3
"""eval.py [PROGRAM]: how fast the command `eval` of a built program is, and how much memory it takes.

It makes proof files in a folder that it removes again, runs the program on each, and prints a table: texts of several lengths that are
read to their ends, a text that ends in ten million open terms, and loops of a million turns.
"""
import os
import sys
import tempfile

sys.path.insert(0, os.path.join(os.path.dirname(os.path.abspath(__file__)), "..", "library"))
from measuring import MIB, measure
from programs import program_of

TURNS = 1_000_000
HEAD = "mcproof 1\n"
FUNCTION = "group f\nregs 10 11\nmems 0\ncode\ndef 0x10000 0x10004\nleave 0 v0 v1 ;\n"
GROUP = """group g
regs 1 10 11 12
mems 1
code (0x10000 3305b5009385f5ffe39c05fe67800000)
def 0x10000 0x1000c
let (add v1 (sltu v2 0x123456789abcdef0))
letm (st8 m0 (add v2 0x8) v4)
need (in4 m1 (sub v4 v3))
if (ltu v4 0x0)
again v0 v4 v2 v3 ; m1
else
leave 0 v0 v3 v4 (ld2 m1 v1) ; m1
def 0x10000 ret
call 0 1 v0 v1 v2 v3 ; m0
arm
leave 0 v0 v4 v5 v6 v7 ; m1
"""
ADDS = """group f
regs 10 11
mems 0
code
def 0x10000 0x10004
let (add v0 v1)
let (add v1 0xffffffffffffffff)
if (ne v3 0x0)
again v2 v3 ;
else
leave 0 v2 v3 ;
"""
ACCESSES = """group f
regs 10 11 12
mems 1
code
def 0x10000 0x10004
letm (st8 m0 v2 (add v0 (ld8 m0 (add v2 0x8))))
let (ld8 m1 v2)
let (add v1 0xffffffffffffffff)
if (ne v4 0x0)
again v3 v4 v2 ; m1
else
leave 0 v3 v4 v2 ; m1
"""


def text(size):
    """A case of reading a text of about that many bytes."""
    count = (size - len(HEAD) - len(FUNCTION)) // len(GROUP)
    return HEAD + GROUP * count + FUNCTION + "end\n", ["1"], b"done 1\n", 0


def brackets(count):
    """A case of that many open terms in one line."""
    return HEAD + FUNCTION.replace("leave", "need " + "(not " * count + "\nleave"), ["1"], b"unreadable text 7\n", 0


def loop(group, size):
    """A case of a million turns, over a memory of that many bytes."""
    memory = [f"mem=0x1000:{'01' * size}"] if size else []
    arguments = [str(TURNS), f"x11={TURNS:#x}", "x12=0x1000", *memory]
    return HEAD + group + "end\n", arguments, b"done 1000000\n", TURNS


def main():
    program, _ = program_of(__doc__, sys.argv[1:])
    cases = {f"text of {size} MiB": (text, size * MIB) for size in (8, 16, 32, 64)}
    cases["10 million open terms"] = brackets, 10_000_000
    cases["adds"] = loop, ADDS, 0
    cases["accesses, 64 bytes"] = loop, ACCESSES, 64
    cases["accesses, 4096 bytes"] = loop, ACCESSES, 4096
    print(f"{'case':24} {'seconds':>9} {'peak MiB':>9} {'turns a second':>15}")
    with tempfile.TemporaryDirectory() as folder:
        path = os.path.join(folder, "p")
        for name, (make, *parameters) in cases.items():
            proof, arguments, expected, turns = make(*parameters)
            with open(path, "w") as file:
                file.write(proof)
            del proof  # a child begins with its parent's peak
            lines, seconds, peak = measure(program, ["eval", path, "f", *arguments])
            if not lines.startswith(expected):
                sys.exit(f"{name}: {lines[:200]!r}")
            rate = f"{turns / seconds:15,.0f}" if turns else f"{'':15}"
            print(f"{name:24} {seconds:9.2f} {peak / MIB:9.0f} {rate}")


if __name__ == "__main__":
    main()
