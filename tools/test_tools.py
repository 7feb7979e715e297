#!/usr/bin/env python3
"""test_tools.py [PROGRAM | --no-program]: tries the tools on the examples. It takes a minute or two of a processor.

The program is PROGRAM, or that which `./mc` takes: the proved one, else one that was built without proof, which is done first where there is none. With
`--no-program` what needs none is tried, and nothing is built.

The tests of tools/tests. Of the program: each example is decompiled, linked or split to the text that stands there, and exported to the script; the lines are those
of examples/README.md and TUTORIAL.md, and `mc functions` tells which functions are refused. tools/documents.py checks the documents themselves.
"""
import os
import re
import shutil
import subprocess
import sys
import tempfile

TOOLS = os.path.dirname(os.path.abspath(__file__))
TOP = os.path.dirname(TOOLS)
EXAMPLES = os.path.join(TOP, "examples")
sys.path.insert(0, TOOLS)
from mc import program as built

SHOWN = ("gcd", "sum", "strlen", "average")
LINKED = ("linked", "lcm")
SPLIT = ("split", "swap")
# Lines of what `eval` says of each function, where examples/README.md evaluates it.
EVALUATED = {
    "gcd": ("done 6", "x10 0xc"),
    "sum": ("x10 0x6",),
    "strlen": ("x10 0x5",),
    "lcm": ("done 8", "x10 0xc"),
    "swap": ("mem 0x8000 0200000000000000", "mem 0x9000 0100000000000000"),
}
# The files that the commands of docs/TUTORIAL.md read.
TUTORIAL = ("gcd/gcd.elf", "sum/sum.proof", "average/average.elf", "own/my.elf")
LCM = """0x11120  gcd                           7 instructions, 5 definitions
0x11130  lcm                           call 0x11140

2 functions, 1 decompiled, 1 refused
      1  call: calls a function (a jump that keeps where it came from)
docs/COMMANDS.md says of each reason what may help.
"""
faults = []


def expect(what, holds):
    if not holds:
        faults.append(what)


def read(*path):
    with open(os.path.join(EXAMPLES, *path), "rb") as file:
        return file.read()


def say(*words):
    """What `./mc` says."""
    done = subprocess.run([os.path.join(TOP, "mc"), *words], capture_output=True, text=True)
    return done.returncode, done.stdout, done.stderr


def try_modules():
    """The tests of tools/tests."""
    words = [sys.executable, "-m", "unittest", "discover", "-q", "-s", os.path.join(TOOLS, "tests"), "-t", TOOLS]
    done = subprocess.run(words, capture_output=True, text=True)
    expect(f"tools/tests:\n{done.stderr}", done.returncode == 0)


def try_program(program, folder):
    for name in SHOWN:
        elf, out = os.path.join(EXAMPLES, name, f"{name}.elf"), os.path.join(folder, name)
        status, lines, _ = say("functions", elf, out)
        expect(f"mc functions {name}", status == 0 and "1 decompiled, 0 refused" in lines and f"{out}: accepted 1 " in lines)
        with open(out, "rb") as file:
            expect(f"the text of {name}", file.read() == read(name, f"{name}.proof"))
    try_answers(program, folder)
    try_tutorial(program, folder)
    elf = os.path.join(EXAMPLES, "refused", "lcm.elf")
    expect("mc functions lcm", say("functions", elf) == (0, LCM, ""))


def try_answers(program, folder):
    """What the page of the examples says that `decompile`, `link`, `split` and `check` say."""
    told = re.findall(r"^\| `(\w+)` \| `(.*?)` \|(?: `(.*?)`)? \|$", document("examples/README.md"), re.M)
    expect("the page of the examples has a row for each", {row[0] for row in told} == {*SHOWN, "refused", LINKED[0], SPLIT[0]})
    for example, decompiled, accepted in told:
        name = decompiled.split()[1]
        elf, proof = os.path.join(EXAMPLES, example, f"{name}.elf"), os.path.join(EXAMPLES, example, f"{name}.proof")
        out = os.path.join(folder, "answers")
        command = {"linked": "link", "split": "split"}.get(decompiled.split()[0], "decompile")
        commands = [([command, elf, out, name], decompiled)] + ([(["check", elf, proof], accepted)] if accepted else [])
        for words, line in commands:
            done = subprocess.run([program, *words], capture_output=True, text=True)
            expect(f"{words[0]} {name}", done.stdout == line + "\n")
        if accepted:
            with open(out, "rb") as file:
                expect(f"the text of {name} by {command}", file.read() == read(example, f"{name}.proof"))
    evaluations = [words.split() for words in re.findall(r"`mc\s(eval\s[^`]*)`", document("examples/README.md"))]
    expect("the page of the examples evaluates these functions", [words[2] for words in evaluations] == list(EVALUATED))
    for words in evaluations:
        example = dict(name[::-1] for name in (LINKED, SPLIT)).get(words[2], words[2])
        words[1], words[-1] = os.path.join(EXAMPLES, example, words[1]), words[-1].replace("STACK", 96 * "0")
        lines = subprocess.run([program, *words], capture_output=True, text=True).stdout.splitlines()
        expect(f"eval {words[2]}", set(EVALUATED[words[2]]) <= set(lines))


def try_tutorial(program, folder):
    """What docs/TUTORIAL.md shows: of each block of commands its lines are those of the next block, where `..` stands for any others."""
    place = os.path.join(folder, "tutorial")
    os.mkdir(place)
    for path in TUTORIAL:
        shutil.copy(os.path.join(EXAMPLES, *path.split("/")), place)
    # What stands behind section 9 is tried by tools/tests/test_tutorial.py, as is what solvers say.
    page = document("docs/TUTORIAL.md").partition("\n## 10. ")[0]
    blocks = re.findall(r"^```\w*\n(.*?)^```$", page, re.M | re.S)
    own = [os.path.join(place, name) for name in ("my.elf", "my.proof")]
    _, lines, _ = say("functions", *own)
    refused = next(block for block in blocks if "  fib  " in block)
    count = re.search(r"with ([0-9]+)\s+lines\s+of\s+proofs", page)[1]
    expect("mc functions on the tutorial's own file", refused in lines and f"{own[1]}: accepted 2 {count}\n" in lines)
    _, shown, _ = say("show", own[1], "crc")
    pieces = next(block.split("..\n") for block in blocks if block.startswith("crc = "))
    expect("mc show on the tutorial's own file", all(piece in shown for piece in pieces))
    expect("the tutorial shows what gcd.txt has", read("gcd", "gcd.txt").decode() in blocks)
    tried = []
    for block, told in zip(blocks, blocks[1:]):
        commands = [line.split()[1:] for line in block.splitlines() if line.startswith("../../mc ")]
        if len(commands) == len(block.splitlines()) and commands[0][0] != "goal":
            lines = "".join(subprocess.run([program, *words], cwd=place, capture_output=True, text=True).stdout for words in commands)
            expect(f"the tutorial's {commands[-1]}", re.fullmatch(re.escape(told).replace(re.escape("..\n"), "(.*\n)*"), lines))
            tried += [words[0] for words in commands]
    expect("the tutorial has each command", tried == "run decompile eval check eval decompile check smt migrate check eval eval".split())
    with open(os.path.join(place, "average.smt2"), "rb") as file:
        expect("the script of average", file.read() == read("average", "average.smt2"))


def document(name):
    with open(os.path.join(TOP, name), encoding="utf8") as file:
        return file.read()


def main():
    if len(sys.argv) > 2 or sys.argv[1:2] in (["-h"], ["--help"]):
        sys.exit(__doc__)
    program = None
    if sys.argv[1:] != ["--no-program"]:
        if sys.argv[1:]:
            os.environ[built.VARIABLE] = os.path.abspath(sys.argv[1])
        try:
            program = os.environ[built.VARIABLE] = str(built.path())
        except built.NoProgram as why:
            sys.exit(str(why))
    with tempfile.TemporaryDirectory() as folder:
        try_modules()
        if program:
            try_program(program, folder)
    if faults:
        sys.exit("\n".join(f"otherwise than expected: {fault}" for fault in faults))
    print("as expected")


if __name__ == "__main__":
    main()
