#!/usr/bin/env python3
"""failing.py [PROGRAM] [PROCESSES]: has each call fail by which a built program asks the system for memory or a file, and looks at how it ends.

For each command there is a case, and one that is refused, but for `selftest`, which never is; for five of them also the smallest one. Of each kind of call
(memory; opening to read, opening to write; seeking; reading; writing; closing) the first fails, then the second, and so on up to the last that the command
makes: that call alone, then that call and all of its kind after it. Reads and writes are also made short, by one of them carrying a single byte. A run must end

- as it does where nothing fails; that alone where a call was short, or where closing failed;
- or with status 6 where memory was refused, 4 where a file couldn't be read, 5 where one couldn't be written, and with the line of that status or a
  front of the due lines. OUT then holds what it held or a front of the text, and the whole text where a due line is printed. With 4 it holds what it held.

Nothing may stand on the standard error, and no other file may come or change. For each case, kind and way a line tells how many calls there were and how
the runs ended. It needs `cc`, the GNU C library, and a program that takes its memory from there, as a proved one does; one that `rt try` makes doesn't.
So many runs are made at a time as PROCESSES says, else as there are processors. It takes a minute. The exit status is 1 where a run ends otherwise.
"""
import collections
import os
import shutil
import subprocess
import sys
import tempfile
from concurrent.futures import ThreadPoolExecutor

HERE = os.path.dirname(os.path.abspath(__file__))
TOP = os.path.join(HERE, "..", "..")
sys.path.insert(0, os.path.join(HERE, "..", "library"))
from elf_files import BASE, write_elf
from instructions import words as bytes_of
from programs import numbers, program_of

EXAMPLES = ("average/average.proof", "gcd/gcd.elf", "gcd/gcd.proof", "refused/lcm.elf", "split/swap.elf", "sum/sum.elf", "sum/sum.proof")
FILES = [os.path.join(TOP, "examples", *path.split("/")) for path in EXAMPLES] + [os.path.join(TOP, "crates", "mcdec", "data", name) for name in ("p", "add.elf", "add.proof")]
# Files of a few instructions: an addition and a return; a loop of additions.
MADE = {"one.elf": (0x00150513, 0x00008067), "loop.elf": (0x00B50533, 0xFFF58593, 0xFE059CE3, 0x00008067)}
NUMBERS = "mem=0x8000:01000000000000000200000000000000"
START = ["x1=0x2000", "x10=0x8000", "x11=0x2", NUMBERS]
CASES = (
    ["eval", "p", "sum", "1", "x10=0x2", "x11=0x3"],
    ["run", "one.elf", "0x10000", "0x2000", "10", "x1=0x2000", "x10=0xffffffffffffffff"],
    ["decompile", "loop.elf", "OUT", "0x10000"],
    ["check", "add.elf", "add.proof"],
    ["selftest", "0", "1"],
    ["eval", "sum.proof", "sum", "100", *START],
    ["run", "sum.elf", "sum", "0x2000", "100", *START],
    ["check", "gcd.elf", "gcd.proof"],
    ["decompile", "gcd.elf", "OUT", "gcd"],
    ["selftest", "7", "12"],
    ["decompile", "lcm.elf", "OUT", "lcm"],
    ["link", "gcd.elf", "OUT", "gcd"],
    ["link", "lcm.elf", "OUT", "lcm"],
    ["split", "swap.elf", "OUT", "swap"],
    ["split", "lcm.elf", "OUT", "lcm"],
    ["simplify", "gcd.proof", "gcd", "OUT"],
    ["laws", "gcd.proof", "gcd.cert"],
    ["smt", "average.proof", "average", "0", "OUT"],
    ["migrate", "gcd.elf", "gcd.proof", "OUT"],
    ["check", "gcd.elf", "gcd.two"],
    ["eval", "gcd.two", "gcd", "100", "x1=0x2000", "x10=0x30", "x11=0x24"],
    ["eval", "gcd.proof", "sum", "100", *START],
    ["run", "gcd.elf", "sum", "0x2000", "100", *START],
    ["check", "gcd.elf", "sum.proof"],
    ["simplify", "gcd.proof", "sum", "OUT"],
    ["laws", "sum.proof", "gcd.cert"],
    ["smt", "gcd.proof", "gcd", "0", "OUT"],
    ["migrate", "gcd.elf", "sum.proof", "OUT"],
)
OLD = b"what was there before"
# The status where a call of the kind fails, and its line.
READ_FAULT, WRITE_FAULT = (4, b"read fault\n"), (5, b"write fault\n")
KINDS = {
    "memory": (6, b"no memory\n"),
    "open-to-read": READ_FAULT,
    "seek": READ_FAULT,
    "read": READ_FAULT,
    "open-to-write": WRITE_FAULT,
    "write": WRITE_FAULT,
    "close": None,
}
LAST = 1 << 62
End = collections.namedtuple("End", "status lines held errors counts")


class Case:
    """The words of a command, and how it ends where nothing fails."""

    def __init__(self, program, library, folder, words):
        self.program, self.library, self.folder, self.words = program, library, folder, words
        self.whole = self.run("none", "once", 0, 0)

    def run(self, kind, way, first, last):
        """The end of the command where the calls of that kind fail from one to another. It gets an OUT of its own."""
        out = f"out-{kind}-{way}-{first}"
        path = os.path.join(self.folder, out)
        with open(path, "wb") as file:
            file.write(OLD)
        read, write = os.pipe()
        context = {"LD_PRELOAD": self.library, "FAILING": kind, "FROM": str(first), "TO": str(last), "MODE": way, "COUNTS": str(write)}
        words = [self.program, *(out if word == "OUT" else word for word in self.words)]
        try:
            done = subprocess.run(words, cwd=self.folder, env={**os.environ, **context}, pass_fds=(write,), capture_output=True)
        finally:
            os.close(write)
        with os.fdopen(read, "rb") as told:
            counts = {kind: int(count) for kind, count in (line.split() for line in told.read().decode().splitlines())}
        with open(path, "rb") as file:
            held = file.read()
        os.remove(path)
        return End(done.returncode, done.stdout, held, done.stderr, counts)

    def is_as_without(self, end):
        return end[:4] == self.whole[:4]

    def is_right(self, kind, way, end):
        """Whether the command may end so where calls of that kind failed in that way."""
        if self.is_as_without(end):
            return True
        if way == "short" or KINDS[kind] is None or end.errors:
            return False
        status, line = KINDS[kind]
        is_front = self.whole.lines.startswith(end.lines)
        may_be_held = end.held == OLD or status != 4 and "OUT" in self.words and self.whole.held != OLD and self.whole.held.startswith(end.held)
        is_whole = end.held == self.whole.held or not (is_front and end.lines)
        return end.status == status and (end.lines == line or is_front) and may_be_held and is_whole


def contents(folder):
    """The bytes of each file in a folder."""
    found = {}
    for name in os.listdir(folder):
        with open(os.path.join(folder, name), "rb") as file:
            found[name] = file.read()
    return found


def try_case(case, pool):
    """Has each call fail, and prints how the runs end. Gives how many there were and what went wrong."""
    runs, wrong = 0, []
    name = " ".join(case.words[:3])
    for kind in KINDS:
        places = range(1, case.whole.counts[kind] + 1)
        for way in ("once", "on", *(["short"] if kind in ("read", "write") else [])) if places else ():
            ends = list(pool.map(lambda n: case.run(kind, way, n, LAST if way == "on" else n), places))
            told = collections.Counter("as without" if case.is_as_without(end) else f"status {end.status}" for end in ends)
            print(f"{name:28} {kind:13} {way:5} {len(places):5} calls  " + ", ".join(f"{told[end]} {end}" for end in sorted(told)), flush=True)
            runs += len(ends)
            wrong += [f"{name}: {kind} {n} {way}: {end[:4]!r:.400}" for n, end in zip(places, ends) if not case.is_right(kind, way, end)]
    return runs, wrong


def main():
    program, words = program_of(__doc__, sys.argv[1:], most=1)
    (processes,) = numbers(words, os.cpu_count())
    runs, wrong = 0, []
    with tempfile.TemporaryDirectory() as folder, ThreadPoolExecutor(processes) as pool:
        library, files = os.path.join(folder, "failing.so"), os.path.join(folder, "files")
        subprocess.run(["cc", "-O2", "-shared", "-fPIC", "-o", library, os.path.join(HERE, "failing.c")], check=True)
        os.mkdir(files)
        for path in FILES:
            shutil.copy(path, files)
        for name, code in MADE.items():
            code = bytes_of(code)
            write_elf(os.path.join(files, name), [(BASE, code, len(code), len(code))])
        for words in (["simplify", "gcd.proof", "gcd", "gcd.cert"], ["migrate", "gcd.elf", "gcd.proof", "gcd.two"]):
            subprocess.run([program, *words], cwd=files, check=True, stdout=subprocess.DEVNULL)
        before = contents(files)
        for words in CASES:
            case = Case(program, library, files, words)
            if not case.whole.counts.get("memory"):
                sys.exit("the program asks the C library for no memory: it can't be told that there is none")
            count, found = try_case(case, pool)
            runs, wrong = runs + count, wrong + found
        wrong += ["a file came, went or changed"] * (contents(files) != before)
    print(f"{runs:,} runs, {len(wrong)} otherwise")
    for why in wrong:
        print(why)
    return 1 if wrong else 0


if __name__ == "__main__":
    sys.exit(main())
