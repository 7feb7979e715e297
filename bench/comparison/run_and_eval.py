#!/usr/bin/env python3
"""run_and_eval.py COMMAND [PROGRAM] ELF [STARTS [SECONDS]]: compares `run` and `eval` of a built program on the texts that COMMAND writes of the functions of an ELF file.

COMMAND is `decompile`, `link` or `split`. Each function of the symbol table that is inside is written by itself, and its text must be accepted. From STARTS drawn starts, 3 where
it isn't given, with registers that are numbers or point into a drawn region of memory, as those of `real_files.py`, and x2 at the end of a frame of 1,024 bytes:

- where `run` meets the return address after K steps, `eval` within 2K turns must be done with the same program counter, registers of the function and bytes; and no other
  register that was given has changed. `eval` is given the region, the frame, and the file's data, unless that is over 100,000 bytes; for `split` the frame is the second memory;
- or it is refused at a side condition: the function touches other bytes of the file; or of `split`, an access that is no stack access met the frame, as one of an
  array on the stack does, or a stack access left it.

What it comes to is counted and printed, for `link` also of those functions alone that `decompile` refuses, and for `split` how many of their loads and stores are stack accesses.
The exit status is 1 where something differs, which is told with the function and the start. With SECONDS no function is begun after as many.
"""
import collections
import os
import random
import re
import subprocess
import sys
import tempfile
import threading
import time
from concurrent.futures import ThreadPoolExecutor

sys.path.insert(0, os.path.join(os.path.dirname(os.path.abspath(__file__)), "..", "library"))
from programs import numbers, program_of
from mc import frames
from mc.functions import Functions
from real_files import REGION, draw, segments

COMMANDS = ("decompile", "link", "split")
BACK, STEPS = 0x2000, 20_000
# Above what linkers place, and below the region.
TOP, FRAME = 1 << 41, 1024
# The most bytes of data that `eval` is given, and the most of one word.
MOST_GIVEN, PIECE = 100_000, 50_000
SAME = "the same"


def told(lines):
    """The registers, with the program counter, that the lines of an answer tell, and the bytes."""
    words = [line.split() for line in lines[1:]]
    return {word[0]: word[1] for word in words if len(word) == 2}, [word[1:] for word in words if len(word) == 3]


def data_words(path):
    """The words of memory for the bytes of a file that aren't code."""
    with open(path, "rb") as file:
        plain = [(address, held) for address, held, is_code in segments(file.read()) if not is_code]
    if sum(len(held) for _, held in plain) > MOST_GIVEN:
        return []
    return [f"mem={address + i:#x}:{held[i : i + PIECE].hex()}" for address, held in plain for i in range(0, len(held), PIECE)]


class Comparison:
    """The commands on one file, and what they come to."""

    def __init__(self, command, program, elf, folder):
        self.command, self.program, self.elf, self.folder = command, program, elf, folder
        self.data = data_words(elf)
        self.counts, self.differ = collections.Counter(), False
        self.lock = threading.Lock()

    def count(self, what, by=1):
        with self.lock:
            self.counts[what] += by

    def say(self, *words):
        done = subprocess.run([self.program, *words], capture_output=True, text=True)
        return done.returncode, done.stdout.splitlines()

    def tell(self, *what):
        self.differ = True
        print(*what, flush=True)

    def function(self, address, starts):
        """Writes the function at the address, and compares it from so many starts."""
        path = os.path.join(self.folder, f"{address:x}")
        status, _ = self.say(self.command, self.elf, path, f"{address:#x}")
        if status:
            return self.count("functions refused")
        kinds = [""]
        if self.command == "link" and self.say("decompile", self.elf, path + "-alone", f"{address:#x}")[0] == 1:
            kinds.append(", which `decompile` refuses")
        status, lines = self.say("check", self.elf, path)
        if status:
            return self.tell(f"{address:#x}", lines[0])
        if self.command == "split":
            stack, every = frames.counted(path)
            self.count("functions inside, with stack accesses", stack > 0)
            self.count("loads and stores", every)
            self.count("loads and stores, of functions with stack accesses", every if stack else 0)
            self.count("loads and stores, stack accesses", stack)
        with open(path, encoding="latin-1") as text:
            own = {f"x{register}" for register in re.search(r"^regs ?(.*)$", text.read(), re.M)[1].split()}
        ends = [self.start(address, path, start, own) for start in range(starts)]
        os.remove(path)
        for kind in kinds:
            self.count("functions inside" + kind)
            self.count("functions inside, the same from a start" + kind, SAME in ends)
            for end in ends:
                self.count(f"starts, {end}{kind}")

    def start(self, address, path, start, own):
        """How the two end from a start."""
        source = random.Random(f"{address} {start}")
        registers, region = draw(source)
        registers |= {1: BACK, 2: TOP}
        frame = f"={TOP - FRAME:#x}:{source.randbytes(FRAME).hex()}"
        given = [*(f"x{register}={word:#x}" for register, word in registers.items()), *self.data, f"mem={REGION:#x}:{region.hex()}"]
        status, lines = self.say("run", self.elf, f"{address:#x}", f"{BACK:#x}", str(STEPS), *given, f"mem{frame}")
        if status:
            return f"run: {lines[0] if status == 7 else 'refused'}"
        turns = 2 * int(lines[0].split()[1])
        status, shown = self.say("eval", path, f"{address:#x}", str(turns), *given, f"{'stk' if self.command == 'split' else 'mem'}{frame}")
        if status == 1 and shown[0].startswith("refused side "):
            return "eval: refused side"
        after, there = told(lines)
        result, held = told(shown)
        others = all(after.get(f"x{register}", "0x0") == f"{word:#x}" for register, word in registers.items() if f"x{register}" not in own)
        # Of a function without a memory no bytes are told, and none may have changed.
        before = [word.removeprefix("mem=").split(":") for word in [*given, f"mem{frame}"] if word.startswith("mem=")]
        if status or there != (held or before) or not others or any(after.get(name, "0x0") != word for name, word in result.items()):
            self.tell(f"{address:#x}, start {start}:", *given, lines, shown)
            return "otherwise"
        return SAME


def main():
    command, *words = sys.argv[1:] or [""]
    if command not in COMMANDS:
        sys.exit(__doc__)
    program, words = program_of(__doc__, words, 1, 3)
    elf = words[0]
    starts, seconds = numbers(words[1:], 3, float("inf"))
    end = time.monotonic() + seconds
    names = Functions(elf).names
    with tempfile.TemporaryDirectory() as folder, ThreadPoolExecutor(os.cpu_count()) as pool:
        comparison = Comparison(command, program, elf, folder)
        for _ in pool.map(lambda address: time.monotonic() < end and comparison.function(address, starts), sorted(names)):
            pass
    for what, count in sorted(comparison.counts.items()):
        print(f"{count:7}  {what}")
    return 1 if comparison.differ else 0


if __name__ == "__main__":
    sys.exit(main())
