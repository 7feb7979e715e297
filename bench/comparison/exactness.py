#!/usr/bin/env python3
"""exactness.py [PROGRAM] [COUNT [FIRST]]: draws functions of machine code, and compares what the commands of a built program say of each.

First comes a loop whose lines are known. Then COUNT functions are drawn, 200 where it isn't given, from the numbers from FIRST on, 0 where it isn't
given (`drawn.py`): code of all instructions of RV64IMC but those that call the environment or jump through other registers, with loops in loops, joins,
and loads and stores in one region; of those for which two bytes can stand, none, some or all have two. Of each it makes an ELF file and

- decompiles it: the line must name the entry and as many instructions as there are, and the text exactly the registers that these name and a
  memory where one of them loads or stores;
- checks the text, which must be accepted;
- runs the code on drawn registers and bytes: the run must meet the return address after as many steps, and with the same registers and bytes, as
  that of a model of the machine which knows nothing of the program (`machine.py`), and have changed no register outside the group;
- evaluates the function on the same: where the run took K steps, evaluation within 2K turns must be done, with the same program counter, registers of
  the group and bytes of the region;
- evaluates once more within one turn less than it took (`turns used`), now of a text of the definitions alone;
- does the same with a return address of which the two low bits are 1: the run must return to the address before it;
- does the same without a byte of the region that is loaded or stored: the run must stop there, and evaluation be refused at a side condition; and
  without any byte of the region, where the one that is missing may not matter.

The exit status is 1 where something differs; each difference is told with the function's number, so `exactness.py 1 NUMBER` shows it again.
"""
import os
import re
import subprocess
import sys
import tempfile
import time
from concurrent.futures import ThreadPoolExecutor

sys.path.insert(0, os.path.join(os.path.dirname(os.path.abspath(__file__)), "..", "library"))
from drawn import REACH, Function
from elf_files import BASE, write_elf
from instructions import words as bytes_of
from machine import Machine
from programs import numbers, program_of

BACK = 0x20000
STEPS = 10_000_000
STARTS = 2
SPACE = 1 << 64
SIDE = re.compile(r"refused side \d+ \d+\n")
STUCK = re.compile(r"refused stuck (\d+) no-byte (0x[0-9a-f]+)\n")


class Difference(Exception):
    """What a command should have said and didn't."""


class Program:
    """The built program, and the slowest of its calls."""

    def __init__(self, path):
        self.path, self.slowest = path, (0.0, "")

    def say(self, *words):
        """The status and the lines of a command."""
        start = time.perf_counter()
        done = subprocess.run([self.path, *words], capture_output=True, text=True)
        self.slowest = max(self.slowest, (time.perf_counter() - start, words[0]))
        return done.returncode, done.stdout

    def expect(self, status, form, *words):
        """The lines of a command that must end with this status and have this form."""
        ended, lines = self.say(*words)
        match = re.fullmatch(form, lines)
        if ended != status or match is None:
            raise Difference(f"{' '.join(words)}: status {ended}, {lines[:200]!r}")
        return match


class Start:
    """Registers and the bytes of the region in which a function begins."""

    def __init__(self, function, back):
        draw = function.random
        self.registers = {r: function.draw_word() for r in range(1, 32)}
        self.registers[1] = back
        # The region may go over the end of the addresses.
        middle = draw.choice((0x100000, 0x7FFFFFFFFFFFF000, SPACE - 32, 5))
        self.registers[function.base] = middle
        if middle == 5:
            self.registers[function.base] = middle = BASE + 0x100000 + draw.randrange(8)
        self.bytes = {(middle + i) % SPACE: draw.randrange(256) for i in range(-REACH, REACH)}

    def words(self, present=None):
        """The words that give a command the registers and the bytes of the region that are present."""
        found = self.bytes if present is None else present
        ranges = []
        for at in sorted(found):
            if ranges and ranges[-1][0] + len(ranges[-1][1]) == at:
                ranges[-1][1].append(found[at])
            else:
                ranges.append((at, bytearray([found[at]])))
        return [f"x{r}={value:#x}" for r, value in self.registers.items()] + [f"mem={at:#x}:{part.hex()}" for at, part in ranges]


def parse(lines):
    """The first number, the program counter, the registers and the bytes that lines tell."""
    first, pc, *rest = lines.splitlines()
    registers, memory = {}, {}
    for line in rest:
        name, *values = line.split()
        if name == "mem":
            at = int(values[0], 16)
            memory.update({(at + i) % SPACE: byte for i, byte in enumerate(bytes.fromhex(values[1]))})
        else:
            registers[int(name[1:])] = int(values[0], 16)
    return int(first.split()[1]), int(pc.split()[1], 16), registers, memory


class Comparison:
    """What the commands say of one function."""

    def __init__(self, program, folder, number):
        self.program, self.number = program, number
        self.function = Function(number)
        self.elf, self.text, self.short = (os.path.join(folder, f"{number}.{kind}") for kind in ("elf", "text", "short"))
        self.runs = self.steps = self.refused = self.definitions = self.lines = 0

    def go(self):
        """All of it."""
        code = self.function.code
        write_elf(self.elf, [(BASE, code, len(code), len(code))])
        self.decompile()
        for _ in range(STARTS):
            self.compare(Start(self.function, BACK), BACK)
        self.compare(Start(self.function, BACK + 3), BACK + 2)
        self.refuse()
        for path in (self.elf, self.text, self.short):
            os.remove(path)
        return self

    def decompile(self):
        name, function = f"{self.function.entry:#x}", self.function
        form = f"decompiled {name} {name} {function.count} (\\d+)\n"
        self.definitions = int(self.program.expect(0, form, "decompile", self.elf, self.text, name)[1])
        with open(self.text) as file:
            lines = file.read().splitlines()
        head = lines[:4]
        expected = ["mcproof 1", f"group {name}", f"regs {' '.join(map(str, sorted(function.used)))}", f"mems {int(function.has_memory)}"]
        if head != expected:
            raise Difference(f"the text begins with {head}, and not with {expected}")
        self.lines = int(self.program.expect(0, r"accepted 1 (\d+)\n", "check", self.elf, self.text)[1])
        definitions = lines[: len(lines) - 1 - self.lines] + lines[-1:]
        with open(self.short, "w") as file:
            file.write("".join(f"{line}\n" for line in definitions))

    def run(self, back, words):
        return self.program.say("run", self.elf, f"{self.function.entry:#x}", f"{back:#x}", str(STEPS), *words)

    def eval(self, turns, words, text=None):
        return self.program.say("eval", text or self.short, f"{self.function.entry:#x}", str(turns), *words)

    def compare(self, start, back):
        """A run from a start to that address, and the evaluation from there."""
        words = start.words()
        status, lines = self.run(back, words)
        if status != 0:
            raise Difference(f"run {words}: status {status}, {lines[:200]!r}")
        machine = self.model(start, back, lines)
        steps, turns = self.agree(start, back, lines, words, start.bytes)
        self.runs, self.steps = self.runs + 1, self.steps + steps
        self.last = start, back, sorted(machine.touched)
        if self.eval(turns - 1, words) != (7, "turns used\n"):
            raise Difference(f"eval within {turns - 1} turns isn't one turn short")

    def model(self, start, back, lines):
        """The model's machine after the same run, of which the lines tell the same."""
        code = dict(enumerate(self.function.code, BASE))
        machine = Machine(self.function.entry, start.registers, {**code, **start.bytes})
        steps = machine.run(back, STEPS)
        memory = {at: machine.memory[at] for at in start.bytes}
        if parse(lines) != (steps, back, dict(enumerate(machine.registers[1:], 1)), memory):
            raise Difference(f"run {start.words()}: {lines!r}, and by the model {steps} steps, registers {machine.registers}, bytes {memory}")
        return machine

    def agree(self, start, back, lines, words, present):
        """Evaluation gives what a run met, and nothing else was changed."""
        steps, pc, registers, memory = parse(lines)
        status, told = self.eval(2 * steps, words, self.text if self.runs == 0 else self.short)
        if status != 0:
            raise Difference(f"run: {steps} steps; eval {words} within {2 * steps} turns: status {status}, {told[:200]!r}")
        turns, exit_pc, results, region = parse(told)
        group = sorted(self.function.used)
        expected = {r: registers[r] for r in group}
        others = {r: start.registers[r] for r in start.registers if r not in group}
        if (exit_pc, results, pc) != (pc, expected, back) or turns > 2 * steps:
            raise Difference(f"run {words}: {lines!r}, eval: {told!r}")
        if any(registers[r] != value for r, value in others.items()) or memory.keys() != present.keys():
            raise Difference(f"run {words}: {lines!r}, of registers {group}")
        if region != (memory if self.function.has_memory else {}) or not (self.function.has_memory or memory == present):
            raise Difference(f"run {words}: bytes {lines!r}, eval: bytes {told!r}")
        return steps, turns

    def refuse(self):
        """Runs that stop before they return, and their evaluations."""
        start, back, touched = self.last
        draw = self.function.random
        missing = draw.sample(touched, min(1, len(touched))) + draw.sample(sorted(start.bytes), int(self.function.has_memory))
        for gone in missing:
            present = {at: byte for at, byte in start.bytes.items() if at != gone}
            words = start.words(present)
            status, lines = self.run(back, words)
            if status == 0 and gone not in touched:
                self.agree(start, back, lines, words, present)
                continue
            self.is_stuck(status, lines, words, gone)

    def is_stuck(self, status, lines, words, address):
        """A run stopped for this, and evaluation is refused at a side condition, within two turns for each step and the one that couldn't be made."""
        match = STUCK.fullmatch(lines)
        if status != 1 or match is None or int(match[2], 16) != address:
            raise Difference(f"run {words}: status {status}, {lines!r}, and not stuck by {address:#x}")
        status, lines = self.eval(2 * (int(match[1]) + 1), words)
        if status != 1 or SIDE.fullmatch(lines) is None:
            raise Difference(f"eval {words}: status {status}, {lines[:200]!r}, and not refused at a side condition")
        self.refused += 1


def compare(program, folder, number):
    """What came of one function, and the seconds that it took."""
    start = time.perf_counter()
    comparison = Comparison(program, folder, number)
    try:
        return comparison.go(), None, time.perf_counter() - start
    except Difference as why:
        return comparison, why, time.perf_counter() - start


def try_sum(program, folder):
    """A function whose answers are known: it adds x11 to x10 and counts x11 down to 0, and returns."""
    elf, text = os.path.join(folder, "sum.elf"), os.path.join(folder, "sum")
    code = bytes_of([0x00B50533, 0xFFF58593, 0xFE059CE3, 0x00008067])
    write_elf(elf, [(BASE, code, len(code), len(code))])
    name, start = f"{BASE:#x}", ("x1=0x2000", "x10=0x0", "x11=0x1")
    registers = "x1 0x2000\nx10 0x1\nx11 0x0\n"
    program.expect(0, f"decompiled {name} {name} 4 3\n", "decompile", elf, text, name)
    program.expect(0, f"met 4\npc 0x2000\n{registers}", "run", elf, name, "0x2000", "100", *start)
    program.expect(0, f"done 3\npc 0x2000\n{registers}", "eval", text, name, "3", *start)
    program.expect(7, "turns used\n", "eval", text, name, "2", *start)


def main():
    path, words = program_of(__doc__, sys.argv[1:], most=2)
    program = Program(path)
    count, first = numbers(words, 200, 0)
    start = time.perf_counter()
    with tempfile.TemporaryDirectory() as folder, ThreadPoolExecutor(os.cpu_count()) as pool:
        try_sum(program, folder)
        done = list(pool.map(lambda number: compare(program, folder, number), range(first, first + count)))
    failed = [(comparison, why) for comparison, why, _ in done if why]
    for comparison, why in failed:
        print(f"function {comparison.number}, {comparison.function.count} instructions, entered at {comparison.function.entry:#x}: {why}")
    all_of = [comparison for comparison, _, _ in done]
    took, slowest = max((took, comparison.number) for comparison, _, took in done)
    print(
        f"{count} functions of {sum(c.function.count for c in all_of)} instructions, {sum(c.definitions for c in all_of)} definitions "
        f"and {sum(c.lines for c in all_of)} lines; {sum(c.runs for c in all_of)} runs of {sum(c.steps for c in all_of)} steps, "
        f"{sum(c.refused for c in all_of)} that stop, {len(failed)} functions with a difference"
    )
    print(
        f"{time.perf_counter() - start:.1f} s; the slowest function, number {slowest} of {Function(slowest).count} instructions, "
        f"took {took:.2f} s, and the slowest command, {program.slowest[1]}, {program.slowest[0]:.2f} s"
    )
    return 1 if failed else 0


if __name__ == "__main__":
    sys.exit(main())
