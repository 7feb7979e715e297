#!/usr/bin/env python3
"""compressed.py [PROGRAM] [STEP]: compares what a built program makes of each instruction of two bytes with what LLVM's decoder makes of it.

`llvm-mc` (Debian's package `llvm`) disassembles all 49,152 numbers of two bytes whose low two bits aren't 11, and assembles what it prints as
instructions of four bytes. Each number falls into one class:

- instruction: LLVM prints an instruction that has a form of four bytes. The program must run the two bytes as a model of the machine
  (`machine.py`) runs that form: the same registers, bytes and program counter, from registers that are drawn, and, of a branch, both ways;
- hint: LLVM prints a form that only two bytes have. The manual says that it does nothing: the program must go on and change nothing;
- floating point: a load or store of a floating-point register, which is no instruction here;
- reserved: LLVM prints `unimp` or nothing, or `lui` with 0, which the manual reserves and LLVM 14 takes. No instruction here.

For the last two the program must answer `not-decoded`. With STEP, only each STEP-th number is run. The table at the end says how many of each
class there are, and what this project's own second table (`parcels.py`) has for them: of a `mv` the manual's `add rd, x0, rs2` where LLVM's
assembler makes an `addi`, and for a hint the instruction of its row, which changes nothing. The exit status is 1 where anything else differs.
"""
import collections
import os
import random
import re
import subprocess
import sys
import tempfile
import time
from concurrent.futures import ThreadPoolExecutor

sys.path.insert(0, os.path.join(os.path.dirname(os.path.abspath(__file__)), "..", "library"))
from elf_files import BASE, write_elf
from machine import Machine
from parcels import expand
from programs import numbers, program_of

DATA = 0x100000
SIZE = 0x480
WORD = (1 << 64) - 1
EDGES = (0, 1, 0x7FFFFFFF, 0x80000000, 0xFFFFFFFF, 1 << 63, WORD)
HINTS = ("c.nop", "c.addi", "c.li", "c.lui", "c.slli", "c.slli64", "c.srli64", "c.srai64", "c.mv", "c.add")
REFUSED = {"floating point", "reserved"}


def llvm(text, *words):
    done = subprocess.run(["llvm-mc", "-triple=riscv64", *words], input=text, capture_output=True, text=True)
    lines = [line.strip() for line in done.stdout.split("\n")]
    return [line for line in lines if line and not line.startswith(".text")], {
        int(line) for line in re.findall(r"<stdin>:(\d+):\d+: (?:warning|error)", done.stderr)
    }


def printed(numbers):
    """What LLVM prints for each number, or None."""
    text = "".join(f"{h & 255:#x} {h >> 8:#x}\n" for h in numbers)
    lines, bad = llvm(text, "--disassemble", "-mattr=+m,+a,+f,+d,+c")
    rest = iter(lines)
    texts = [None if i in bad else re.sub(r"\s+", " ", next(rest)) for i in range(1, len(numbers) + 1)]
    if next(rest, None) is not None:
        sys.exit("llvm-mc printed more lines than it was given numbers")
    return texts


def assembled(texts):
    """The instruction of four bytes for each text, or None."""
    lines, bad = llvm("".join(text + "\n" for text in texts), "-mattr=+m,+a,+f,+d", "--show-encoding")
    words = iter([match for line in lines for match in re.findall(r"encoding: \[([^\]]*)\]", line)])
    return [None if i in bad else int.from_bytes(bytes(int(b, 0) for b in next(words).split(",")), "little") for i in range(1, len(texts) + 1)]


def classes():
    """For each number its class, LLVM's text, and the instruction of four bytes of an instruction."""
    numbers = [h for h in range(1 << 16) if h & 3 != 3]
    texts = printed(numbers)
    known = sorted({text for text in texts if text is not None and text != "unimp"})
    words = dict(zip(known, assembled(known)))
    for h, text in zip(numbers, texts):
        if text is None or text == "unimp" or re.fullmatch(r"(c\.)?lui \w+, 0", text):
            yield h, "reserved", text, None
        elif re.match(r"f(ld|sd|lw|sw)(sp)? ", text):
            yield h, "floating point", text, None
        elif words[text] is None and text.split()[0] in HINTS:
            yield h, "hint", text, None
        elif words[text] is None:
            sys.exit(f"{h:#06x}: no instruction of four bytes for {text}")
        else:
            yield h, "instruction", text, words[text]


def draw(h, word, turn):
    """Registers from which a number is run: those of an access point into the data."""
    of = random.Random(h * 4 + turn)
    accesses = word & 0x5F == 0x03
    registers = {r: DATA + 0x10 + of.randrange(0x200) if accesses else of.choice((of.getrandbits(64), of.choice(EDGES))) for r in range(1, 32)}
    if word & 0x7F == 0x63 and turn == 1:
        registers[word >> 15 & 31] = 0
    return registers


def difference(program, path, memory, at, h, kind, word, turn):
    """What the program says of a number otherwise than LLVM and the model, or None."""
    if kind in REFUSED:
        expected = f"refused stuck 0 not-decoded {h:#x}\n"
        said = subprocess.run([program, "run", path, f"{at:#x}", "0x1", "1"], capture_output=True, text=True).stdout
        return None if said == expected else said
    registers = draw(h, word or 0, turn)
    if kind == "hint":
        after, expected, given = at + 2, registers, []
    elif word == 0x00100073:
        said = subprocess.run([program, "run", path, f"{at:#x}", "0x1", "1"], capture_output=True, text=True).stdout
        return None if said == "refused stuck 0 environment\n" else said
    else:
        machine = Machine(at, registers, memory, lambda parcel: word)
        machine.step()
        after, expected, given = machine.pc, dict(enumerate(machine.registers)), []
        if machine.touched:
            first = min(machine.touched) - 8
            held = lambda bytes_at: bytes(bytes_at[first + i] for i in range(24)).hex()
            given = [(first, held(memory), held(machine.memory))]
    if after == at:
        # A jump to itself is met before its first step: only that it goes on can be seen.
        words, expected_lines = ["0x1", "1"], "steps used\n"
    else:
        words = [f"{after:#x}", "1"]
        expected_lines = f"met 1\npc {after:#x}\n" + "".join(f"x{r} {expected[r]:#x}\n" for r in range(1, 32))
    words += [f"x{r}={registers[r]:#x}" for r in range(1, 32)] + [f"mem={first:#x}:{before}" for first, before, _ in given]
    if after != at:
        expected_lines += "".join(f"mem {first:#x} {then}\n" for first, _, then in given)
    said = subprocess.run([program, "run", path, f"{at:#x}", *words], capture_output=True, text=True).stdout
    return None if said == expected_lines else said


def compare(program, path, cases):
    """The differences of some numbers, which stand one after the other in one file."""
    data = bytes(random.Random(cases[0][0]).getrandbits(8) for _ in range(SIZE))
    code = b"".join(h.to_bytes(2, "little") + bytes(6) for h, *_ in cases)
    write_elf(path, [(BASE, code, len(code), len(code)), (DATA, data, SIZE, SIZE)])
    memory = {BASE + i: byte for i, byte in enumerate(code)} | {DATA + i: byte for i, byte in enumerate(data)}
    found, runs = [], 0
    for i, (h, kind, text, word) in enumerate(cases):
        for turn in range(2 if word is not None and word & 0x7F == 0x63 else 1):
            runs += 1
            said = difference(program, path, memory, BASE + 8 * i, h, kind, word, turn)
            if said is not None:
                found.append(f"{h:#06x} {kind}, LLVM: {text}; the program: {said[:300]!r}")
    return found, runs


def relation(own, word):
    """What the second table has for a number of which LLVM makes this instruction, or none."""
    if own is None:
        return "no word"
    if word is None:
        return "a word"
    is_move = own & 0xFE0FF07F == 0x33 and word == own >> 20 << 15 | own & 0xF80 | 0x13
    return "the same word" if own == word else "a move by `add`" if is_move else "another word"


def main():
    program, words = program_of(__doc__, sys.argv[1:], most=1)
    (step,) = numbers(words, 1)
    start, failed, runs = time.perf_counter(), 0, 0
    every = list(classes())
    counts = collections.Counter(kind for _, kind, _, _ in every)
    other = collections.Counter()
    samples = {}
    for h, kind, text, word in every:
        own = expand(h)
        told = relation(own, word)
        other[kind, told] += 1
        samples.setdefault((kind, told), f"{h:#06x} {text or 'nothing'}" + (f", here {own:#010x}" if own is not None and own != word else ""))
    chosen = every[::step]
    with tempfile.TemporaryDirectory() as folder, ThreadPoolExecutor(os.cpu_count()) as pool:
        jobs = [pool.submit(compare, program, os.path.join(folder, f"e{i}"), chosen[i : i + 32]) for i in range(0, len(chosen), 32)]
        for job in jobs:
            found, count = job.result()
            failed, runs = failed + len(found), runs + count
            print("\n".join(found) + "\n" if found else "", end="", flush=True)
    print(f"{'class':16} {'numbers':>8}  of which the second table has, with the first such number and what LLVM prints")
    for (kind, told), count in sorted(other.items()):
        print(f"{kind:16} {count:8,}  {told}: {samples[kind, told]}")
    print(f"{sum(counts.values()):,} numbers, {len(chosen):,} run in {runs:,} runs, {failed} with a difference, {time.perf_counter() - start:.1f} s")
    right = {("instruction", "the same word"), ("instruction", "a move by `add`"), ("hint", "a word"), ("floating point", "no word"), ("reserved", "no word")}
    wrong = sum(count for found, count in other.items() if found not in right)
    return 1 if failed or wrong else 0


if __name__ == "__main__":
    sys.exit(main())
