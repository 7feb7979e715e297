#!/usr/bin/env python3
"""real_files.py [PROGRAM] ELF PROOF [STARTS]: compares `run` and `eval` of a built program on the functions of a real file, from drawn starts.

PROOF has functions of the file ELF, as `./mc functions ELF PROOF` writes it. From STARTS starts of each function, 3 where it isn't given, with registers that are
numbers or point into a drawn region of memory, three are compared: a model of the machine (`machine.py`), `run`, and `eval` of the function on the same
registers, the region and the file's bytes that aren't code:

- where the model returns after K steps, at most 20,000, so must `run`, with the same registers and bytes; and where all that was touched is given to
  `eval`, evaluation within 2K turns must be done with the same registers of the group, bytes and program counter;
- where the model misses a byte, `run` must stop there, and `eval` must refuse a side condition;
- where it makes more steps, `run` must say `steps used`.

The exit status is 1 where something differs; each difference is told with the function and the start.
"""
import collections
import os
import random
import re
import struct
import subprocess
import sys
import time
from concurrent.futures import ThreadPoolExecutor

sys.path.insert(0, os.path.join(os.path.dirname(os.path.abspath(__file__)), "..", "library"))
from machine import Machine
from programs import numbers, program_of

STEPS = 20_000
REGION, SIZE = 0x400000000000, 0x2000
BACK = 0x700000000000
PIECE = 50_000
MOST_GIVEN = 400_000


def segments(data):
    """The segments that the file loads: address, bytes, and whether they may be executed."""
    (start,), (count,) = struct.unpack_from("<Q", data, 32), struct.unpack_from("<H", data, 56)
    for i in range(count):
        kind, flags, offset, address, _, size, held, _ = struct.unpack_from("<IIQQQQQQ", data, start + 56 * i)
        if kind == 1:
            yield address, data[offset : offset + size] + bytes(held - size), flags & 1


def groups(path):
    """The functions of a proof file: name, registers, whether there is a memory, and the entry."""
    with open(path, encoding="latin-1") as file:
        name = entry = None
        for line in file:
            head, *words = line.split()
            if head == "group":
                if name is not None:
                    yield name, registers, memory, entry
                name = words[0]
            elif head == "regs":
                registers = [int(word) for word in words]
            elif head == "mems":
                memory = words[0] == "1"
            elif head == "def":
                entry = int(words[0], 16)
        if name is not None:
            yield name, registers, memory, entry


def draw(of):
    """Registers and the bytes of the region."""
    def pointer():
        return REGION + 8 * of.randrange(SIZE // 8)

    content = bytearray()
    while len(content) < SIZE:
        kind = of.randrange(4)
        content += (bytes(8), of.randbytes(8), struct.pack("<Q", pointer()), of.choice((b"GET / HT", b"abcdefgh", b"0\0\0\0\0\0\0\0")))[kind]
    registers = {r: of.choice((pointer(), pointer(), of.randrange(64), of.getrandbits(64))) for r in range(1, 32)}
    registers[1], registers[2] = BACK, REGION + SIZE // 2
    return registers, bytes(content)


def model(registers, memory, entry):
    """How the model ends: the steps that it made, the machine, and the first byte that is missing."""
    machine = Machine(entry, registers, memory)
    for steps in range(STEPS + 1):
        if machine.pc == BACK:
            return steps, machine, None
        try:
            machine.step()
        except KeyError as missing:
            return steps, machine, missing.args[0]
    return None, machine, None


def say(*words):
    return subprocess.run(words, capture_output=True, text=True).stdout


def compare(program, elf, proof, loaded, given, group, start):
    """What differs from one start, or how it ended."""
    name, own, has_memory, entry = group
    registers, content = draw(random.Random(f"{name} {start}"))
    ranges = given + [(REGION, content)]
    memory = {address + i: byte for address, held, _ in loaded for i, byte in enumerate(held)} | {REGION + i: byte for i, byte in enumerate(content)}
    known = {address + i for address, held in ranges for i in range(len(held))}
    words = [f"x{r}={registers[r]:#x}" for r in range(1, 32)] + [f"mem={address:#x}:{held.hex()}" for address, held in ranges]
    steps, machine, missing = model(registers, memory, entry)
    ran = say(program, "run", elf, f"{entry:#x}", f"{BACK:#x}", str(STEPS), *words)
    if steps is None:
        return ("steps used", None) if ran == "steps used\n" else ("", f"run: {ran[:100]!r}, and the model goes on")
    if missing is not None:
        if ran != f"refused stuck {steps} no-byte {missing:#x}\n":
            return "", f"run: {ran[:100]!r}, and the model misses {missing:#x} after {steps} steps"
        said = say(program, "eval", proof, name, str(2 * steps + 2), *words)
        return ("missing byte", None) if said.startswith("refused side ") else ("", f"eval: {said[:100]!r}, and the model misses {missing:#x} after {steps} steps")
    after = "".join(f"mem {address:#x} {bytes(machine.memory[address + i] for i in range(len(held))).hex()}\n" for address, held in ranges)
    expected = f"met {steps}\npc {BACK:#x}\n" + "".join(f"x{r} {machine.registers[r]:#x}\n" for r in range(1, 32)) + after
    if ran != expected:
        return "", f"run: {ran[:300]!r}, expected {expected[:300]!r}"
    if not machine.touched <= known:
        return "touches code", None
    said = say(program, "eval", proof, name, str(2 * steps), *words)
    expected = f"pc {BACK:#x}\n" + "".join(f"x{r} {machine.registers[r]:#x}\n" for r in own) + (after if has_memory else "")
    if re.match(r"done \d+\n", said) is None or said.split("\n", 1)[1] != expected:
        return "", f"eval: {said[:300]!r}, expected {expected[:300]!r}"
    return "returns", None


def main():
    program, words = program_of(__doc__, sys.argv[1:], 2, 3)
    elf, proof = map(os.path.abspath, words[:2])
    (starts,) = numbers(words[2:], 3)
    begin, ends, failed = time.perf_counter(), collections.Counter(), 0
    with open(elf, "rb") as file:
        loaded = list(segments(file.read()))
    plain = [(address + i, held[i : i + PIECE]) for address, held, is_code in loaded if not is_code for i in range(0, len(held), PIECE)]
    given = plain if sum(len(held) for _, held in plain) <= MOST_GIVEN else []
    every = list(groups(proof))
    cases = [(group, start) for group in every for start in range(starts)]
    with ThreadPoolExecutor(os.cpu_count()) as pool:
        for (group, start), (end, fault) in zip(cases, pool.map(lambda case: compare(program, elf, proof, loaded, given, *case), cases)):
            if fault is not None:
                failed += 1
                print(f"{group[0]} start {start}: {fault}", flush=True)
            ends[end] += fault is None
    print(f"{len(every)} functions, {len(cases)} starts: {', '.join(f'{count} {end}' for end, count in ends.most_common() if count)}; {failed} with a difference, {time.perf_counter() - begin:.1f} s")
    return 1 if failed else 0


if __name__ == "__main__":
    sys.exit(main())
