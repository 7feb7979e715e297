"""The texts that are changed: what the program writes of functions of examples/ and of functions.elf, and the proof files that stand in examples/."""

import os
import subprocess

TOP = os.path.join(os.path.dirname(os.path.abspath(__file__)), "..", "..", "..")
EXAMPLES = os.path.join(TOP, "examples")
# Of these functions texts are made.
NAMES = {
    "examples/average/average.elf": ("average",),
    "examples/gcd/gcd.elf": ("gcd",),
    "examples/linked/lcm.elf": ("gcd", "lcm"),
    "examples/months/months.elf": ("days_of",),
    "examples/own/my.elf": ("half", "fib"),
    "examples/ring/ring.elf": ("push", "pop"),
    "examples/split/swap.elf": ("swap",),
    "examples/strlen/strlen.elf": ("strlen",),
    "bench/comparison/functions.elf": (
        "absolute", "compare", "equal_bytes", "hexadecimal_digit", "load_big_endian", "parity_by_table", "sum", "swap_by_xor", "tenth_of_byte", "upper_product"
    ),
}
# Longer texts are left out.
LARGEST = 40_000


def made_texts(program, folder):
    """The ELF files, and the texts that the program makes of their functions, put into the folder."""
    for number, (path, names) in enumerate(NAMES.items()):
        elf = os.path.join(TOP, path)
        for name in names:
            stem = os.path.join(folder, f"{number}.{name}")
            for command in ("decompile", "link", "split"):
                subprocess.run([program, command, elf, f"{stem}.{command}", name], check=False, stdout=subprocess.DEVNULL)
            if os.path.exists(f"{stem}.decompile"):
                subprocess.run([program, "migrate", elf, f"{stem}.decompile", f"{stem}.migrate"], check=True, stdout=subprocess.DEVNULL)
            for command in ("decompile", "migrate", "link", "split"):
                if os.path.exists(f"{stem}.{command}"):
                    yield elf, f"{stem}.{command}"


def example_texts():
    """The ELF files, and the proof files of examples/ and examples/rules."""
    for name in sorted(os.listdir(EXAMPLES)):
        folder = os.path.join(EXAMPLES, name)
        files = sorted(os.listdir(folder)) if os.path.isdir(folder) else []
        elf = next((os.path.join(folder, file) for file in files if file.endswith(".elf")), None)
        for file in files:
            if elf and file.endswith(".proof"):
                yield elf, os.path.join(folder, file)


def bases(program, folder):
    """Pairs of the bytes of an ELF file and those of a text of it, by the text's version."""
    found = {1: [], 2: [], 3: [], 4: []}
    for elf, text in [*made_texts(program, folder), *example_texts()]:
        with open(text, "rb") as file:
            held = file.read()
        if len(held) <= LARGEST:
            with open(elf, "rb") as file:
                found[int(held[8:9])].append((file.read(), held))
    return found
