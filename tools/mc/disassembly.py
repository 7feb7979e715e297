"""Instructions as a disassembler on the path prints them."""
import re
import shutil
import subprocess

# llvm-objdump with a version behind its name comes after those without one.
NAMES = ("llvm-objdump", "riscv64-linux-gnu-objdump", "riscv64-unknown-elf-objdump", "objdump", *(f"llvm-objdump-{k}" for k in range(30, 10, -1)))
LINE = re.compile(r"^\s*([0-9a-f]+):\s+(.*?)\s*$")
SECONDS = 120


class NoDisassembler(Exception):
    """No program that disassembles the file was found."""

    def __init__(self, path):
        hint = "llvm-objdump (Debian's package llvm) or riscv64-linux-gnu-objdump (binutils-riscv64-linux-gnu)"
        super().__init__(f"nothing on the path disassembles {path}: {hint} would")


def instructions(path, ranges):
    """For each address of an instruction in these ranges, pairs of a first address and an end, what the instruction is. Raises NoDisassembler."""
    found = {}
    if ranges:
        found.update(_run(path, min(first for first, _ in ranges), max(end for _, end in ranges)))
    for first, end in ranges:
        # What stands between the ranges may be no code, behind which a disassembler goes on at a wrong place.
        if first not in found:
            found.update(_run(path, first, end))
    return found


def _run(path, first, end):
    for name in NAMES:
        program = shutil.which(name)
        if program is None:
            continue
        words = [program, "-d", "--no-show-raw-insn", f"--start-address={first:#x}", f"--stop-address={end:#x}"]
        if name.startswith("llvm"):
            words.append("--mattr=+m,+a,+f,+d,+c")
        try:
            done = subprocess.run([*words, path], capture_output=True, text=True, encoding="utf8", errors="replace", timeout=SECONDS)
        except (OSError, subprocess.TimeoutExpired):
            continue
        matches = [LINE.match(line) for line in done.stdout.splitlines()]
        found = {int(match[1], 16): _tidy(match[2]) for match in matches if match}
        if done.returncode == 0 and found:
            return found
    raise NoDisassembler(path)


def _tidy(words):
    """An instruction with its operands behind each other, and without the comment that says an address again."""
    name, _, operands = re.sub(r"\s+#.*$", "", words).partition("\t")
    return f"{name:7} {operands.strip().replace(',', ', ').replace(',  ', ', ')}".rstrip()
