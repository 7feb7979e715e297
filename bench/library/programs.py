"""The words of these scripts: PROGRAM, which may be left out, and what stands behind it."""
import os
import sys

TOP = os.path.join(os.path.dirname(os.path.abspath(__file__)), "..", "..")
sys.path.append(os.path.join(TOP, "tools"))
from mc import program

RISCV = 243


def is_program(word):
    """Whether a word is a program's path: a file that may be executed, and isn't for RISC-V."""
    if not program.is_runnable(word):
        return False
    with open(word, "rb") as file:
        head = file.read(20)
    return head[:4] != b"\x7fELF" or int.from_bytes(head[18:20], "little") != RISCV


def program_of(usage, words, least=0, most=0):
    """The program's whole path, and the words behind it, of which there must be `least` to `most`. Where the first word is none, it is the program that `mc`
    takes: that which was proved, else that which was built without proof, else it is built."""
    named, rest = (words[:1], words[1:]) if words and is_program(words[0]) else ([], words)
    if not least <= len(rest) <= most or rest[:1] in (["-h"], ["--help"]):
        sys.exit(usage)
    if named:
        return os.path.abspath(named[0]), rest
    try:
        path = program.path()
    except program.NoProgram as why:
        sys.exit(str(why))
    if path == program.kept():
        print(f"{os.path.relpath(path)}, built without proof", file=sys.stderr)
    return str(path), rest


def numbers(words, *defaults):
    """The words as whole numbers, and the defaults of those that are missing."""
    for word in words:
        if not word.isdecimal():
            sys.exit(f"{word}: neither a program nor a number")
    return *map(int, words), *defaults[len(words) :]
