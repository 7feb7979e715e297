"""`check ELF PROOF` and `eval PROOF NAME TURNS ARG..`, with the lines and statuses of mcdec."""

import os
import sys
from stat import S_ISFIFO

from .evaluation import evaluate
from .verdict import check

LONGEST_ELF = 64 << 20
LONGEST_PROOF = 256 << 20


class CannotRead(Exception):
    """A file can't be read, or is too long; it has the status and the line."""


def held(name, limit, kind):
    """The bytes of a file."""
    try:
        with open(name, "rb") as file:
            if S_ISFIFO(os.fstat(file.fileno()).st_mode):
                raise OSError
            data = file.read(limit + 1)
    except OSError:
        raise CannotRead(4, "read fault") from None
    if len(data) > limit:
        raise CannotRead(7, f"over limit {kind}")
    return data


def answer(words):
    """The status and the lines of a command."""
    try:
        if len(words) == 3 and words[0] == "check":
            elf = held(words[1], LONGEST_ELF, "elf")
            return check(elf, lambda: held(words[2], LONGEST_PROOF, "proof"))
        if len(words) >= 4 and words[0] == "eval":
            return evaluate(words[1:], lambda name: held(name, LONGEST_PROOF, "proof"))
    except CannotRead as fault:
        return fault.args
    return 2, "not a command"


def main():
    """Prints the lines, and ends with the status."""
    status, lines = answer(sys.argv[1:])
    print(lines)
    sys.exit(status)


if __name__ == "__main__":
    main()
