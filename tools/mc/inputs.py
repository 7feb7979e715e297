"""Files that a tool reads, and what it says where it can't."""
from mc import elf, proof


class Failure(Exception):
    """What a tool says in place of its answer, and its exit status."""

    def __init__(self, status, words):
        super().__init__(words)
        self.status = status


def read(reader, path):
    """What the reader makes of the file at this path."""
    try:
        return reader(path)
    except OSError as bad:
        raise Failure(4, f"{path}: {bad.strerror}") from bad
    except proof.BadProof as bad:
        raise Failure(3, f"{path}: {bad}") from bad
    except elf.BadElf as bad:
        raise Failure(3, str(bad)) from bad
