"""Scripts of definitions, as the program's `smt` writes them, with names that a person knows: `push_a0` for `f3_w1`, `a0` for `w1`."""
import dataclasses
import os
import re
import tempfile

from mc import program, proof, smt
from mc.syntax import RETURN, Certificate

OPERATION = "(define-fun rv_"
FUNCTION = re.compile(r"\bf(\d+)_(ok|exit|pc|w(\d+)|m(\d+)|d(\d+))\b")
VARIABLE = re.compile(r"\b(w|mem|dom)(\d+)\b")


class Refused(Exception):
    """Why there is no script, in one line."""


@dataclasses.dataclass(frozen=True)
class Function:
    """A definition of a group of a proof file, under a name."""

    name: str
    path: str
    group: object
    number: int
    is_rewritten: bool = False
    is_turn: bool = False

    @property
    def registers(self):
        """The names of the group's registers."""
        return [smt.REGISTERS[register] for register in self.group.registers]

    @property
    def arguments(self):
        """The names of a function's arguments: the registers, and for each memory its bytes and its domain."""
        return self.registers + [name for pair in smt.MEMORIES[: self.group.memories] for name in pair]

    @property
    def definition(self):
        return self.group.definitions[self.number]

    @property
    def where(self):
        """What a person calls the definition."""
        is_last = self.number == len(self.group.definitions) - 1
        name = f"{self.group.name} (d{self.number})" if is_last else f"d{self.number} of {self.group.name}"
        return f"a turn of {name}" if self.is_turn else name


def find(path, function, number=None, name=None):
    """The definition of that number, or the last one, of the first group of that name."""
    try:
        read = proof.read(path)
    except OSError as bad:
        raise Refused(f"{path}: {bad.strerror}") from None
    except proof.BadProof as bad:
        raise Refused(f"{path}: {bad}") from None
    # A certificate has the definitions that its group is rewritten to.
    groups = (read.result,) if isinstance(read, Certificate) else read.groups
    group = next((group for group in groups if group.name == function), None)
    if group is None:
        raise Refused(f"{path}: no function {function}. It has: {' '.join(group.name for group in groups)}")
    last = len(group.definitions) - 1
    if number is not None and not 0 <= number <= last:
        raise Refused(f"{path}: {function} has definitions d0 to d{last}")
    return Function(name or function, path, group, last if number is None else number, isinstance(read, Certificate))


def sort_of(argument):
    """The sort of an argument of that name."""
    return next((sort for pair in smt.MEMORIES for name, sort in zip(pair, ("Memory", "Domain")) if name == argument), "Word")


def exported(function, text=None):
    """The lines of the script that the program writes of a definition: operations and functions. Where a text is given, of that."""
    name, number = function.group.name, function.number
    with tempfile.TemporaryDirectory() as folder:
        path = function.path
        if text is not None:
            path = os.path.join(folder, "text.proof")
            with open(path, "w", encoding="latin-1") as file:
                file.write(text)
        out = os.path.join(folder, "script.smt2")
        done = program.run(["smt", path, name, str(number), out])
        answer = (done.stdout + done.stderr).strip()
        if done.returncode == 1 and answer.startswith("refused loop "):
            raise Refused(f"d{answer.split()[2]} of {name} is a loop, and has no script: `./mc loop` proves what it does by an invariant")
        if done.returncode:
            raise Refused(f"{path}: smt {name} {number}: {answer}")
        with open(out, encoding="latin-1") as file:
            lines = file.read().splitlines()
    return [line for line in lines if line.startswith(OPERATION)], [line for line in lines if not line.startswith(OPERATION)]


def told_name(function, prefix, ok, match):
    """The name of one of a definition's functions: by its register, or its memory. That which tells whether it is done ends with `ok`."""
    number, what, word, memory, domain = match.groups()
    base = prefix if int(number) == function.number else f"{prefix}_d{number}"
    if what == "ok":
        what = ok
    elif word is not None:
        what = function.registers[int(word)]
    elif memory is not None or domain is not None:
        what = smt.MEMORIES[int(memory or domain)][0 if domain is None else 1]
    return f"{base}_{what}"


def variable_name(function, match):
    """The name of a variable: a parameter has that of its register or memory, one that is bound keeps its own."""
    kind, index = match[1], int(match[2])
    if kind == "w":
        return function.registers[index] if index < len(function.registers) else match[0]
    if index < function.group.memories:
        return smt.MEMORIES[index][0 if kind == "mem" else 1]
    return match[0]


def renamed(function, lines, prefix, ok="ok"):
    """Functions with the names of registers, and of sorts."""
    found = []
    for line in lines:
        for name, sort in reversed(smt.SORTS.items()):
            line = line.replace(smt.spelled(sort), name)
        line = FUNCTION.sub(lambda match: told_name(function, prefix, ok, match), line)
        found.append(VARIABLE.sub(lambda match: variable_name(function, match), line))
    return found


def exits_text(function):
    """The exits by their numbers."""
    exits = [f"{k} {'returns' if exit == RETURN else f'leaves to {exit:#x}'}" for k, exit in enumerate(function.definition.exits)]
    return ", ".join([*exits, f"{len(exits)} goes again"] if function.is_turn else exits)


def heading(text):
    return ["", f"; ---- {text}", ""]


def told_lines(function, prefix):
    """Comments that say what the functions of a definition are."""
    memories = [f";   {prefix}_{bytes_}, {prefix}_{domain}: the bytes of {what} there, and the addresses that have one" for (bytes_, domain), what in
                zip(smt.MEMORIES[: function.group.memories], ("memory", "the second memory, the stack"))]
    return [
        f"; Each takes ({' '.join(function.arguments)}), the values at the entry, {function.definition.entry:#x}. Its exits: {exits_text(function)}.",
        f";   {prefix}_ok: evaluation is done, with each side condition true. The others tell of this case alone",
        f";   {prefix}_exit, {prefix}_pc: the number of the exit, and the program counter there",
        f";   {', '.join(f'{prefix}_{register}' for register in function.registers)}: the registers there",
        *memories,
    ]
