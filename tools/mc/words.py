"""The words of the program's eleven commands: how they are read, what is wrong with them, and how a person may write them otherwise.

The program takes each word in one way alone, and answers `not a command` to all others. Here a register may have its ABI name (`a0=0x2` for `x10=0x2`), and a
number the other base, capital digits or leading zeros: it is passed on as the program takes it. What can't be passed on is a fault, in a line.
"""
import dataclasses
import re

WORDS = 1 << 64
LONGEST_NAME = 4096
LARGEST_SIZE = 600
# How many characters of a word a line shows.
SHOWN = 60


@dataclasses.dataclass(frozen=True)
class Command:
    """A command: its parameters, of which a last one that ends in `..` stands for any number of words, and what it does."""

    parameters: tuple
    says: str


def command(parameters, says):
    return Command(tuple(parameters.split()), says)


COMMANDS = {
    "decompile": command("ELF OUT NAME..", "writes functions with their proofs to OUT"),
    "link": command("ELF OUT NAME..", "the same with the functions that are called"),
    "split": command("ELF OUT NAME..", "the same with the stack as a memory of its own"),
    "check": command("ELF PROOF", "judges the proofs, and compares the code with the file's"),
    "migrate": command("ELF PROOF OUT", "rewrites an accepted proof in about a third of the bytes"),
    "eval": command("PROOF NAME TURNS ARG..", "evaluates a function"),
    "run": command("ELF START UNTIL STEPS ARG..", "runs code on the model of the machine"),
    "selftest": command("NUMBER SIZE", "tries itself on a drawn program"),
    "simplify": command("PROOF NAME OUT", "rewrites the terms of a function by laws"),
    "laws": command("PROOF CERT", "judges what simplify wrote"),
    "smt": command("PROOF NAME DEF OUT", "writes a definition without loops as SMT-LIB"),
}
MEANINGS = {
    "ELF": "a linked ELF file for 64-bit RISC-V, which is read",
    "OUT": "the file that is written; none of those that are read",
    "NAME..": "functions, each by its name in the symbol table or by its address, as 0x11120",
    "PROOF": "a proof file, as decompile, link, split and migrate write it",
    "CERT": "a certificate, as simplify writes it",
    "NAME": "a function in PROOF, by its name there",
    "TURNS": "decimal: how often a body may be entered at most",
    "STEPS": "decimal: how many instructions may run at most",
    "START": "where to begin: a function's name or an address, as 0x11120",
    "UNTIL": "the address at which to end, as 0x2000",
    "NUMBER": "decimal: from which the program is drawn",
    "SIZE": f"decimal: from 1 to {LARGEST_SIZE}",
    "DEF": "decimal: which definition, counted from 0",
}
ARGUMENTS = {
    "eval": "x10=0x2 or a0=2: a register; mem=0x80:0102: bytes from 0x80 on; stk=0x80:0102: of a second memory",
    "run": "x10=0x2 or a0=2: a register; mem=0x80:0102: bytes from 0x80 on",
}
MEMORIES = {"eval": ("mem", "stk"), "run": ("mem",)}
READ = ("ELF", "PROOF", "CERT")

ABI = ["zero", "ra", "sp", "gp", "tp", "t0", "t1", "t2", "s0", "s1", *(f"a{k}" for k in range(8)), *(f"s{k}" for k in range(2, 12)), *(f"t{k}" for k in range(3, 7))]
REGISTERS = {**{f"x{number}": number for number in range(32)}, **{name: number for number, name in enumerate(ABI)}, "fp": 8}


def usage_of(name):
    """The command with its parameters."""
    return " ".join([name, *COMMANDS[name].parameters])


def shown(word):
    """A word in a line: quoted, with the middle left out where it is long."""
    text = word if len(word) <= SHOWN else f"{word[: SHOWN - 12]}..{word[-10:]}"
    return f"`{text.encode('utf8', 'backslashreplace').decode()}`"


def listed(names):
    """Several names in a sentence."""
    return " and ".join([", ".join(names[:-1]), names[-1]] if len(names) > 1 else names)


class Fault(Exception):
    """What is wrong with a word, without the word."""


def number(word, hexadecimal):
    """The word as the program takes it, decimal or hexadecimal, of one that has either form."""
    if re.fullmatch(r"0[xX][0-9a-fA-F]+", word) and len(word) < 100:
        value = int(word, 16)
    elif re.fullmatch(r"-?[0-9]+", word) and len(word) < 100:
        value = int(word)
        if hexadecimal and -(WORDS >> 1) <= value < 0:
            value += WORDS
    else:
        raise Fault("isn't a number: " + ("hexadecimal digits after `0x`, as 0x2a" if hexadecimal else "decimal digits, as 42"))
    if value < 0:
        raise Fault("is less than 0")
    if value >= WORDS:
        raise Fault("is 2^64 or more")
    return f"{value:#x}" if hexadecimal else str(value)


def address(word):
    """An address as the program takes it. Bare digits could be either base, so they are a fault."""
    if re.fullmatch(r"[0-9]+", word) and len(word) < 100:
        raise Fault(f"has no `0x` in front of its address: 0x{word.lstrip('0') or '0'} if the digits are hexadecimal, {int(word):#x} if they are decimal")
    if re.fullmatch(r"[0-9a-fA-F]+", word):
        raise Fault(f"has no `0x` in front of its address: 0x{word.lower().lstrip('0') or '0'}")
    return number(word, True)


def name(word):
    """A name: the program takes no other bytes, and no more of them."""
    if not word:
        raise Fault("is empty")
    if len(word.encode()) > LONGEST_NAME:
        raise Fault(f"has more than {LONGEST_NAME:,} bytes: give the address")
    if not re.fullmatch(r"[!-'*-:<-~]+", word):
        raise Fault("has a character that no name may have (a space, `(`, `)`, `;` or one beyond ASCII): give the address")
    return word


def size(word):
    told = number(word, False)
    if not 1 <= int(told) <= LARGEST_SIZE:
        raise Fault(f"isn't from 1 to {LARGEST_SIZE}")
    return told


def path(word):
    if not word:
        raise Fault("is empty")
    return word


def decimal(word):
    return number(word, False)


READERS = {
    **{parameter: path for parameter in (*READ, "OUT")},
    **{parameter: decimal for parameter in ("TURNS", "STEPS", "NUMBER", "DEF")},
    **{parameter: name for parameter in ("NAME", "NAME..", "START")},
    "UNTIL": address,
    "SIZE": size,
}


class Reading:
    """What a command's words come to: `words` as they are passed on, `faults` and `warnings` in a line each, and the files by their parameters."""

    def __init__(self, command, words):
        self.command, self.words, self.faults, self.warnings, self.files = command, [command], [], [], {}
        self.seen, self.ranges = {}, []
        parameters = list(COMMANDS[command].parameters)
        last = parameters.pop() if parameters[-1].endswith("..") else None
        for parameter, word in zip(parameters, words):
            self.take(parameter, word, READERS[parameter])
        missing = parameters[len(words) :] + (["NAME"] if last == "NAME.." and len(words) <= len(parameters) else [])
        if missing:
            self.faults.append(f"{listed(missing)} {'is' if len(missing) == 1 else 'are'} missing")
        for word in words[len(parameters) :]:
            if last is None:
                self.faults.append(f"{shown(word)} is a word too many")
                self.words.append(word)
            else:
                self.take(last, word, self.new_name if last == "NAME.." else self.argument)
        self.compare_out()

    def take(self, parameter, word, reader):
        try:
            if not is_text(word):
                raise Fault("isn't UTF-8")
            told = reader(word)
        except Fault as fault:
            said = parameter.removesuffix("..")
            hint = ". There are no options" if word.startswith("--") else ""
            self.faults.append(f"{said} {shown(word)} {fault}{hint}")
            told = word
        self.words.append(told)
        if parameter in READ or parameter == "OUT":
            self.files[parameter] = word

    def new_name(self, word):
        if word in self.seen:
            raise Fault("stands twice")
        self.seen[word] = word
        return name(word)

    def argument(self, word):
        """`REGISTER=VALUE`, `mem=ADDRESS:BYTES` or `stk=ADDRESS:BYTES`."""
        key, equals, value = word.partition("=")
        if not equals or not key:
            raise Fault(f"isn't REGISTER=VALUE or mem=ADDRESS:BYTES{', without spaces' if key in REGISTERS or '=' in word else ''}")
        if key.lower() in ("mem", "stk"):
            return self.bytes_of(key.lower(), value)
        register = REGISTERS.get(key.lower())
        if register is None:
            raise Fault(f"names no register: x1 to x31, or ra, sp, gp, tp, t0 to t6, s0 to s11, a0 to a7{'; a function begins at its entry' if key == 'pc' else ''}")
        if register == 0:
            raise Fault("gives x0 a value: it's always 0")
        if register in self.seen:
            raise Fault(f"gives x{register} a value again, beside {shown(self.seen[register])}")
        self.seen[register] = word
        return f"x{register}={number(value, True)}"

    def bytes_of(self, memory, value):
        if memory not in MEMORIES[self.command]:
            raise Fault(f"is of a second memory, which `{self.command}` doesn't have: mem=ADDRESS:BYTES")
        at, colon, digits = value.partition(":")
        if not colon:
            raise Fault("has no `:` between the address and the bytes, as mem=0x80:0102")
        start = address(at)
        if not re.fullmatch(r"[0-9a-fA-F]+", digits):
            raise Fault("has bytes that aren't hexadecimal digits alone, two for each, as mem=0x80:0102")
        if len(digits) % 2:
            raise Fault(f"has an odd number of digits after the `:`, {len(digits)}: two for each byte")
        end = int(start, 16) + len(digits) // 2
        if end > WORDS:
            raise Fault("goes past the address 2^64 - 1")
        self.look_for_overlap(memory, int(start, 16), end)
        return f"{memory}={start}:{digits.lower()}"

    def look_for_overlap(self, memory, start, end):
        for other, first, last in self.ranges:
            if other == memory and start < last and first < end:
                self.warnings.append(f"two {memory} words have the bytes from {max(start, first):#x} to {min(end, last) - 1:#x}: the later word's count")
        self.ranges.append((memory, start, end))

    def compare_out(self):
        out = self.files.get("OUT")
        for parameter in READ:
            if out is not None and self.files.get(parameter) == out:
                self.faults.append(f"OUT {shown(out)} is {parameter}, which it would overwrite: name another file")


def is_text(word):
    try:
        word.encode()
        return True
    except UnicodeEncodeError:
        return False
