"""usage: mc data ELF ADDRESS [LENGTH] [--smt] [--arrays BYTES DOMAIN]

Prints what the ELF file has in memory from ADDRESS on, LENGTH bytes, as the word `mem=A:H` that
`mcdec eval` and `mcdec run` take:

  mcdec eval crc.proof crc 99 x1=0x2000 x10=0x8000 x11=2 mem=0x8000:3132 $(mc data crc.elf table)

ADDRESS is a number or the name of a symbol, with `+N` behind it for N bytes further on: 0x10958,
table, table+8. Numbers are decimal, or hexadecimal with 0x. Without LENGTH it is what the symbol
has from there on.

  --smt       prints assertions for a solver instead: that these bytes are there at the entry of a
              definition, and are those of the file. They are about the constants mem0 and dom0,
              which the goal has to declare, and to give to the functions of a script of
              `mcdec smt` as the arguments of these names
  --arrays BYTES DOMAIN
              asserts that of the constants of these names: `mem dom` in a script of `mc goal`

What is so assumed: that nobody wrote to these bytes since the file was loaded. Of bytes in a
segment that may be written that needs an argument of its own; a warning on the standard error says
so, and a comment among the assertions. Where the file has no data (.bss), the bytes are zeros.

Exit status: 0 printed; 1 no such symbol, or nothing is there; 2 wrong words; 3 not an ELF file of
64-bit RISC-V; 4 it can't be read.
"""
import difflib
import re
import sys

from mc import elf, inputs, usage
from mc.inputs import Failure

NUMBER = r"0x[0-9a-fA-F]+|[0-9]+"
NAME = re.compile(r"[A-Za-z~!@$%^&*_+=<>.?/-][0-9A-Za-z~!@$%^&*_+=<>.?/-]*")
# One word of a command is at most 128 KiB long on Linux.
LONGEST = 60_000
# More than that is no piece of data that a solver is told of.
MOST = 1 << 20


def words_of(arguments):
    """The words of the command."""
    parser = usage.Parser("data", __doc__)
    parser.add_argument("elf", metavar="ELF")
    parser.add_argument("address", metavar="ADDRESS")
    parser.add_argument("length", metavar="LENGTH", nargs="?")
    parser.add_argument("--smt", action="store_true")
    parser.add_argument("--arrays", metavar=("BYTES", "DOMAIN"), nargs=2)
    words = parser.parse(arguments)
    if words.arrays and not words.smt:
        parser.error("--arrays says of what --smt tells")
    for name in words.arrays or ():
        if not NAME.fullmatch(name):
            parser.error(f"{name}: no name of a constant")
    return words


def number_of(word):
    """The number that a word of the form NUMBER is."""
    return int(word, 16 if word.startswith("0x") else 10)


def place_of(image, word):
    """The address that the word stands for, and the number of bytes that its symbol has from there on, or None."""
    match = re.fullmatch(rf"(.*?)(?:\+({NUMBER}))?", word)
    name, offset = match[1], number_of(match[2] or "0")
    if re.fullmatch(NUMBER, name):
        return number_of(name) + offset, None
    found = image.addresses_of(name)
    if len(found) > 1:
        raise Failure(1, f"{name} stands for {', '.join(f'{address:#x}' for address in found)} in {image.path}: give one of these")
    if not found:
        near = difflib.get_close_matches(name, sorted({symbol.name for symbol in image.symbols}), 3)
        raise Failure(1, f"{image.path} has no symbol {name}{'; there is ' + ', '.join(near) if near else ''}")
    size = max(symbol.size for symbol in image.symbols if symbol.name == name)
    return found[0] + offset, size - offset if size > offset else None


def length_of(word, rest):
    """The number of bytes."""
    if word is None:
        if rest is None:
            raise Failure(2, "how many bytes? No symbol says it: give LENGTH")
        return rest
    if not re.fullmatch(NUMBER, word):
        raise Failure(2, f"{word}: no number of bytes")
    length = number_of(word)
    if not 0 < length <= MOST:
        raise Failure(2, f"{word}: a number of bytes from 1 to {MOST:,}")
    return length


def bytes_of(image, address, length):
    """The bytes, which are all there."""
    found = image.bytes_at(address, length)
    if found is None:
        first = next(k for k in range(length) if image.bytes_at(address + k, 1) is None)
        hint = "; it is an object file: link it" if image.kind == elf.OBJECT else ""
        raise Failure(1, f"nothing of {image.path} is loaded at {address + first:#x}{hint}")
    return found


def warnings(image, address, length):
    """What is to be known of these bytes besides."""
    where = f"{address:#x}, {length} bytes"
    if image.is_writable(address, length):
        yield f"{where}: in a segment that may be written{section_text(image, address)}: they may be others when the function is entered"
    stored = image.stored_bytes(address, length)
    if stored < length:
        yield f"{where}: the file has data for the first {stored}, the others are zeros" if stored else f"{where}: the file has no data for them, they are zeros"
    if image.position_independent:
        yield f"{image.path} is position independent: a loader moves it, and changes pointers in its data"


def section_text(image, address):
    section = image.section_at(address)
    return f" ({section})" if section else ""


def memory_words(address, found):
    """The words for `eval` and `run`."""
    return [f"mem={address + k:#x}:{found[k : k + LONGEST].hex()}" for k in range(0, len(found), LONGEST)]


def assertions(image, address, found, arrays, notes):
    """The lines for a solver."""
    memory, domain = arrays
    name = image.place(address)
    yield f"; {len(found)} bytes of {elf.printable(image.path)} from {address:#x} on{f': {name}' if name else ''}{section_text(image, address)}"
    yield f"; Assumed: that {domain} has these addresses, and that at the entry {memory} has there what the file has, so that nobody wrote there."
    yield from (f"; WARNING: {elf.printable(note)}" for note in notes)
    for k, byte in enumerate(found):
        place = f"#x{address + k:016x}"
        yield f"(assert (and (= (select {domain} {place}) #b1) (= (select {memory} {place}) #x{byte:02x})))"


def main(arguments):
    words = words_of(arguments)
    try:
        image = inputs.read(elf.read, words.elf)
        address, rest = place_of(image, words.address)
        found = bytes_of(image, address, length_of(words.length, rest))
    except Failure as bad:
        print(f"mc data: {bad}", file=sys.stderr)
        return bad.status
    notes = list(warnings(image, address, len(found)))
    for note in notes:
        print(f"mc data: warning: {note}", file=sys.stderr)
    lines = assertions(image, address, found, words.arrays or ("mem0", "dom0"), notes) if words.smt else memory_words(address, found)
    print("\n".join(lines))
    return 0
