"""Reads ELF files of 64-bit RISC-V: what stands in memory at which address, and what the symbols are called."""
import dataclasses
import functools
import struct

OBJECT, EXECUTABLE, SHARED = 1, 2, 3
RISCV = 243
LOADED, ALLOCATED = 1, 2
SYMBOL_TABLE, DYNAMIC_SYMBOLS, NO_BITS = 2, 11, 8
OBJECT_SYMBOL, FUNCTION_SYMBOL = 1, 2
UNDEFINED = 0
WORDS = 1 << 64


class BadElf(Exception):
    """Why a file isn't an ELF file of 64-bit RISC-V, in one line that begins with its path."""


@dataclasses.dataclass(frozen=True)
class Segment:
    """A segment to load: `memory_size` bytes from `address` on, the first `file_size` of them from the file, the rest zeros."""

    address: int
    offset: int
    file_size: int
    memory_size: int
    writable: bool
    executable: bool


@dataclasses.dataclass(frozen=True)
class Section:
    """A section that is in memory. Where `zeros` is true, it has no bytes in the file."""

    name: str
    address: int
    size: int
    zeros: bool


@dataclasses.dataclass(frozen=True)
class Symbol:
    """A symbol that the file defines."""

    name: str
    address: int
    size: int
    is_function: bool


@dataclasses.dataclass(frozen=True)
class Image:
    """A file: `kind` is OBJECT, EXECUTABLE or SHARED, `symbols` those of the symbol table, or, where there is none, of the dynamic one."""

    path: str
    kind: int
    machine: int
    entry: int
    segments: tuple
    sections: tuple
    symbols: tuple
    data: bytes = dataclasses.field(repr=False)

    @property
    def position_independent(self):
        """Whether a loader may put it at other addresses than those of the file."""
        return self.kind == SHARED

    def _segments_of(self, address, length):
        """The segments that have these bytes, one after the other, each with the first of these addresses and the number of bytes; None where one isn't mapped."""
        found, at, end = [], address, address + length
        while at < end:
            segment = next((s for s in self.segments if s.address <= at < s.address + s.memory_size), None)
            if segment is None:
                return None
            count = min(end, segment.address + segment.memory_size) - at
            found.append((segment, at, count))
            at += count
        return found

    def bytes_at(self, address, length):
        """The bytes in memory before anything runs, or None where one of them isn't mapped."""
        parts = self._segments_of(address, length)
        if parts is None:
            return None
        found = b""
        for segment, at, count in parts:
            first = at - segment.address
            stored = self.data[segment.offset + first : segment.offset + min(segment.file_size, first + count)] if first < segment.file_size else b""
            found += stored.ljust(count, b"\0")
        return found

    def stored_bytes(self, address, length):
        """How many of these bytes, from the first on, come from the file; the others are zeros by the file's word. None where one isn't mapped."""
        parts = self._segments_of(address, length)
        if parts is None:
            return None
        count = 0
        for segment, at, part in parts:
            stored = max(0, min(part, segment.address + segment.file_size - at))
            count += stored
            if stored < part:
                break
        return count

    def is_writable(self, address, length=1):
        """Whether one of these bytes is in a segment that may be written."""
        return any(s.writable and s.address < address + max(length, 1) and address < s.address + s.memory_size for s in self.segments)

    def is_executable(self, address):
        """Whether this byte is in a segment that may be executed."""
        return any(s.executable and s.address <= address < s.address + s.memory_size for s in self.segments)

    def section_at(self, address):
        """The name of the section that has this address, or None."""
        return next((s.name for s in self.sections if s.address <= address < s.address + s.size), None)

    def addresses_of(self, name):
        """The addresses of the symbols of this name, rising."""
        return sorted({symbol.address for symbol in self.symbols if symbol.name == name})

    @functools.cached_property
    def functions(self):
        """For each address of a function the first name that stands for it."""
        found = {}
        for symbol in self.symbols:
            if symbol.is_function:
                found.setdefault(symbol.address, symbol.name)
        return found

    def place(self, address):
        """What a person calls the address: `name`, `name+8`, or None where no symbol stands for it or spans it."""
        named = [symbol for symbol in self.symbols if not symbol.name.startswith("$")]
        exact = [symbol for symbol in named if symbol.address == address]
        spans = [symbol for symbol in named if symbol.address < address < symbol.address + symbol.size]
        if exact:
            return printable(max(exact, key=lambda symbol: (symbol.is_function, symbol.size)).name)
        if not spans:
            return None
        nearest = max(spans, key=lambda symbol: (symbol.address, symbol.is_function))
        return f"{printable(nearest.name)}+{address - nearest.address}"


def printable(name):
    """A name of a file or a symbol as it is shown, in one line."""
    return "".join(letter if letter.isprintable() else "?" for letter in name)


class _File:
    """The bytes of a file, read at places that lie in it."""

    def __init__(self, path, data):
        self.path, self.data = path, data

    def bad(self, why):
        return BadElf(f"{self.path}: {why}")

    def unpack(self, form, offset, what):
        if offset + struct.calcsize(form) > len(self.data):
            raise self.bad(f"{what} at byte {offset} doesn't lie in the file")
        return struct.unpack_from(form, self.data, offset)

    def text(self, strings, at):
        """The zero-ended name at this place of a section of strings."""
        offset, size = strings
        end = self.data.find(b"\0", offset + at, offset + size) if at < size else -1
        if end < 0:
            raise self.bad("a name of its tables has no end")
        return self.data[offset + at : end].decode("latin-1")


def parse(data, path):
    """The image of these bytes. `path` is what an error names."""
    file = _File(path, data)
    if data[:4] != b"\x7fELF":
        raise file.bad("not an ELF file")
    kind, machine, _, entry, program_headers, section_headers = file.unpack("<HHIQQQ", 16, "the header")
    if data[4] != 2:
        raise file.bad("an ELF file of 32 bits, not of 64")
    if data[5] != 1:
        raise file.bad("an ELF file with the high byte first")
    if machine != RISCV:
        raise file.bad(f"an ELF file of machine {machine}, not of RISC-V ({RISCV})")
    if kind not in (OBJECT, EXECUTABLE, SHARED):
        raise file.bad(f"an ELF file of type {kind}, neither a program nor a shared object")
    _, header_size, header_count, section_size, section_count, names = file.unpack("<HHHHHH", 52, "the header")
    segments = [] if header_count == 0 else _segments(file, program_headers, header_size, header_count)
    sections = [] if section_headers == 0 else _sections(file, section_headers, section_size, section_count)
    return Image(path, kind, machine, entry, tuple(segments), tuple(_in_memory(file, sections, names)), tuple(_symbols(file, sections)), data)


def read(path):
    """The image of the file at this path. Raises BadElf, or OSError."""
    with open(path, "rb") as file:
        return parse(file.read(), str(path))


def _segments(file, start, size, count):
    if size != 56:
        raise file.bad(f"its program headers have {size} bytes, not 56")
    for k in range(count):
        kind, flags, offset, address, _, file_size, memory_size, _ = file.unpack("<IIQQQQQQ", start + size * k, f"program header {k}")
        if kind != LOADED:
            continue
        if offset + file_size > len(file.data):
            raise file.bad(f"the bytes of segment {k} don't lie in the file")
        if file_size > memory_size or address + memory_size > WORDS:
            raise file.bad(f"the sizes of segment {k} are wrong")
        yield Segment(address, offset, file_size, memory_size, bool(flags & 2), bool(flags & 1))


def _sections(file, start, size, count):
    """The section headers as they stand."""
    if size != 64:
        raise file.bad(f"its section headers have {size} bytes, not 64")
    if count == 0:
        # So a file with more sections than the field has room for says it.
        count = file.unpack("<Q", start + 32, "section header 0")[0]
        if count > len(file.data) // size:
            raise file.bad(f"its {count} section headers don't lie in the file")
    return [file.unpack("<IIQQQQIIQQ", start + size * k, f"section header {k}") for k in range(count)]


def _strings(file, sections, index, what):
    """Where the section of this index lies in the file."""
    if index >= len(sections):
        raise file.bad(f"{what} names a section that isn't there")
    offset, size = sections[index][4:6]
    if offset + size > len(file.data):
        raise file.bad(f"section {index} doesn't lie in the file")
    return offset, size


def _in_memory(file, sections, names):
    """The sections that are in memory. Where their names have no section, they have none."""
    strings = _strings(file, sections, names, "the header") if 0 < names < len(sections) else None
    for name, kind, flags, address, _, size, *_ in sections:
        if flags & ALLOCATED and size:
            yield Section(file.text(strings, name) if strings else "", address, size, kind == NO_BITS)


def _symbols(file, sections):
    table = next((s for kind in (SYMBOL_TABLE, DYNAMIC_SYMBOLS) for s in sections if s[1] == kind), None)
    if table is None:
        return
    offset, size, link = table[4:7]
    if offset + size > len(file.data):
        raise file.bad("its symbol table doesn't lie in the file")
    strings = _strings(file, sections, link, "the symbol table")
    for place in range(offset, offset + size - size % 24, 24):
        name, info, _, section, value, length = file.unpack("<IBBHQQ", place, "a symbol")
        if name and section != UNDEFINED and info & 15 in (0, OBJECT_SYMBOL, FUNCTION_SYMBOL):
            yield Symbol(file.text(strings, name), value, length, info & 15 == FUNCTION_SYMBOL)
