"""ELF files: which are read, and which bytes of them may be executed."""

from struct import unpack_from
from typing import NamedTuple

MOST_SEGMENTS = 64
MOST_MEMORY = 1 << 30
SPACE = 1 << 64
LOADED = 1
SYMBOL_TABLE = 2
FUNCTION = 2
EXECUTABLE = 1


class Unreadable(Exception):
    """The file isn't of this format; the words say why."""


class Segment(NamedTuple):
    """A segment that is loaded."""

    number: int
    flags: int
    offset: int
    address: int
    in_file: int
    in_memory: int


class Section(NamedTuple):
    """A section of the file."""

    kind: int
    offset: int
    size: int
    link: int
    entry_size: int


class ElfFile:
    """An ELF file's bytes and segments."""

    def __init__(self, data):
        """Unreadable where it isn't one; the first fault is told."""
        self.data = data
        self.check_head()
        self.segments = self.read_segments()
        self.check_segments()
        self.check_symbols()

    def lies(self, offset, size):
        """Unreadable where these bytes don't lie in the file."""
        if offset + size > len(self.data):
            raise Unreadable(f"cut {min(offset, SPACE - 1)}")

    def check_head(self):
        """The first 64 bytes."""
        data = self.data
        if data[:4] != b"\x7fELF":
            raise Unreadable("not-elf")
        if len(data) < 64:
            raise Unreadable("cut 0")
        if data[4] != 2:
            raise Unreadable("class")
        if data[5] != 1:
            raise Unreadable("order")
        kind, machine = unpack_from("<HH", data, 16)
        if kind not in (2, 3):
            raise Unreadable(f"kind {kind}")
        if machine != 243:
            raise Unreadable(f"machine {machine}")

    def read_segments(self):
        """The segments to load."""
        offset, = unpack_from("<Q", self.data, 32)
        size, count = unpack_from("<HH", self.data, 54)
        if count and size != 56:
            raise Unreadable(f"entry {size}")
        segments = []
        for number in range(count):
            place = offset + number * size
            self.lies(place, size)
            kind, flags, start, address, _, in_file, in_memory, _ = unpack_from(
                "<IIQQQQQQ", self.data, place)
            if kind == LOADED:
                segments.append(Segment(number, flags, start, address, in_file, in_memory))
        return segments

    def check_segments(self):
        """How many segments there are, each of them, and all together."""
        segments = self.segments
        if len(segments) > MOST_SEGMENTS:
            raise Unreadable(f"too-many {len(segments)}")
        for segment in segments:
            if segment.in_file > segment.in_memory:
                raise Unreadable(f"sizes {segment.number}")
            self.lies(segment.offset, segment.in_file)
            if segment.address + segment.in_memory > SPACE:
                raise Unreadable(f"wraps {segment.number}")
        memory = sum(segment.in_memory for segment in segments)
        if memory > MOST_MEMORY:
            raise Unreadable(f"too-big {memory}")
        for index, first in enumerate(segments):
            for second in segments[index + 1:]:
                if (max(first.address, second.address)
                        < min(first.address + first.in_memory,
                              second.address + second.in_memory)):
                    raise Unreadable(f"overlap {first.number} {second.number}")

    def read_sections(self):
        """The sections."""
        offset, = unpack_from("<Q", self.data, 40)
        size, count = unpack_from("<HH", self.data, 58)
        if offset == 0 or count == 0:
            return []
        if size != 64:
            raise Unreadable(f"entry {size}")
        sections = []
        for number in range(count):
            place = offset + number * size
            self.lies(place, size)
            _, kind, _, _, start, length, link, _, _, entry_size = unpack_from(
                "<IIQQQQIIQQ", self.data, place)
            sections.append(Section(kind, start, length, link, entry_size))
        return sections

    def check_symbols(self):
        """The symbol table, where there is one."""
        sections = self.read_sections()
        table = next((section for section in sections if section.kind == SYMBOL_TABLE), None)
        if table is None:
            return
        if table.entry_size != 24:
            raise Unreadable(f"entry {table.entry_size}")
        self.lies(table.offset, table.size)
        if table.link >= len(sections):
            raise Unreadable("symbols")
        names = sections[table.link]
        self.lies(names.offset, names.size)
        held = self.data[names.offset:names.offset + names.size]
        for number in range(table.size // 24):
            name, info, _, section = unpack_from("<IBBH", self.data, table.offset + 24 * number)
            if info & 15 == FUNCTION and section != 0 and b"\0" not in held[name:]:
                raise Unreadable("symbols")

    def executes(self, code):
        """Whether each byte of a code is one of the file's in an executable segment."""
        return all(self.executes_range(start, held) for start, held in code)

    def executes_range(self, start, held):
        """The same of one range, which may lie in several segments."""
        while held:
            for segment in self.segments:
                offset = start - segment.address
                if segment.flags & EXECUTABLE and 0 <= offset < segment.in_file:
                    break
            else:
                return False
            count = min(len(held), segment.in_file - offset)
            place = segment.offset + offset
            if self.data[place:place + count] != held[:count]:
                return False
            start, held = start + count, held[count:]
        return True
