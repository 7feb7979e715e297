"""ELF files that the scripts make: their segments and, where they have names, a table of symbols."""
import struct

BASE = 0x10000


def write_elf(path, segments, symbols=()):
    """Writes an ELF file: segments of address, front of the bytes, size in the file and in memory; symbols of name and value."""
    place = 64 + 56 * len(segments)
    headers, parts = b"", []
    for at, front, file_size, memory_size in segments:
        headers += struct.pack("<IIQQQQQQ", 1, 7, place, at, at, file_size, memory_size, 4)
        parts.append((place, front))
        place += file_size
    shoff = 0
    if symbols:
        table, strings = bytearray(24), bytearray(1)
        for name, value in symbols:
            table += struct.pack("<IBBHQQ", len(strings), 2, 0, 1, value, 0)
            strings += name.encode() + b"\0"
        sections = bytes(64)
        sections += struct.pack("<IIQQQQIIQQ", 0, 2, 0, 0, place, len(table), 2, 0, 8, 24)
        sections += struct.pack("<IIQQQQIIQQ", 0, 3, 0, 0, place + len(table), len(strings), 0, 0, 1, 0)
        parts.append((place, table + strings + sections))
        shoff = place + len(table) + len(strings)
        place = shoff + len(sections)
    header = b"\x7fELF\x02\x01\x01" + bytes(9)
    header += struct.pack("<HHIQQQIHHHHHH", 2, 243, 1, BASE, 64, shoff, 0, 64, 56, len(segments), 64, 3 if symbols else 0, 0)
    with open(path, "wb") as file:
        file.write(header + headers)
        for offset, part in parts:
            file.seek(offset)
            file.write(part)
        file.truncate(place)
