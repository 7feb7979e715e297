"""ELF files that were thought out, and words for `eval`."""

SPACE = 1 << 64


def packed(*fields):
    """Pairs of a number and its size in bytes, one behind the other."""
    return b"".join((value % (1 << 8 * size)).to_bytes(size, "little") for value, size in fields)


def segment(address=0x20000, offset=0, in_file=64, in_memory=None, kind=1, flags=5):
    """A program header."""
    return packed((kind, 4), (flags, 4), (offset, 8), (address, 8), (address, 8), (in_file, 8),
                  (in_file if in_memory is None else in_memory, 8), (1, 8))


def section(kind=0, offset=0, size=0, link=0, entry=0):
    """A section header."""
    return packed((0, 4), (kind, 4), (0, 8), (0, 8), (offset, 8), (size, 8), (link, 4), (0, 4),
                  (1, 8), (entry, 8))


def symbol(name=0, info=2, index=1):
    """A symbol."""
    return packed((name, 4), (info, 1), (0, 1), (index, 2), (0x20000, 8), (0, 8))


def elf(segments=(), sections=(), symbols=(), names=b"\0", behind=b"", **other):
    """A file of these parts: the head, program headers, symbols, names, section headers."""
    heads = b"".join(segments)
    table = b"".join(symbols) + other.get("rest", b"")
    place = 64 + len(heads)
    if symbols or "rest" in other:
        sections = [section(), section(2, place, len(table), other.get("link", 2),
                                       other.get("entry_size", 24)),
                    section(3, place + len(table), len(names) + other.get("more_names", 0))]
        sections += other.get("more", [])
    body = heads + table + names
    file_class, order = other.get("kind_bytes", (2, 1))
    head = b"\x7fELF" + packed(
        (file_class, 1), (order, 1), (1, 1), (0, 9), (other.get("type", 2), 2),
        (other.get("machine", 243), 2), (1, 4), (0, 8),
        (other.get("segments_at", 64), 8), (other.get("sections_at", 64 + len(body)), 8), (0, 4),
        (64, 2), (other.get("segment_size", 56), 2), (other.get("segment_count", len(segments)), 2),
        (other.get("section_size", 64), 2), (other.get("section_count", len(sections)), 2), (0, 2))
    return head + body + b"".join(sections) + behind


def files():
    """Names and files."""
    whole = elf([segment()], symbols=[symbol()])
    for size in (0, 3, 4, 5, 63, 64):
        yield f"front-{size}", whole[:size]
    yield "whole", whole
    yield "magic", b"\x7fELG" + whole[4:]
    for name, parts in (
            ("class", {"kind_bytes": (1, 1)}), ("order", {"kind_bytes": (2, 2)}),
            ("both", {"kind_bytes": (1, 2)}), ("type-1", {"type": 1}), ("type-3", {"type": 3}),
            ("type-4", {"type": 4}), ("machine", {"machine": 62}),
            ("type-machine", {"type": 0, "machine": 0}), ("segment-size", {"segment_size": 57}),
            ("segment-size-0", {"segment_size": 0}),
            ("no-segments", {"segment_size": 0, "segment_count": 0}),
            ("segments-at", {"segments_at": 1 << 40}), ("segments-at-0", {"segments_at": 0}),
            ("segments-at-end", {"segments_at": SPACE - 1, "segment_count": 3}),
            ("segments-65535", {"segment_count": 65535}),
            ("section-size", {"section_size": 63}), ("sections-0", {"section_count": 0}),
            ("sections-0-size", {"section_count": 0, "section_size": 1}),
            ("sections-at-0", {"sections_at": 0}), ("sections-at-0-size", {"sections_at": 0, "section_size": 1}),
            ("sections-at", {"sections_at": 1 << 50}), ("sections-at-end", {"sections_at": SPACE - 1}),
            ("sections-many", {"section_count": 5}), ("link-3", {"link": 3}), ("link-0", {"link": 0}),
            ("link-1", {"link": 1}), ("entry-size-0", {"entry_size": 0}), ("entry-size-25", {"entry_size": 25}),
            ("rest", {"rest": b"x" * 23}), ("more-names", {"more_names": 1 << 40}),
            ("second-table", {"more": [section(2, 1 << 40, 5, 99, 7)]}),
            ("segment-and-section", {"section_size": 1, "segment_size": 1})):
        yield name, elf([segment()], **{"symbols": [symbol()], **parts})
    for name, symbols, names in (
            ("past", [symbol(1)], b"\0"), ("past-2", [symbol(2)], b"\0"), ("no-zero", [symbol(0)], b"a"),
            ("no-zero-2", [symbol(1)], b"\0a"), ("empty-names", [symbol(0)], b""),
            ("object", [symbol(9, 1)], b"\0"), ("undefined", [symbol(9, 2, 0)], b"\0"),
            ("absolute", [symbol(9, 2, 0xFFF1)], b"\0"), ("common", [symbol(9, 2, 0xFFF2)], b"\0"),
            ("reserved", [symbol(9, 2, 0xFF00)], b"\0"), ("past-sections", [symbol(9, 2, 77)], b"\0"),
            ("extended", [symbol(9, 2, 0xFFFF)], b"\0"), ("indirect", [symbol(9, 10)], b"\0"),
            ("global", [symbol(9, 0x12)], b"\0"), ("first", [symbol(9, 2)] + [symbol()], b"\0"),
            ("high", [symbol((1 << 32) - 1)], b"\0")):
        yield "symbol-" + name, elf([segment()], symbols=symbols, names=names)
    for name, segments in (
            ("cut", [segment(in_file=1 << 20)]), ("sizes", [segment(in_file=9, in_memory=8)]),
            ("cut-empty", [segment(offset=1 << 20, in_file=0)]),
            ("end-empty", [segment(offset=120, in_file=0)]), ("end-empty-1", [segment(offset=122, in_file=0)]),
            ("cut-end", [segment(offset=SPACE - 1, in_file=5)]),
            ("wraps-not", [segment(SPACE - 64)]), ("wraps", [segment(SPACE - 63)]),
            ("wraps-empty", [segment(SPACE - 1, in_file=0)]),
            ("big", [segment(in_memory=1 << 30)]), ("too-big", [segment(in_memory=(1 << 30) + 1)]),
            ("too-big-two", [segment(0, 0, 0, 1 << 30), segment(1 << 40, 0, 0, 1)]),
            ("other-kind", [segment(in_file=1 << 60, kind=2), segment()]),
            ("second-fault", [segment(), segment(in_file=9, in_memory=8)]),
            ("order", [segment(in_file=1 << 20), segment(in_file=9, in_memory=8)]),
            ("sizes-cut", [segment(in_file=1 << 20, in_memory=5)]),
            ("cut-wraps", [segment(SPACE - 1, in_file=1 << 20)]),
            ("number", [segment(kind=6), segment(in_file=9, in_memory=8)]),
            ("overlap", [segment(), segment(0x2003F)]), ("overlap-not", [segment(), segment(0x20040)]),
            ("overlap-empty", [segment(), segment(0x20010, in_file=0)]),
            ("overlap-three", [segment(0x10), segment(0x20000), segment(0x20000), segment(0x10)]),
            ("overlap-kind", [segment(kind=4), segment(0x10), segment(0x10)]),
            ("overlap-too-big", [segment(in_memory=1 << 30), segment(in_memory=1 << 30)]),
            ("many", [segment(0x1000 * n) for n in range(64)]),
            ("too-many", [segment(0x1000 * n) for n in range(65)]),
            ("too-many-sizes", [segment(in_file=9, in_memory=8) for n in range(65)]),
            ("overlap-table", [segment(), segment()])):
        yield "segment-" + name, elf(segments, symbols=[symbol()] if name != "overlap-table" else (),
                                     section_size=64 if name != "overlap-table" else 1,
                                     section_count=3)


def code_files():
    """Names, files and texts: a group's code of eight bytes, in several ways in a file."""
    text = ("mcproof 1\ngroup g\nregs\nmems 0\ncode (0x20000 4142434445464748)\ndef 0x0\nagain ;\n"
            "def 0x1\ncall 0 0 ;\nloop 1\nend\n").encode()
    code = bytes(range(0x41, 0x49))
    for name, segments, held in (
            ("one", [segment(0x20000, 64 + 56, 8)], code),
            ("two", [segment(0x20000, 64 + 112, 3), segment(0x20003, 64 + 115, 5)], code),
            ("two-turned", [segment(0x20003, 64 + 115, 5), segment(0x20000, 64 + 112, 3)], code),
            ("gap", [segment(0x20000, 64 + 112, 3), segment(0x20004, 64 + 116, 4)], code),
            ("flags-4", [segment(0x20000, 64 + 56, 8, flags=4)], code),
            ("flags-1", [segment(0x20000, 64 + 56, 8, flags=1)], code),
            ("flags-9", [segment(0x20000, 64 + 56, 8, flags=0x80000001)], code),
            ("kind", [segment(0x20000, 64 + 56, 8, kind=6)], code),
            ("shorter", [segment(0x20000, 64 + 56, 7, 100)], code),
            ("other", [segment(0x20000, 64 + 56, 8)], code[:7] + b"x"),
            ("before", [segment(0x1FFF0, 64 + 40, 24)], code),
            ("two-flags", [segment(0x20000, 64 + 112, 3), segment(0x20003, 64 + 115, 5, flags=6)], code)):
        yield "code-" + name, elf(segments, behind=held, segments_at=64, names=b"", sections_at=0), text
    zeros = text.replace(b"4142434445464748", b"41420000")
    yield "padding", elf([segment(0x20000, 120, 2, 8)], behind=code, names=b"", sections_at=0), zeros
    empty = text.replace(b" (0x20000 4142434445464748)", b"")
    yield "empty", elf(names=b"", sections_at=0), empty
    yield "fault-first", b"x", b"x"


def eval_words():
    """Lists of words behind the file for `eval`, and the text."""
    text = ("mcproof 4\ngroup g\nregs 5 10\nmems 2\ncode\ndef 0x0 0x8 ret\n"
            "let (ld8 m0 v1)\nletm (st4 m1 v1 v0)\nneed (in2 m0 v1)\nif (eq v0 0x0)\n"
            "need (in8 m0 v1)\nleave 0 v2 v1 ; m0 m2\nelse\nneed (in8 m1 v1)\n"
            "leave 1 v0 v2 v1 ; m2 m0\ndef 0x4 ret\nif (ltu v0 0x3)\nagain (add v0 0x1) v1 ; m0 m1\n"
            "else\ncall 0 2 v0 v1 ; m0 m1\narm\nleave 0 v2 v2 v3 ; m2 m3\narm\n"
            "leave 0 v2 v3 v4 ; m2 m3\nend\n").encode()
    for words in (
            "g 9", "g 0", "g 1", "g 4", "g 5", "h 9", "g 09", "g 18446744073709551615",
            "g 18446744073709551616", "g 0x9", "g -1", "g 9 x10=0x10 mem=0x10:0102",
            "g 9 x10=0x10 mem=0x10:0102030405060708 stk=0x10:1112131415161718",
            "g 9 x10=0x10 mem=0x10:0102030405060708 stk=0x10:11121314151617",
            "g 9 x10=0x10 stk=0x10:1112131415161718 mem=0x10:0102030405060708 mem=0x12:ffff mem=0x8:00",
            "g 9 x10=0xffffffffffffffff mem=0xffffffffffffffff:01 mem=0x0:02030405060708 "
            "stk=0xffffffffffffffff:01 stk=0x0:02030405060708",
            "g 9 x5=0x7 x10=0x10 mem=0x10:0102030405060708 stk=0x10:1112131415161718",
            "g 9 x10=0x10 x10=0x10", "g 9 x10=0x10 x5=0x00", "g 9 x10=16", "g 9 x0=0x0", "g 9 x32=0x0",
            "g 9 x01=0x0", "g 9 x10=0xA", "g 9 x10=0x10000000000000000", "g 9 x31=0x1", "g 9 mem=0x0:",
            "g 9 mem=0x0:0", "g 9 mem=0x0:0A", "g 9 mem=0xffffffffffffffff:00",
            "g 9 mem=0xffffffffffffffff:0000", "g 9 mem=0x0:00:00", "g 9 mem=:00", "g 9 mem=0:00",
            "g 9 stm=0x0:00", "g 9 x10", "g 9 =", "g(h 9", "; 9", "g 9 x10=", "g 9 MEM=0x0:00"):
        yield words.split(" "), text
