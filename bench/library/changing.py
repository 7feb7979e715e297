"""Texts of proofs and ELF files that are changed at random: by bytes, and by what they are made of, so that many changes keep the form."""
import re

ATOM = re.compile(rb"[^ ();\n]+")
NUMBERS = tuple(re.compile(form) for form in (rb"[vmt]\d+", rb"0x[0-9a-f]+", rb"\d+"))
# What may stand for an atom: another one of its kind. The last kind is any other word.
WORDS = (
    rb"add|sub|sll|slt|sltu|xor|srl|sra|or|and|mul|mulh|mulhsu|mulhu|div|divu|rem|remu|addw|subw|sllw|srlw|sraw|mulw|divw|divuw|remw|remuw",
    rb"eq|ne|lt|ge|ltu|geu",
    *(rb"sx[124]", rb"ld[1248]", rb"st[1248]", rb"in[1248]"),
    rb"axiom|inst|frame|extend|compose|strengthen|weaken|discharge|use|steer|exchange",
    rb"next|taken",
    rb".*",
)
KINDS = NUMBERS + tuple(re.compile(words) for words in WORDS)
TERMS = re.compile(rb"\([^()]*(?:\([^()]*(?:\([^()]*\)[^()]*)*\)[^()]*)*\)")
BYTES = b" \n();0123456789abcdefvmtx\0\xff"
EDGES = (0, 1, 2, 4, 7, 8, 31, 63, 64, 255, 4095, 4096, 65535, 65536, (1 << 31) - 1, 1 << 31, (1 << 32) - 1, (1 << 63) - 1, 1 << 63, (1 << 64) - 1)


def spliced(data, start, end, piece):
    return data[:start] + piece + data[end:]


def change_bytes(draw, data, others=None):
    """A byte is replaced, some are left out, or some stand twice."""
    place, way = draw.randrange(len(data)), draw.randrange(4)
    end = min(len(data), place + draw.choice((1, 1, 2, 8, 64)))
    if way == 0:
        return spliced(data, place, end, b"")
    if way == 1:
        return spliced(data, place, place, data[place:end])
    return spliced(data, place, place + 1, bytes([draw.choice(others) if others else draw.randrange(256)]))


def near(draw, atom):
    """A number near the one of an atom, or at an edge, written as the atom is."""
    front = re.match(rb"[vmt]?", atom)[0]
    base = 16 if atom.startswith(b"0x") else 10
    number = int(atom[len(front) :], base)
    number = draw.choice((number + 1, max(number - 1, 0), number ^ 1, 2 * number, number // 2, draw.choice(EDGES)))
    return front + (b"%#x" % number if base == 16 else b"%d" % number)


def kind_of(atom):
    return next(kind for kind in KINDS if kind.fullmatch(atom))


def other_atom(draw, text, atom):
    """Another atom of the same kind: one of the text, or a number nearby."""
    kind = kind_of(atom)
    if kind in NUMBERS and draw.random() < 0.5:
        return near(draw, atom)
    same = sorted({it for it in ATOM.findall(text) if kind_of(it) is kind} - {atom})
    return draw.choice(same) if same else atom


def change_atom(draw, text):
    found = draw.choice(list(ATOM.finditer(text)))
    return spliced(text, *found.span(), other_atom(draw, text, found[0]))


def change_atom_everywhere(draw, text):
    """An atom is replaced in the whole text, or in one group's definitions."""
    atom = draw.choice(ATOM.findall(text))
    new = other_atom(draw, text, atom)
    return ATOM.sub(lambda found: new if found[0] == atom else found[0], text)


def swap_atoms(draw, text):
    """Two atoms of one kind in a line change places."""
    lines = text.split(b"\n")
    place = draw.randrange(len(lines))
    atoms = list(ATOM.finditer(lines[place]))
    kind = kind_of(draw.choice(atoms)[0]) if atoms else None
    same = [atom for atom in atoms if kind_of(atom[0]) is kind]
    if len(same) > 1:
        line = lines[place]
        first, second = sorted(draw.sample(same, 2), key=lambda atom: atom.start())
        lines[place] = line[: first.start()] + second[0] + line[first.end() : second.start()] + first[0] + line[second.end() :]
    return b"\n".join(lines)


def change_term(draw, text):
    """What stands in brackets is replaced by what stands in others that begin with a word of the same kind."""
    found = list(TERMS.finditer(text))
    if not found:
        return text
    old = draw.choice(found)
    kinds = {kind_of(ATOM.search(old[0])[0])} if ATOM.search(old[0]) else set()
    same = [it[0] for it in found if ATOM.search(it[0]) and kind_of(ATOM.search(it[0])[0]) in kinds]
    return spliced(text, *old.span(), draw.choice(same)) if same else text


def change_line(draw, text):
    """A line is left out, stands twice, or stands in another place, or instead of another."""
    lines = text.split(b"\n")
    # Most often a line of the proof, which may stand anywhere there.
    first = next((i for i, line in enumerate(lines) if line.startswith((b"axiom", b"term"))), 0) if draw.random() < 0.8 else 0
    place, other, way = draw.randrange(first, len(lines)), draw.randrange(first, len(lines)), draw.randrange(4)
    line = lines[place]
    if way in (0, 2):
        del lines[place]
    if way == 3:
        lines[other % len(lines)] = line
    elif way > 0:
        lines.insert(other, line)
    return b"\n".join(lines)


def condition(draw, text):
    """A comparison of two words of the text, or of one with itself."""
    words = re.findall(rb"v\d+|0x[0-9a-f]+", text)
    first, second = draw.choice(words), draw.choice(words)
    return b"(%b %b %b)" % (draw.choice((b"eq", b"ne", b"lt", b"geu")), first, draw.choice((first, second)))


def places(lines, *words):
    """Where the lines stand that begin with one of these words."""
    return [place for place, line in enumerate(lines) if line.split(b" ", 1)[0] in words]


def add_need(draw, text):
    """A side condition more in a body."""
    lines = text.split(b"\n")
    bodies = places(lines, b"let", b"letm", b"need", b"if", b"call", b"again", b"leave")
    if bodies:
        lines.insert(draw.choice(bodies), b"need " + condition(draw, text))
    return b"\n".join(lines)


def add_value(draw, text):
    """A value more right before a body's end, where no number of a variable changes by it."""
    lines = text.split(b"\n")
    ends = places(lines, b"again", b"leave")
    words = [term[0] for term in TERMS.finditer(text) if re.match(rb"\((?:%b) " % WORDS[0], term[0])]
    if ends:
        lines.insert(draw.choice(ends), b"let " + draw.choice(words or [b"0x0"]))
    return b"\n".join(lines)


def fork_end(draw, text):
    """The end of a body stands twice, in both arms of a branch, and its theorem is cited twice."""
    lines = text.split(b"\n")
    ends = places(lines, b"again", b"leave")
    if not ends:
        return text
    end = draw.choice(ends)
    before = places(lines[:end], b"def")
    own = len(places(lines[before[-1] : end], b"again", b"leave")) if before else 0
    for place in places(lines, b"loop"):
        words = lines[place].split(b" ")
        if words[1:2] == [b"%d" % (len(before) - 1)] and own + 2 < len(words):
            lines[place] = b" ".join(words[: own + 3] + words[own + 2 :])
    lines[end : end + 1] = [b"if " + condition(draw, text), lines[end], b"else", lines[end]]
    return b"\n".join(lines)


def add_line_at_end(draw, text):
    """A line of the proof stands again at its end."""
    lines = text.split(b"\n")
    if b"end" in lines:
        lines.insert(lines.index(b"end"), draw.choice(lines))
    return b"\n".join(lines)


def add_group(draw, text):
    """The first group stands twice."""
    title = text[: text.find(b"\n") + 1]
    return text.replace(title, text.replace(b"\nend\n", b"\n"), 1).replace(b"\n" + title, b"\n") if title else text


TEXT_CHANGES = (
    (lambda draw, text: change_bytes(draw, text, BYTES), 2),
    (change_atom, 6),
    (change_atom_everywhere, 4),
    (swap_atoms, 3),
    (change_term, 4),
    (change_line, 4),
    (add_need, 2),
    (add_value, 2),
    (fork_end, 3),
    (add_line_at_end, 2),
    (add_group, 1),
)


def changed_text(draw, text):
    """The text after one change to three."""
    changes, weights = zip(*TEXT_CHANGES)
    for change in draw.choices(changes, weights, k=draw.choice((1, 1, 1, 2, 3))):
        text = change(draw, text) if text else text
    return text


def change_number(draw, file):
    """Some bytes become a number at an edge, or near the one that they are; in the front half of the time, where the headers are."""
    size = draw.choice((1, 2, 4, 8))
    place = draw.randrange(min(176, len(file)) if draw.random() < 0.5 else len(file)) // size * size
    old = int.from_bytes(file[place : place + size], "little")
    new = draw.choice((old + 1, old - 1, old ^ 1 << draw.randrange(8 * size), 2 * old, len(file) - old, draw.choice(EDGES)))
    return spliced(file, place, place + size, (new % (1 << 8 * size)).to_bytes(size, "little"))


def change_length(draw, file):
    """The file is cut, or longer."""
    return file[: draw.randrange(len(file))] if draw.random() < 0.5 else file + bytes(draw.choice((1, 4, 64, 5000)))


def changed_elf(draw, file, code):
    """The file after one change to three, half of them among the bytes of the code, which begins and ends there."""
    for _ in range(draw.choice((1, 1, 1, 2, 3))):
        start, end = code
        if draw.random() < 0.5 and end <= len(file):
            place = draw.randrange(start, end)
            new = file[place] ^ 1 << draw.randrange(8) if draw.random() < 0.5 else draw.randrange(256)
            file = spliced(file, place, place + 1, bytes([new]))
        else:
            file = draw.choice((change_number, change_number, change_number, change_bytes, change_length))(draw, file or b"\0")
    return file
