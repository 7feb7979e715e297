"""What a person may do about an answer that isn't a plain yes: docs/COMMANDS.md's words about the line, and what the files at hand say."""
import difflib
import functools
import os
import re
import stat
import textwrap

from mc import program
from mc.words import READ, shown, usage_of

DOCUMENT = program.TOP / "docs" / "COMMANDS.md"
WIDTH = 96
# A word of capitals, or one capital letter, in a line of the document stands for a word of the answer; WHY for all that follows.
PLACE = re.compile(r"[A-Z]+")
SPANS = re.compile(r"(?:\*\*)?`([^`]+)`(?:\*\*)?(?:,? (?:and|or) |, )?")
# Where the reasons of a line that ends in WHY stand.
REASONS = {"refused": "decompile ", "unreadable": "ELF files"}
GENERAL = "Exit statuses"


# ---------------------------------------------------------------- the document

class Entry:
    """A row of a table or an item of a list of the document: the lines that it is about, and what it says of them."""

    def __init__(self, section, lines, text):
        self.section, self.lines, self.text = section, lines, text


def cells(line):
    """The cells of a row of a table. A bar in a line of the program stands between backquotes."""
    return [cell.strip() for cell in re.split(r"\|(?=(?:[^`]*`[^`]*`)*[^`]*$)", line.strip().strip("|"))]


def leading_spans(text):
    """The pieces of code that a text begins with, and the text behind them."""
    found = []
    while match := SPANS.match(text):
        found.append(match[1])
        text = text[match.end() :]
    return found, text


def rows(section, block):
    """The entries of a table: the column of lines is the first that has code in most rows."""
    head, _, *body = [cells(line) for line in block]
    place = next((k for k, title in enumerate(head) if re.match(r"Lines?\b|WHY\b", title)), 0)
    for row in body:
        spans = re.findall(r"`([^`]+)`", row[place]) if place < len(row) else []
        text = " ".join(sentence(cell) for cell in row[place + 1 :] if cell)
        yield Entry(section, spans, text)


def sentence(text):
    """A cell or an item as sentences of their own."""
    text = text[:1].upper() + text[1:]
    return text if not text or text.endswith((".", "?", ":")) else f"{text}."


def items(section, block):
    """The entries of a list: each item begins with the lines that it is about, maybe behind a status."""
    text = " ".join(line.strip() for line in block)
    text = re.sub(r"^[-*] (?:\*\*)?(?:\d+(?:, \d+)*[,:]? )?", "", text)
    spans, rest = leading_spans(text)
    if spans:
        yield Entry(section, spans, sentence(rest.lstrip("*:., )—–-").strip()))


@functools.lru_cache(None)
def entries():
    """All entries of the document."""
    found, section, block = [], "", []

    def close():
        if len(block) > 2 and block[0].lstrip().startswith("|"):
            found.extend(rows(section, block))
        elif block and re.match(r"\s*[-*] ", block[0]):
            found.extend(items(section, block))
        block.clear()

    for line in DOCUMENT.read_text(encoding="utf8").splitlines():
        is_row, is_item = line.lstrip().startswith("|"), re.match(r"\s*[-*] ", line)
        goes_on = block and (block[0].lstrip().startswith("|") and is_row or not block[0].lstrip().startswith("|") and line.startswith("  ") and not is_item)
        if not goes_on:
            close()
        if line.startswith("## "):
            section = line[3:].strip()
        elif is_row or is_item or goes_on:
            block.append(line)
    close()
    return found


def matches(pattern, line):
    """Whether a line of the document stands for a line of the program."""
    words = [r"(?:.*)" if word == "WHY" else r"\S+" if PLACE.fullmatch(word) else re.escape(word) for word in pattern.split()]
    return re.fullmatch(" ".join(words), line) is not None


def found_in(section, line):
    """The entries of a section that are about a line, each with the form of the line. Those with a WHY come last."""
    found = [(span, entry.text) for entry in entries() if entry.section.startswith(section) for span in entry.lines if matches(span, line)]
    return sorted(found, key=lambda pair: "WHY" in pair[0])


def reason_of(command, line):
    """The entry that is about the WHY of a refusal or of an unreadable file."""
    first, *rest = line.split()
    if first not in REASONS or len(rest) < 2:
        return []
    reason = " ".join(rest[1:])
    return (found_in(f"{command} ", reason) or found_in(REASONS[first], reason))[:1]


def told(command, line, seen=()):
    """The entries of the document that are about a line of a command: the form of the line, and what is said of it."""
    found = found_in(f"{command} ", line)[:1]
    other = re.match(r"As for (?:NAME of )?`(\w+)`", found[0][1]) if found else None
    if other and other[1] not in seen:
        found = told(other[1], line, (*seen, command)) or found
    if not found or "WHY" in found[0][0]:
        found = reason_of(command, line) or found
    general = [pair for pair in found_in(GENERAL, line)[:1] if not found or "WHY" not in pair[0]]
    return found + [pair for pair in general if pair not in found]


# ---------------------------------------------------------------- the files at hand

def reason(error):
    """What the system says of a file, in short."""
    return "no such file" if isinstance(error, FileNotFoundError) else error.strerror.lower()


def why_unreadable(path):
    """Why a file can't be read, or None."""
    try:
        kind = os.stat(path).st_mode
    except OSError as bad:
        if os.path.islink(path):
            return f"a link to {os.readlink(path)}, and {reason(bad)}"
        near = near_files(path)
        return reason(bad) + (f"; there is {near}" if near else f" (looked for in {os.path.dirname(os.path.abspath(path))})")
    if stat.S_ISDIR(kind):
        return "a folder"
    if not stat.S_ISREG(kind):
        return "a pipe or a device"
    if not os.access(path, os.R_OK):
        return "you may not read it"
    return None


def near_files(path):
    """Files of nearly that name in its folder."""
    try:
        names = os.listdir(os.path.dirname(path) or ".")
    except OSError:
        return ""
    near = difflib.get_close_matches(os.path.basename(path), names, 3, 0.7)
    return " and ".join(shown(os.path.join(os.path.dirname(path), name)) for name in near)


def why_unwritable(path):
    """Why a file can't be written, or None."""
    folder = os.path.dirname(path) or "."
    if os.path.isdir(path):
        return "a folder"
    if not os.path.isdir(folder):
        return f"the folder {shown(folder)} isn't there"
    if len(os.fsencode(os.path.basename(path))) > 255:
        return "its name has more than 255 bytes"
    if os.path.exists(path):
        return None if os.access(path, os.W_OK) else "you may not write it"
    return None if os.access(folder, os.W_OK) else f"you may not write to the folder {shown(folder)}"


def of_reading(reading):
    """Which file couldn't be read."""
    for parameter in READ:
        path = reading.files.get(parameter)
        why = why_unreadable(path) if path else None
        if why:
            return [f"{parameter} {shown(path)}: {why}{'. Options stand before the command: mc -v eval ..' if path.startswith('-') else ''}"]
    return ["one of the files couldn't be read"]


def of_writing(reading):
    out = reading.files.get("OUT")
    why = why_unwritable(out) if out else None
    return [f"OUT {shown(out)}: {why}"] if why else []


def begins_with(path, front):
    try:
        with open(path, "rb") as file:
            return file.read(len(front)) == front
    except OSError:
        return False


def of_kind(reading, line):
    """Where a file is of another kind than the words say: what it is."""
    proof, elf = reading.files.get("PROOF", ""), reading.files.get("ELF", "")
    if line == "unreadable elf not-elf":
        if begins_with(elf, b"mcproof "):
            return [f"ELF {shown(elf)} is a proof file: {usage_of(reading.command)}"]
        return [f"ELF {shown(elf)} is no ELF file"]
    if line == "unreadable text 1" and begins_with(proof, b"\x7fELF"):
        return [f"PROOF {shown(proof)} is an ELF file: {usage_of(reading.command)}"]
    if line == "unreadable text 1" and begins_with(proof, b"mclaws "):
        return [f"PROOF {shown(proof)} is a certificate: {usage_of(reading.command)}"]
    return []


def near_names(name, names):
    """Names that are nearly this one: spelled alike, or one in the other."""
    lower = name.lower()
    inside = [other for other in names if lower in other.lower()] if len(name) > 2 else []
    near = list(dict.fromkeys([*difflib.get_close_matches(name, names, 4, 0.6), *sorted(inside, key=len)]))[:4]
    return f"near names: {', '.join(near)}" if near else ""


def groups_of(proof):
    """The functions of a proof file, or of a certificate."""
    with open(proof, encoding="latin-1") as file:
        return [line.split()[1] for line in file if line.startswith("group ") and len(line.split()) > 1]


def of_functions(reading):
    """Which functions a proof file has, where the one that was asked for isn't among them."""
    proof, name = reading.files["PROOF"], reading.words[2]
    try:
        names = groups_of(proof)
    except OSError:
        return []
    if len(names) <= 8:
        return [f"{shown(proof)} has {', '.join(names) or 'no function'}"]
    return [f"{shown(proof)} has {len(names)} functions; " + (near_names(name, names) or f"the first is {names[0]}")]


def of_condition(reading, line):
    """The condition that was false, as `mc show` prints it."""
    from mc import listing, proof

    path, name, (number, condition) = reading.files["PROOF"], reading.words[2], map(int, line.split()[2:])
    try:
        group = next(group for group in proof.read(path).groups if group.name == name)
        block = next(block for block in listing.blocks(group) if block.number == number)
        text = next(line.text for line in block.lines if line.need == condition)
    except (OSError, proof.BadProof, AttributeError, StopIteration):
        return []
    return [f"in d{number}: `{text}`; `mc show {path} {name}` has it where it stands"]


def of_symbols(reading, name):
    """What the file's symbols say of a name that no function has."""
    from mc import elf

    path = reading.files["ELF"]
    try:
        image = elf.read(path)
    except (OSError, elf.BadElf):
        return []
    if re.fullmatch(r"0[xX][0-9a-fA-F]+", name):
        return [f"`{name}` is taken for a name. An address has small digits and no zero in front: {int(name, 16):#x}"]
    functions = {symbol.name for symbol in image.symbols if symbol.is_function}
    if name in functions:
        places = ", ".join(f"{place:#x}" for place in image.addresses_of(name))
        return [f"{shown(path)} has names in its dynamic symbols alone, where the program doesn't look: give the address of `{name}`, {places}"]
    if any(symbol.name == name for symbol in image.symbols):
        return [f"`{name}` is no function in the symbol table of {shown(path)}, but {image.addresses_of(name)[0]:#x} has that name"]
    if not functions:
        return [f"{shown(path)} has no names of functions (is it stripped?): give an address"]
    return [near_names(name, sorted(functions)) or f"none of its {len(functions)} functions has a name near that; `mc functions {path}` lists them"]


def of_addresses(reading, line):
    """What the symbols call the addresses of a refusal."""
    from mc import elf

    try:
        image = elf.read(reading.files["ELF"])
    except (OSError, elf.BadElf, KeyError):
        return []
    found = []
    for word in dict.fromkeys(re.findall(r" (0x[0-9a-f]+)(?= |$)", line)):
        place = image.place(int(word, 16))
        if place and place != line.split()[1]:
            found.append(f"{word} is {place}")
    return [", ".join(found)] if found else []


# ---------------------------------------------------------------- together

def on(command, reading, status, line):
    """The lines of help for an answer: what is found at hand first, then what the document says."""
    found = []
    if status == 2:
        found = ["the program takes these words for no command; `mc -v` shows them"]
    elif status == 4:
        found = of_reading(reading)
    elif status == 5:
        found = of_writing(reading)
    elif status == 3:
        found = of_kind(reading, line)
    elif line.startswith("refused side "):
        found = of_condition(reading, line)
    elif line == "refused no function":
        found = of_functions(reading)
    elif re.fullmatch(r"refused \S+ no-such", line):
        found = of_symbols(reading, line.split()[1])
    elif line.startswith("refused ") and command in ("decompile", "link", "split"):
        found = of_addresses(reading, line)
    document = told(command, line) if status not in (2, 4) else []
    said = [f"`{form}`: {plain(text)}" for form, text in document if text]
    return [folded for text in [*found, *said] for folded in textwrap.wrap(text, WIDTH, break_long_words=False, break_on_hyphens=False)]


def plain(text):
    """A text of the document without its marks."""
    text = re.sub(r"\[([^\]]*)\]\([^)]*\)", r"\1", text.replace("**", ""))
    return re.sub(r"(?<!\S)\*([^*`]+)\*", r"\1", text)
