"""What `check` answers: the status and the line."""

from collections import Counter

from .definitions import first_ill_formed
from .elf import ElfFile, Unreadable
from .grammar import GroupReader, MEMORIES, TermCursor
from .lines import WholeLines
from .loop import closes
from .short_lines import ShortLines
from .terms import Terms
from .tokens import Bad, BadLine, Lines

MOST_FACTS = 33_554_432


class Refused(Exception):
    """The answer is no; the words are the line."""


class NoMemory(Exception):
    """A group's theorems have too many facts."""


class Bench:
    """The theorems of a group by their numbers, and its definitions that are closed."""

    def __init__(self, terms, group):
        self.terms = terms
        self.group = group
        self.theorems = []
        self.closed = set()
        self.facts = 0
        self.sharing = Counter()

    def has(self, number):
        """Whether a theorem is there, and wasn't forgotten."""
        return number < len(self.theorems) and self.theorems[number] is not None

    def add(self, triple):
        """One more theorem; False where there is none."""
        if triple is None:
            return False
        self.count(triple, 1)
        if self.facts > MOST_FACTS:
            raise NoMemory
        self.theorems.append(triple)
        return True

    def forget(self, number):
        """The theorem is no longer there; False where it wasn't."""
        if not self.has(number):
            return False
        self.count(self.theorems[number], -1)
        self.theorems[number] = None
        return True

    def count(self, triple, more):
        """One theorem more or less has these facts, which count once: while one has them."""
        before = self.sharing[id(triple.facts)]
        self.sharing[id(triple.facts)] = before + more
        if not before or not before + more:
            self.facts += more * len(triple.facts)

    def is_usable(self, number, way):
        """Whether a definition is closed and has such an exit."""
        return number in self.closed and way < len(self.group.definitions[number].exits)

    def close(self, number, cited):
        """The definition is closed; False where the theorems aren't those of its leaves."""
        if number >= len(self.group.definitions) or not all(map(self.has, cited)):
            return False
        theorems = [self.theorems[number] for number in cited]
        if not closes(self.terms, self.group, number, theorems):
            return False
        self.closed.add(number)
        return True

    def is_proved(self):
        """Whether the last definition is closed."""
        return len(self.group.definitions) - 1 in self.closed


class TextReader:
    """Reads a text from its front. Its groups are told one by one, and their lines on the way."""

    def __init__(self, text):
        self.lines = Lines(text)
        self.version = None
        self.groups = 0

    def read(self, see_group, see_line):
        """Reads the whole text. Of each group `see_group` is called with its terms and itself, of
        each line of a proof `see_line` with the line's number and what was read of it."""
        self.read_version()
        reader = None
        while True:
            tokens = self.lines.next()
            if tokens[0] == "group":
                reader = self.read_group(tokens, see_group)
            elif tokens == ["end", "\n"]:
                return self.lines.finish()
            else:
                try:
                    if reader is None:
                        raise Bad
                    line = reader.read(tokens)
                except Bad:
                    raise BadLine(self.lines.number) from None
                if line is not None:
                    see_line(self.lines.number, line)

    def read_version(self):
        """The first line."""
        tokens = self.lines.next()
        spelled = {("mcproof", str(version), "\n"): version for version in MEMORIES}
        self.version = spelled.get(tuple(tokens))
        if self.version is None:
            raise BadLine(1)

    def read_group(self, tokens, see_group):
        """A group; Refused where a definition isn't well-formed. Gives what reads its lines."""
        terms = Terms()
        reader = GroupReader(self.lines, self.version, terms)
        group = reader.group(TermCursor(tokens[1:], terms))
        number = first_ill_formed(group)
        if number is not None:
            raise Refused(f"refused def {self.groups} {number}")
        self.groups += 1
        see_group(terms, group)
        if self.version == 2:
            return ShortLines(terms, group)
        return WholeLines(terms, group, self.version)


class Check:
    """Judges a text for an ELF file."""

    def __init__(self, elf):
        self.elf = elf
        self.bench = None
        self.groups = []
        self.lines = 0

    def finish_group(self):
        """Notes whether the group that was read last is proved."""
        if self.bench is not None:
            self.groups.append(self.bench.is_proved()
                               and self.elf.executes(self.bench.group.code))

    def see_group(self, terms, group):
        """A group begins."""
        self.finish_group()
        self.bench = Bench(terms, group)

    def see_line(self, number, line):
        """A line of its proof is judged."""
        self.lines += 1
        if not line(self.bench):
            raise Refused(f"refused line {number}")

    def answer(self, text):
        """The line of what is answered; Refused, BadLine or NoMemory where it isn't accepted."""
        TextReader(text).read(self.see_group, self.see_line)
        self.finish_group()
        if False in self.groups:
            raise Refused(f"refused group {self.groups.index(False)}")
        return f"accepted {len(self.groups)} {self.lines}"


def check(elf, read_text):
    """The status and the line for the bytes of an ELF file, and of a text, which are read then."""
    try:
        judge = Check(ElfFile(elf))
        return 0, judge.answer(read_text())
    except Unreadable as why:
        return 3, f"unreadable elf {why}"
    except BadLine as bad:
        return 3, f"unreadable text {bad.number}"
    except Refused as refused:
        return 1, str(refused)
    except (NoMemory, MemoryError):
        return 6, "no memory"
