"""Changes texts and ELF files at random."""

import re

TOKEN = re.compile(r"[();]|[^(); \n]+")
NUMBER = re.compile(r"0x[0-9a-f]+|[0-9]+")
WORDS = ["axiom", "inst", "frame", "extend", "compose", "strengthen", "weaken", "discharge", "use",
         "loop", "forget", "steer", "exchange", "term", "end", "group", "def", "let", "letm", "need",
         "if", "else", "call", "arm", "again", "leave", "all", "ret", "facts", "pre", "code", "post",
         "next", "taken", "is", "mis", "so", "gives", "v0", "v1", "m0", "m1", "t0", "t3", "0x0",
         "0x1", "0", "1", "2", "31", "32", "(", ")", ";", "add", "sub", "ld8", "ld4", "st8", "in8",
         "eq", "ne", "not", "sx4", "ltu", "4294967295", "4294967296", "18446744073709551615",
         "18446744073709551616", "0xffffffffffffffff", "0x10000000000000000", "00", "0x00", "01",
         "0X1", "0xA", "v00", "v4294967296", "t18446744073709551616", "x" * 4096, "y" * 4097]


def spelled(tokens):
    """Tokens with the spaces of the format."""
    return " ".join(tokens).replace("( ", "(").replace(" )", ")")


def subterms(tokens):
    """The pairs of a parenthesis and its partner."""
    opened, found = [], []
    for place, token in enumerate(tokens):
        if token == "(":
            opened.append(place)
        elif token == ")" and opened:
            found.append((opened.pop(), place + 1))
    return found


class Changer:
    """Changes lines of texts."""

    def __init__(self, random):
        self.random = random

    def one(self, choices):
        """One of several."""
        return self.random.choice(list(choices))

    # Changes of one line's tokens

    def token(self, tokens, lines):
        """One token for another."""
        place = self.random.randrange(len(tokens))
        other = self.one(TOKEN.findall(self.one(lines)) or ["end"])
        tokens[place] = other if self.random.random() < 0.6 else self.one(WORDS)

    def drop(self, tokens, _):
        """A token is left out."""
        tokens.pop(self.random.randrange(len(tokens)))

    def double(self, tokens, _):
        """A token stands twice."""
        place = self.random.randrange(len(tokens))
        tokens.insert(place, tokens[place])

    def number(self, tokens, _):
        """A number off by one, or another bit of it."""
        places = [p for p, t in enumerate(tokens) if NUMBER.search(t)]
        if not places:
            return
        place = self.one(places)

        def changed(match):
            word = match.group()
            value = int(word, 16 if word.startswith("0x") else 10)
            value = self.one((value + 1, value - 1, value ^ 1 << self.random.randrange(32)))
            value = max(value, 0)
            return hex(value) if word.startswith("0x") else str(value)

        if re.fullmatch(r"[vmt]?[0-9]+|0x[0-9a-f]+", tokens[place]):
            tokens[place] = NUMBER.sub(changed, tokens[place], count=1)
        else:
            digits = list(tokens[place])
            digits[self.random.randrange(len(digits))] = self.one("0123456789abcdefA")
            tokens[place] = "".join(digits)

    def register(self, tokens, _):
        """Two registers or other numbers change places."""
        places = [p for p, t in enumerate(tokens) if re.fullmatch(r"[vmt]?[0-9]+", t)]
        if len(places) > 1:
            first, second = self.random.sample(places, 2)
            tokens[first], tokens[second] = tokens[second], tokens[first]

    def variable(self, tokens, _):
        """One variable for another, everywhere in the line or at one place."""
        places = [p for p, t in enumerate(tokens) if re.fullmatch(r"[vm][0-9]+", t)]
        if places:
            old, new = tokens[self.one(places)], tokens[self.one(places)]
            for place in places if self.random.random() < 0.5 else [self.one(places)]:
                if tokens[place] == old:
                    tokens[place] = new

    def children(self, tokens, _):
        """Two neighbouring parts in a pair of parentheses change places."""
        found = subterms(tokens)
        if not found:
            return
        start, end = self.one(found)
        parts = self.parts(tokens[start + 1:end - 1])
        if len(parts) > 1:
            place = self.random.randrange(len(parts) - 1)
            parts[place], parts[place + 1] = parts[place + 1], parts[place]
            tokens[start + 1:end - 1] = [token for part in parts for token in part]

    def parts(self, tokens):
        """Tokens, cut into atoms and whole pairs of parentheses."""
        parts, depth = [], 0
        for token in tokens:
            if depth == 0:
                parts.append([])
            parts[-1].append(token)
            depth += (token == "(") - (token == ")")
        return parts

    def term(self, tokens, lines):
        """One pair of parentheses stands for another."""
        found = subterms(tokens)
        others = TOKEN.findall(self.one(lines))
        other = subterms(others) or found
        if found and other:
            start, end = self.one(found)
            first, last = self.one(other)
            source = others if other is not found else tokens
            tokens[start:end] = source[first:last]

    def facts(self, tokens, _):
        """Facts in another order, one twice, or one left out."""
        if "facts" not in tokens:
            return
        start = tokens.index("facts") + 1
        end = next((p for p in range(start, len(tokens)) if tokens[p] in ("pre", "post")),
                   len(tokens))
        facts = self.parts(tokens[start:end])
        if facts:
            pick = self.random.randrange(3)
            if pick == 0:
                self.random.shuffle(facts)
            elif pick == 1:
                facts.insert(self.random.randrange(len(facts)), self.one(facts))
            else:
                facts.pop(self.random.randrange(len(facts)))
            tokens[start:end] = [token for fact in facts for token in fact]

    def cited(self, tokens, _):
        """Another theorem is cited."""
        places = [p for p in range(1, min(4, len(tokens))) if tokens[p].isdigit()]
        if places:
            place = self.one(places)
            tokens[place] = str(max(0, int(tokens[place]) + self.one((-2, -1, 1, 2, 5))))

    def wrapped(self, tokens, _):
        """A term becomes deeper, so that it is at the limit or past it."""
        places = [p for p, t in enumerate(tokens) if re.fullmatch(r"v[0-9]+|0x[0-9a-f]+", t)]
        if places:
            place = self.one(places)
            depth = self.random.randrange(58, 66)
            tokens[place:place + 1] = ["(", "sx4"] * depth + [tokens[place]] + [")"] * depth

    # Changes of a text

    LINE_KINDS = ["token", "drop", "double", "number", "register", "variable", "children", "term",
                  "facts", "cited"]

    def changed_line(self, lines):
        """Changes one line, and tells the kind of the change."""
        kind = self.one(self.LINE_KINDS) if self.random.random() < 0.98 else "wrapped"
        place = self.random.randrange(len(lines))
        tokens = TOKEN.findall(lines[place])
        if tokens:
            getattr(self, kind)(tokens, lines)
            lines[place] = spelled(tokens)
        return kind

    def changed_lines(self, lines):
        """A line left out, twice, moved, or two changed places."""
        kind = self.one(("line-dropped", "line-doubled", "line-swapped", "line-moved",
                         "line-copied", "cut"))
        place = self.random.randrange(len(lines))
        if kind == "line-dropped":
            lines.pop(place)
        elif kind == "line-doubled":
            lines.insert(place, lines[place])
        elif kind == "line-swapped" and place + 1 < len(lines):
            lines[place], lines[place + 1] = lines[place + 1], lines[place]
        elif kind == "line-moved":
            line = lines.pop(place)
            lines.insert(self.random.randrange(len(lines) + 1), line)
        elif kind == "line-copied":
            lines.insert(self.random.randrange(len(lines) + 1), lines[place])
        elif kind == "cut":
            del lines[place:]
        return kind

    def bytes(self, text):
        """A byte of the text is another, is left out or is put in."""
        data = bytearray(text)
        place = self.random.randrange(len(data))
        pick = self.random.randrange(4)
        other = self.one((0x20, 0x0A, 0x00, 0x7F, 0x80, 0xFF, 0x09, 0x0D, 0x21, 0x7E, 0x28, 0x30))
        if pick == 0:
            data[place] = other
        elif pick == 1:
            del data[place]
        elif pick == 2:
            data.insert(place, other)
        else:
            del data[place:]
            if self.random.random() < 0.5:
                data += bytes([other])
        return bytes(data)

    def text(self, text, others):
        """A changed text and the kind of the change."""
        pick = self.random.random()
        if pick < 0.06:
            return self.bytes(text), "byte"
        lines = text.decode("ascii").split("\n")[:-1]
        if pick < 0.09:
            lines[0] = "mcproof " + self.one("0123456")
            kind = "version"
        elif pick < 0.13:
            other = self.one(others).decode("ascii").split("\n")[1:-2]
            lines[-1:-1] = other
            if lines[0][-1] != self.one(others)[8:9].decode():
                lines[0] = "mcproof " + self.one("1234")
            kind = "joined"
        elif pick < 0.25:
            kind = self.changed_lines(lines)
        else:
            kind = self.changed_line(lines)
            if self.random.random() < 0.15:
                self.changed_line(lines)
        return ("\n".join(lines) + "\n").encode("latin-1"), kind

    def elf(self, data):
        """A changed ELF file: mostly a number in its headers, or a byte."""
        data = bytearray(data)
        for _ in range(self.one((1, 1, 2))):
            pick = self.random.random()
            if pick < 0.25:
                place = self.random.randrange(64)
            elif pick < 0.55:
                headers = int.from_bytes(data[32:40], "little")
                place = headers + self.random.randrange(56 * 5)
            elif pick < 0.75:
                headers = int.from_bytes(data[40:48], "little")
                place = headers + self.random.randrange(64 * 12)
            else:
                place = self.random.randrange(len(data))
            if place < len(data):
                data[place] = self.one((0, 1, 2, 4, 0x7F, 0x80, 0xFF, data[place] ^ 1,
                                        (data[place] + 1) % 256, (data[place] - 1) % 256))
        if self.random.random() < 0.1:
            del data[self.random.randrange(len(data)):]
        return bytes(data)
