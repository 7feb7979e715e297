"""The lines of a text, their tokens, and the numbers among these."""

import re

WORDS = 1 << 64
TOKEN = re.compile(r"[();]|[!-'*-:<-~]+")
DECIMAL = re.compile(r"0|[1-9][0-9]{0,19}")
HEXADECIMAL = re.compile(r"0x(0|[1-9a-f][0-9a-f]{0,15})")
BYTES = re.compile(r"(?:[0-9a-f]{2})+")
END_OF_LINE = "\n"
LONGEST_NAME = 4096


class Bad(Exception):
    """A line that no text of the format has in its place."""


class BadLine(Exception):
    """The same with the number of the line, counted from 1."""

    def __init__(self, number):
        super().__init__(number)
        self.number = number


def tokens_of(line):
    """The tokens of a line, the newline last; Bad where its spaces or bytes are wrong."""
    tokens = TOKEN.findall(line)
    spelled = " ".join(tokens).replace("( ", "(").replace(" )", ")")
    if not tokens or spelled != line:
        raise Bad
    tokens.append(END_OF_LINE)
    return tokens


def decimal_of(token, limit):
    """The decimal number that a token spells, or None."""
    if DECIMAL.fullmatch(token) is None:
        return None
    number = int(token)
    return number if number < limit else None


def hexadecimal_of(token):
    """The hexadecimal number that a token spells, or None."""
    return int(token, 16) if HEXADECIMAL.fullmatch(token) else None


class Lines:
    """A text, line by line. What stands behind the last newline is no line."""

    def __init__(self, text):
        *self.lines, self.rest = text.decode("latin-1").split("\n")
        self.number = 0

    def first_token(self):
        """The first token of the next line; None where there is no line or no token."""
        if self.number == len(self.lines):
            return None
        match = TOKEN.match(self.lines[self.number])
        return match.group() if match else None

    def next(self):
        """The next line's tokens; BadLine where there is none or they are no tokens."""
        self.number += 1
        if self.number > len(self.lines):
            raise BadLine(self.number)
        try:
            return tokens_of(self.lines[self.number - 1])
        except Bad:
            raise BadLine(self.number) from None

    def finish(self):
        """BadLine where anything stands behind the lines that were read."""
        if self.number < len(self.lines) or self.rest:
            raise BadLine(self.number + 1)


class Cursor:
    """The tokens of one line, read from the left."""

    def __init__(self, tokens):
        self.tokens = tokens
        self.position = 0

    def peek(self):
        """The token that is next."""
        return self.tokens[self.position]

    def take(self):
        """The token that is next, which is then behind."""
        token = self.tokens[self.position]
        if token != END_OF_LINE:
            self.position += 1
        return token

    def expect(self, word):
        """Bad where the next token isn't this one."""
        if self.take() != word:
            raise Bad

    def try_take(self, word):
        """Whether the next token is this one, which is then behind."""
        if self.peek() != word:
            return False
        self.take()
        return True

    def small(self):
        """A D of the grammar."""
        return self.decimal(1 << 32)

    def large(self):
        """A K of the grammar."""
        return self.decimal(WORDS)

    def decimal(self, limit):
        """A decimal number below the limit."""
        number = decimal_of(self.take(), limit)
        if number is None:
            raise Bad
        return number

    def hexadecimal(self):
        """An N of the grammar."""
        number = hexadecimal_of(self.take())
        if number is None:
            raise Bad
        return number

    def bytes(self):
        """An H of the grammar."""
        token = self.take()
        if BYTES.fullmatch(token) is None:
            raise Bad
        return bytes.fromhex(token)

    def register(self):
        """A REG of the grammar."""
        number = self.decimal(32)
        if number == 0:
            raise Bad
        return number

    def lettered(self, letter, limit):
        """A number with a letter in front, as vD, mD and tK."""
        token = self.take()
        number = decimal_of(token[1:], limit)
        if token[0] != letter or number is None:
            raise Bad
        return number

    def name(self):
        """A NAME of the grammar."""
        token = self.take()
        if token in "();" or token == END_OF_LINE or len(token) > LONGEST_NAME:
            raise Bad
        return token

    def finish(self):
        """Bad where the line goes on."""
        if self.peek() != END_OF_LINE:
            raise Bad
