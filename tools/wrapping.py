"""Prose of Markdown documents, wrapped at 100 columns.

`wrapped` wraps one paragraph, and `wrapped_page` each paragraph and list item of a page. Headings,
tables, code blocks, comments and quotations stay as they are. A short code span isn't parted.
"""
import re

WIDTH = 100
CODE_SPAN = re.compile(r"(`+)(.+?)\1")
LONGEST_SPAN = 50
# Words with which no line may begin: it would be a list, a heading, a quotation, a table or a rule;
# and a unit would stand apart from its number.
SPECIAL = re.compile(r"(?:[-+*>|]|#+|=+|\d+[.)])$|[|#>]|```|<!--|(?:%|MiB|MB|KB|GiB|s)[.,;:)]*$")
ITEM = re.compile(r"( *)([-*]|\d+\.) +")
UNCHANGED = re.compile(r" *(\||#|>|<)")
GLUE = "\0"


def pieces(text):
    """The words of a text, where a short code span is one word."""
    def glued(match):
        return match[0].replace(" ", GLUE) if len(match[0]) <= LONGEST_SPAN else match[0]

    found = []
    for word in CODE_SPAN.sub(glued, text).split():
        if found and SPECIAL.match(word):
            found[-1] += " " + word
        else:
            found.append(word)
    return [word.replace(GLUE, " ") for word in found]


def wrapped(text, first="", rest="", width=WIDTH):
    """The lines of a paragraph: the first begins with `first`, the others with `rest`."""
    lines, line = [], None
    for piece in pieces(text):
        if line is None:
            line = first + piece
        elif len(line) + 1 + len(piece) <= width:
            line += " " + piece
        else:
            lines.append(line)
            line = rest + piece
    return lines if line is None else [*lines, line]


def blocks(page):
    """The blocks of a page: for each its lines, and whether it is prose."""
    block, fenced = [], False
    for line in page.split("\n"):
        is_fence = line.lstrip().startswith("```")
        if fenced or is_fence:
            if not fenced and block:
                yield block, True
                block = []
            block.append(line)
            fenced = fenced != is_fence
            if not fenced:
                yield block, False
                block = []
        elif not line.strip() or UNCHANGED.match(line):
            if block:
                yield block, True
            block = []
            yield [line], False
        elif ITEM.match(line) and block:
            yield block, True
            block = [line]
        else:
            block.append(line)
    if block:
        yield block, not fenced


def wrapped_page(page):
    """The page with its prose wrapped."""
    lines = []
    for block, is_prose in blocks(page):
        if not is_prose:
            lines += block
            continue
        item = ITEM.match(block[0])
        first = item[0] if item else re.match(" *", block[0])[0]
        text = " ".join([block[0][len(first):], *(line.strip() for line in block[1:])])
        lines += wrapped(text, first, " " * len(first))
    return "\n".join(lines)
