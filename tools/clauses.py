#!/usr/bin/env python3
"""tools/clauses.py [--check]: breaks each clause of a contract that has a line of over 100 columns, a premise a line and
the conclusion last, and comments of over 100 columns. With --check it changes nothing, and ends with status 1 where it would."""
import pathlib
import re
import sys

WIDTH = 100
TOP = pathlib.Path(__file__).resolve().parent.parent
HEAD = re.compile(r"^(\s*)((?:ensures|requires)\b[^{]*)\{")
TOKEN = re.compile(r'"(?:[^"\\]|\\.)*"|[(){}\[\]]|[^\s(){}\[\]"]+|\s+')
OPEN, CLOSE = "({[", ")}]"
# The operators at which a statement is parted, those that bind least first.
OPERATORS = [("→",), ("×",), ("⊎",), ("↔",), ("≡",), ("≤", "<", "≥", ">"), ("++", "∷")]
BINDER = re.compile(r"^[({][^(){}]* : .*[)}]$")


class Group:
    """What stands between two brackets, with them."""

    def __init__(self, opening, inner, closing):
        self.opening, self.inner, self.closing = opening, inner, closing


def parse(tokens, place, closing):
    """The parts from `place` on up to the bracket `closing`: words, and groups, with the place behind them."""
    parts = []
    while place < len(tokens):
        token = tokens[place]
        if token in OPEN and len(token) == 1:
            inner, place = parse(tokens, place + 1, CLOSE[OPEN.index(token)])
            parts.append(Group(token, inner, CLOSE[OPEN.index(token)]))
        elif token in CLOSE and len(token) == 1:
            if token != closing:
                raise ValueError("brackets don't match")
            return parts, place + 1
        elif token.isspace():
            parts.append(" ")
            place += 1
        else:
            parts.append(token)
            place += 1
    if closing is not None:
        raise ValueError("a bracket is open")
    return parts, place


def trimmed(parts):
    first, last = 0, len(parts)
    while first < last and parts[first] == " ":
        first += 1
    while last > first and parts[last - 1] == " ":
        last -= 1
    return parts[first:last]


def flat(parts):
    """The parts on one line."""
    return "".join(
        part.opening + flat_inner(part) + part.closing if isinstance(part, Group) else part for part in parts
    )


def flat_inner(group):
    inner = flat(trimmed(group.inner))
    if group.opening == "{" and inner:
        return " " + inner + " "
    return inner


def lambda_place(parts):
    """The place of the first λ, or of a `let`, outside of brackets, or that behind the last part."""
    for place, part in enumerate(parts):
        if part in ("λ", "let", "match"):
            return place
    return len(parts)


def parted(parts, operators):
    """The parts between the operators outside of brackets, with these; what is behind a λ belongs to the last."""
    found, begun, limit = [], 0, lambda_place(parts)
    for place in range(limit):
        if parts[place] in operators and 0 < place:
            found.append((parts[begun:place], parts[place]))
            begun = place + 1
    if not found:
        return None
    return found, parts[begun:]


def laid(parts, indent, first, last):
    """Lines of the parts, where the first line begins at column `first`, further ones at `indent`, and `last` columns
    are kept free at the end. The formatter gives all further lines of a clause one indentation."""
    parts = trimmed(parts)
    line = flat(parts)
    if first + len(line) + last <= WIDTH:
        return [line]
    for operators in OPERATORS:
        rows = parted(parts, operators)
        if rows is not None:
            return chain(rows, indent, first, last)
    return applied(parts, indent, first, last)


def chain(rows, indent, first, last):
    """A chain of operators: each further premise or part on a line of its own, behind its operator; what is bound, and
    what operators that bind closer join, stands together as long as there's room."""
    operands = [(None, rows[0][0][0])]
    for place, (_, operator) in enumerate(rows[0]):
        following = rows[0][place + 1][0] if place + 1 < len(rows[0]) else rows[1]
        operands.append((operator, following))
    lines, bound = [], True
    for place, (operator, operand) in enumerate(operands):
        free = last if place == len(operands) - 1 else 0
        text = flat(trimmed(operand))
        is_bound = bool(BINDER.match(text))
        together = operator not in ("→", "×") or (bound and is_bound)
        if operator is None:
            lines += laid(operand, indent, first, free)
        elif together and column(lines, first) + len(operator) + len(text) + 2 + free <= WIDTH:
            lines[-1] += f" {operator} {text}"
        else:
            inner = laid(operand, indent, indent + len(operator) + 1, free)
            lines += [" " * indent + operator + " " + inner[0]] + inner[1:]
        bound = bound and is_bound
    return lines


def column(lines, first):
    return len(lines[-1]) + (first if len(lines) == 1 else 0)


def applied(parts, indent, first, last):
    """A function and its arguments, or a λ: broken within the last bracket, or between arguments."""
    place = lambda_place(parts)
    if place == 0 and parts[0] == "λ":
        return broken_lambda(parts, indent, first, last)
    if isinstance(parts[-1], Group) and trimmed(parts[-1].inner):
        front = flat(parts[:-1])
        group = parts[-1]
        inner = trimmed(group.inner)
        start = first + len(front) + 1
        if start <= WIDTH - 24 and (inner[0] == "λ" or len(front) <= 36):
            lines = laid(inner, indent, start, last + 1)
            if all(len(line) <= WIDTH for line in lines[1:]) and start + len(lines[0]) <= WIDTH:
                lines[0] = front + group.opening + lines[0]
                lines[-1] += group.closing
                return lines
    return filled(parts, indent, first, last)


def broken_lambda(parts, indent, first, last):
    """`λ x y.` and behind it its body, on the next line where that is a chain."""
    for place, part in enumerate(parts):
        if isinstance(part, str) and part.endswith("."):
            head = flat(parts[: place + 1])
            if first + len(head) > WIDTH:
                break
            body = laid(parts[place + 1 :], indent, indent, last)
            below = [head, " " * indent + body[0]] + body[1:]
            inner = trimmed(parts[place + 1 :])
            if all(parted(inner, operators) is None for operators in OPERATORS) and "λ" in flat(inner):
                body = laid(inner, indent, first + len(head) + 1, last)
                beside = [head + " " + body[0]] + body[1:]
                if first + len(beside[0]) <= WIDTH and len(beside) < len(below):
                    return beside
            return below
    return [flat(parts)]


def filled(parts, indent, first, last):
    """Arguments, as many on a line as there is room for."""
    words, word = [], []
    for part in parts:
        if part == " ":
            words.append(word)
            word = []
        else:
            word.append(part)
    words.append(word)
    lines = [""]
    for place, word in enumerate(words):
        text = flat(word)
        free = last if place == len(words) - 1 else 0
        if place:
            if column(lines, first) + 1 + len(text) + free <= WIDTH:
                lines[-1] += " "
            else:
                lines.append(" " * indent)
        at = column(lines, first)
        if at + len(text) + free > WIDTH and isinstance(word[-1], Group) and trimmed(word[-1].inner):
            front = flat(word[:-1]) + word[-1].opening
            inner = laid(word[-1].inner, indent, at + len(front), free + 1)
            lines[-1] += front + inner[0]
            lines += inner[1:]
            lines[-1] += word[-1].closing
        else:
            lines[-1] += text
    return lines


def clause_end(text, place):
    """The place behind the bracket that closes the one at `place`."""
    depth = 0
    in_string = False
    for at in range(place, len(text)):
        character = text[at]
        if character == '"':
            in_string = not in_string
        elif in_string:
            continue
        elif character == "{":
            depth += 1
        elif character == "}":
            depth -= 1
            if depth == 0:
                return at + 1
    return None


def broken_clause(indent, head, body, behind):
    """The lines of a clause, as the formatter lays it out: what it says begins on the line of its name."""
    parts, _ = parse(TOKEN.findall(body), 0, None)
    lead = " " * indent + head.rstrip() + " { "
    lines = laid(parts, indent + 4, len(lead), 2 + len(behind))
    lines[0] = lead + lines[0]
    lines[-1] += " }" + behind
    return lines


def broken_text(text):
    out, place = [], 0
    lines = text.split("\n")
    number = 0
    starts = [0]
    for line in lines:
        starts.append(starts[-1] + len(line) + 1)
    while number < len(lines):
        found = HEAD.match(lines[number])
        if found:
            begin = starts[number] + found.end() - 1
            end = clause_end(text, begin)
            if end is not None:
                last = next(n for n in range(number, len(lines)) if starts[n + 1] > end - 1)
                rest = text[end : starts[last + 1] - 1]
                rows = lines[number : last + 1]
                if any(len(row) > WIDTH for row in rows) and rest.strip() in ("", ";", ",") and not any("//" in r or "--" in r for r in rows):
                    body = re.sub(r"\s+", " ", text[begin + 1 : end - 1]).strip()
                    out += broken_clause(len(found[1]), found[2], body, rest.strip())
                else:
                    out += rows
                number = last + 1
                continue
        out.append(lines[number])
        number += 1
    return "\n".join(broken_comments(out))


COMMENT = re.compile(r"^(\s*)(///|//!|//)( .*)$")
LISTED = re.compile(r"^\s*([-*|#>]|\d+\.|```|\.\. )|^    ")


def broken_comments(lines):
    """The lines, with each paragraph of comments that has a line of over 100 columns filled anew."""
    out, number = [], 0
    while number < len(lines):
        found = COMMENT.match(lines[number])
        if not found:
            out.append(lines[number])
            number += 1
            continue
        rows = []
        while number < len(lines):
            row = COMMENT.match(lines[number])
            if not row or row[1] != found[1] or row[2] != found[2]:
                break
            rows.append(row[3][1:])
            number += 1
        out += [f"{found[1]}{found[2]} {row}".rstrip() for row in paragraphs(rows, WIDTH - len(found[1]) - len(found[2]) - 1)]
    return out


def paragraphs(rows, width):
    out, paragraph, in_code = [], [], False

    def give():
        if any(len(row) > width for row in paragraph):
            out.extend(fill(" ".join(row.strip() for row in paragraph), width))
        else:
            out.extend(paragraph)
        paragraph.clear()

    for row in rows:
        if row.strip().startswith("```"):
            give()
            in_code = not in_code
            out.append(row)
        elif in_code or row.strip() == "":
            give()
            out.append(row)
        elif LISTED.match(row):
            give()
            paragraph.append(row)
            if row.lstrip().startswith("|") or row.startswith("    "):
                out.append(paragraph.pop())
        else:
            paragraph.append(row)
    give()
    return out


def fill(text, width):
    lines, hang = [""], "  " if re.match(r"^([-*]|\d+\.) ", text) else ""
    for word in words_of(text):
        if lines[-1].strip() and len(lines[-1]) + 1 + len(word) > width:
            lines.append(hang + word)
        else:
            lines[-1] += (" " if lines[-1].strip() else "") + word
    return lines


def words_of(text):
    """The words of a text; what stands between backquotes is one word where it isn't long."""
    for piece in re.findall(r"`[^`]{1,60}`[^\s`]*|[^\s`]*`[^`]{1,60}`[^\s`]*|\S+", text):
        yield piece


def main():
    check = "--check" in sys.argv[1:]
    changed = []
    for path in sorted(TOP.glob("crates/*/src/**/*.rt")):
        text = path.read_text(encoding="utf8")
        new = broken_text(text)
        if new != text:
            changed.append(path)
            if not check:
                path.write_text(new, encoding="utf8")
    for path in changed if check else []:
        print(f"{path.relative_to(TOP)}: a clause or comment of over {WIDTH} columns")
    return 1 if check and changed else 0


if __name__ == "__main__":
    sys.exit(main())
