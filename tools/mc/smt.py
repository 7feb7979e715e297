"""SMT-LIB: S-expressions, and the names that registers and memories have in scripts.

An expression is a string, for an atom, or a list of expressions. Comments are left out.
"""
import os
import re

REGISTERS = (
    "zero ra sp gp tp t0 t1 t2 s0 s1 a0 a1 a2 a3 a4 a5 a6 a7 s2 s3 s4 s5 s6 s7 s8 s9 s10 s11 t3 t4 t5 t6"
).split()
# Of each memory the name of its bytes, and that of the addresses that have one.
MEMORIES = (("mem", "dom"), ("stk", "stk_dom"))
SORTS = {"Word": "(_ BitVec 64)", "Memory": "(Array Word (_ BitVec 8))", "Domain": "(Array Word (_ BitVec 1))"}
COMMANDS = frozenset(
    "assert check-sat declare-const declare-datatypes declare-fun declare-sort define-const define-fun define-fun-rec "
    "define-funs-rec define-sort echo exit get-info get-model get-value pop push set-info set-logic set-option".split()
)
DEFINED = re.compile(r"\((?:declare|define)-\S+ (\S+)")
TOKEN = re.compile(r';[^\n]*|"(?:[^"]|"")*"|\|[^|]*\||[()]|[^\s()";|]+|\S')


class BadExpression(Exception):
    """A text that is no list of S-expressions."""


def parse(text):
    """The expressions of a text."""
    stack = [[]]
    for token in TOKEN.findall(text):
        if token == "(":
            stack.append([])
        elif token == ")":
            if len(stack) == 1:
                raise BadExpression("a `)` too many")
            last = stack.pop()
            stack[-1].append(last)
        elif token in ('"', "|"):
            raise BadExpression(f"a {token} without another")
        elif not token.startswith(";"):
            stack[-1].append(token)
    if len(stack) > 1:
        raise BadExpression(f"{len(stack) - 1} `(` without `)`")
    return stack[0]


def show(expression):
    """An expression in one line."""
    parts, stack, opened = [], [expression], True
    while stack:
        last = stack.pop()
        if last is None:
            parts.append(")")
            continue
        if not opened:
            parts.append(" ")
        opened = isinstance(last, list)
        if opened:
            parts.append("(")
            stack.append(None)
            stack.extend(reversed(last))
            opened = len(last) > 0
        else:
            parts.append(last)
    return "".join(parts)


def atoms(expression):
    """The atoms of an expression, as a set."""
    found, stack = set(), [expression]
    while stack:
        last = stack.pop()
        if isinstance(last, list):
            stack.extend(last)
        else:
            found.add(last)
    return found


def is_command(expression):
    return isinstance(expression, list) and bool(expression) and isinstance(expression[0], str) and expression[0] in COMMANDS


def text_of(word):
    """What a word of the command line stands for: a file's text, or the word itself."""
    if os.path.isfile(word):
        with open(word, encoding="utf8") as file:
            return file.read()
    if "(" not in word and re.search(r"[/.]", word):
        raise BadExpression(f"{word}: no such file, and no term")
    return word


def term_of(word):
    """The one term of a file or a text."""
    try:
        found = parse(text_of(word))
    except BadExpression as bad:
        raise BadExpression(f"{word}: {bad}") from None
    if len(found) != 1 or is_command(found[0]):
        raise BadExpression(f"{word}: one term is wanted, and there are {len(found)} expressions" if len(found) != 1 else f"{word}: a command, and no term")
    return found[0]


def conjunction(terms):
    """The terms joined by `and`, one a line."""
    if len(terms) == 0:
        return "true"
    return terms[0] if len(terms) == 1 else "(and\n  " + "\n  ".join(terms) + ")"


def applied(name, arguments):
    """A function applied; one without parameters stands alone."""
    return f"({name} {' '.join(arguments)})" if arguments else name


def defined_twice(lines):
    """A name that the lines define or declare more than once, or None. Solvers don't agree on what it means then."""
    seen = set()
    for line in lines:
        match = DEFINED.match(line)
        if match and match[1] in seen:
            return match[1]
        seen.update(match.groups() if match else ())
    return None


def spelled(sort):
    """A sort without the names of others."""
    return sort.replace("Word", SORTS["Word"])


def sorts():
    """The names of the sorts that all scripts use."""
    return [f"(define-sort {name} () {sort})" for name, sort in SORTS.items()]
