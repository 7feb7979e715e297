"""usage: mc show PROOF [FUNCTION] [--fold] [--elf FILE] [--html | --dot]

Prints the functions of a proof text or a certificate as a person reads them, or the one of that
name: each as its last definition, and behind that the definitions that it calls. Of a certificate
these are the definitions that it ends with. The lines of proofs are left out.

  --fold      words that are used once stand where they are used, and words that aren't used are
              left out; a `need` that asks for the bytes of an access stands behind that access
  --elf FILE  beside each definition the instructions that its proof cites, by a disassembler that
              is found on the path; behind lines the word that the file has where one is loaded
              from a constant address, and the names of other addresses of data
  --html      as a page, to the standard output (`> page.html`)
  --dot       as a picture for graphviz: which definition calls and enters which, which returns

Registers have the names of the ABI and the values at the entry of their definition, and with a
prime those that a call left. The line below a function's name says what each is in the text (v0)
and in a script of `mcdec smt` (w0). Other variables keep the names of the text (v4, m1), with the
name of the memory that was stored to where there are two (stk2). A variable that is a copy of
another, or a number, or a sum of numbers, is replaced by that. What `again`, `continue as`, `call`,
`leave to` and `return to` don't name stays as it is there. Exits are told by their addresses.

  /u %u <u >=u >>u  unsigned
  /s %s <s >=s >>s  signed
  +w -w *w ..       on the low 32 bits, their sign extended
  sx4(a)            the low 4 bytes, their sign extended
  mem[a]:4          the 4 bytes at the address a
  mem[a]:4 := b     the memory after a store
  stk               the second memory: in a text of `split`, what the function has on its stack
  need 2: c         c must be so, or nothing is claimed: where it isn't, `mcdec eval` says
                    `refused side D 2`, D for the definition

Exit status: 0 printed; 1 no such function; 2 wrong words; 3 a file isn't of its format; 4 it can't
be read.
"""
import difflib
import itertools
import os
import sys
import textwrap

from mc import elf, inputs, listing, notation, page, picture, proof, usage
from mc.beside import Beside
from mc.inputs import Failure
from mc.syntax import exit_text

WIDTH = 100


def words_of(arguments):
    """The words of the command."""
    parser = usage.Parser("show", __doc__)
    parser.add_argument("proof", metavar="PROOF")
    parser.add_argument("function", metavar="FUNCTION", nargs="?")
    parser.add_argument("--fold", action="store_true")
    parser.add_argument("--elf", metavar="FILE")
    form = parser.add_mutually_exclusive_group()
    form.add_argument("--html", action="store_true")
    form.add_argument("--dot", action="store_true")
    return parser.parse(arguments)


def groups_of(path, function):
    """The groups that are to be shown."""
    found = inputs.read(proof.read, path)
    groups = found.groups if isinstance(found, proof.Proof) else (found.result,)
    if not groups:
        raise Failure(1, f"{path}: no function is in it")
    if function is None:
        return groups
    named = tuple(group for group in groups if group.name == function)
    if not named:
        near = difflib.get_close_matches(function, [group.name for group in groups], 3)
        hint = f"; there is {', '.join(near)}" if near else ""
        raise Failure(1, f"{path}: no function {function}{hint}")
    return named


def wrapped(parts):
    """Parts that stand behind each other, none of them cut."""
    lines = textwrap.wrap(", ".join(part.replace(" ", "\0") for part in parts), WIDTH, break_long_words=False, break_on_hyphens=False)
    return [line.replace("\0", " ") for line in lines]


def group_text(group, fold, beside):
    """The lines of a function."""
    yield listing.heading(group)
    yield from wrapped(notation.names_line(group))
    blocks = listing.blocks(group, fold)
    codes = [beside.code(block.definition.axioms) if beside else [] for block in blocks]
    width = max((len(line) for code in codes for line in code), default=0)
    if beside and width == 0 and beside.all_code(group):
        yield from ["", *("    " + line for line in beside.all_code(group))]
    for block, code in zip(blocks, codes):
        yield ""
        yield listing.title(group, block.number, beside.place if beside else exit_text)
        yield from block_text(block, code, width, beside)


def block_text(block, code, width, beside):
    """The lines of a definition, with its instructions to the left of them where its function has any."""
    lines = ["    " * line.depth + line.text + noted(line, beside) for line in block.lines]
    for left, right in itertools.zip_longest(code, lines, fillvalue=""):
        yield f"    {left:{width}}  |  {right}".rstrip() if width else f"    {right}"


def noted(line, beside):
    """What the file has for the loads of a line."""
    notes = beside.notes(line.terms) if beside else []
    return f"    # {'. '.join(notes)}" if notes else ""


def main(arguments):
    try:
        words = words_of(arguments)
        groups = groups_of(words.proof, words.function)
        beside = Beside(inputs.read(elf.read, words.elf), groups) if words.elf else None
        for warning in beside.warnings if beside else ():
            print(f"mc show: {warning}", file=sys.stderr)
        if words.dot:
            print("\n".join(picture.picture(groups)))
        elif words.html:
            title = ", ".join(filter(None, [os.path.basename(words.proof), words.function]))
            print("\n".join(page.page(title, groups, words.fold, beside)))
            if sys.stdout.isatty():
                print("mc show: that is a page for a browser: put `> page.html` behind the words", file=sys.stderr)
        else:
            print("\n\n\n".join("\n".join(group_text(group, words.fold, beside)) for group in groups))
    except Failure as bad:
        print(f"mc show: {bad}", file=sys.stderr)
        return bad.status
    return 0
