"""usage: mc functions [--link | --split] [--inside] [--jobs N] ELF [OUT]

Says of each function of an ELF file whether it is inside, and if not, why not; and a summary.

The functions are those of the file's symbol table, or, where it has none, of its dynamic symbols, which the program
knows by their addresses alone. Each is decompiled by itself, N at a time (as many as there are processors), and its
line has its number of instructions and definitions, or the reason of the refusal.

  --link    takes each together with the functions that it calls (`link`)
  --split   gives each its stack as a second memory (`split`), and says how many of its loads and stores are to it
  --inside  of functions that are refused no line is printed
  OUT       gets the text of all that aren't refused, which is then checked. That text is held in memory, nine bytes for
            each byte of it, and of a large file it has hundreds of megabytes

Exit status 0: the file was read, however many functions are refused. 1: it wasn't, or OUT couldn't be written. 2: the
words are wrong, or OUT is an ELF file.
"""
import collections
import os
import re
import struct
import sys
import tempfile
from concurrent.futures import ThreadPoolExecutor

from mc import advice, elf, program
from mc.commands import one_file
from mc.usage import Parser

SYMBOL_TABLE = 2
# For each command what its lines say was done.
DONE = {"decompile": "decompiled", "link": "linked", "split": "split"}
REASONS = {
    "call": "calls a function (a jump that keeps where it came from)",
    "jump-through": "jumps through a register other than by a return: a jump table, or a call at its end",
    "too-large": "has more than 1,024 instructions",
    "recursive": "calls itself, by itself or by others",
    "two-entries": "has a loop that is entered at two places",
    "many-exits": "has a loop that is left to more than 8 places",
    "not-decoded": "has an instruction outside RV64IMC: floating point, atomics, CSRs, vectors",
    "environment": "calls the environment: ecall or ebreak",
    "outside-code": "goes on where no code is",
    "misaligned": "begins at an odd address",
    "no memory": "needs more memory than there is",
    "no answer": "the program was ended",
}
# What another reason is with `--link`.
LINKED_REASONS = {"too-large": "has more than 1,024 instructions with what it calls"}
BOTH = """These are supposed to be apart: where an access
by an address that was computed from sp (an array's element, say) reaches the frame, nothing is claimed of the call."""
ADVICE = "docs/COMMANDS.md says of each reason what may help."


class Functions:
    """The functions of an ELF file that `decompile` reads: by their addresses the first name and the word for each, and by names their addresses."""

    def __init__(self, path):
        self.image = elf.read(path)
        self.are_named = has_symbol_table(self.image.data)
        self.names, places = {}, collections.defaultdict(set)
        for symbol in self.image.symbols:
            if symbol.is_function:
                self.names.setdefault(symbol.address, symbol.name)
                places[symbol.name].add(symbol.address)
        self.names, self.places = dict(sorted(self.names.items())), places
        self.words = {address: word_of(address, name, places) if self.are_named else f"{address:#x}" for address, name in self.names.items()}


def has_symbol_table(data):
    """Whether the file has the table in which the program looks for names."""
    (start,), (size, count) = struct.unpack_from("<Q", data, 40), struct.unpack_from("<HH", data, 58)
    return start > 0 and any(struct.unpack_from("<I", data, start + size * k + 4)[0] == SYMBOL_TABLE for k in range(count))


def word_of(address, name, places):
    """The word for a function: its name, where that is one of the command's words and stands for this address alone, or its address."""
    is_name = re.fullmatch(r"[!-'*-:<-~]{1,4096}", name) and not name.startswith("0x")
    return name if is_name and places[name] == {address} else f"{address:#x}"


def told(line, word):
    """What the line says of the function, and in one word why it is refused."""
    if line.startswith(tuple(f"{done} " for done in DONE.values())):
        _, _, _, instructions, definitions = line.split()
        return f"{instructions} instructions, {definitions} definitions", None
    why = line.removeprefix(f"refused {word} ") or "no answer"
    return why, why if why in REASONS else why.split()[0]


def say(*words):
    done = program.run(words)
    return done.returncode, done.stdout.strip()


def listed(names, most=4):
    """The first of these names, and how many more there are."""
    more = len(names) - most
    return ", ".join(names[:most]) + (f" and {more} more" if more > 0 else "")


class Report:
    """The lines of the functions as they come, and the summary."""

    def __init__(self, command, count, is_short=False):
        self.command, self.count, self.is_short = command, count, is_short
        self.inside, self.why, self.on_stack, self.in_both = [], collections.Counter(), [], []
        self.shows_progress = sys.stderr.isatty()

    def line(self, address, name, word, answer, text_path):
        """Tells of one function."""
        text, reason = told(answer, word)
        if reason is None:
            self.inside.append(word)
            text += self.split(name, text_path) if self.command == "split" else ""
            os.remove(text_path)
        else:
            self.why[reason] += 1
        self.wipe()
        if reason is None or not self.is_short:
            print(f"{address:#x}  {name:28}  {text}", flush=True)
        if self.shows_progress:
            done = len(self.inside) + sum(self.why.values())
            print(f"{done} of {self.count}, {len(self.inside)} inside", end="", file=sys.stderr, flush=True)

    def split(self, name, path):
        """How many of a function's loads and stores are to its stack, and whether others may be."""
        from mc import frames

        found = frames.read(path)
        self.on_stack.append(found)
        text = f", {found.stack} of {found.all} accesses to the stack"
        if found.is_in_both:
            self.in_both.append(name)
            text += f", and {found.others} more at addresses that come from sp"
        return text

    def wipe(self):
        if self.shows_progress:
            print(f"\r{'':60}\r", end="", file=sys.stderr, flush=True)

    def summary(self):
        self.wipe()
        print(f"\n{self.count} functions, {len(self.inside)} {DONE[self.command]}, {self.count - len(self.inside)} refused")
        if self.command == "split":
            users = [found for found in self.on_stack if found.stack]
            print(
                f"{len(users)} have accesses to the stack, {sum(found.stack for found in users)} of their {sum(found.all for found in users)}; "
                f"all {sum(found.stack for found in self.on_stack)} of {sum(found.all for found in self.on_stack)}"
            )
        reasons = {**REASONS, **(LINKED_REASONS if self.command == "link" else {})}
        for reason, count in self.why.most_common():
            print(f"{count:7}  {reason}: {reasons.get(reason, 'see docs/COMMANDS.md')}")
        if self.why:
            print(ADVICE)
        if self.in_both:
            print(f"\nWarning: {listed(self.in_both)} may have the frame in both memories. {BOTH}")


def parse(arguments):
    """The words behind `mc functions`."""
    parser = Parser("functions", __doc__)
    which = parser.add_mutually_exclusive_group()
    for command in ("link", "split"):
        which.add_argument(f"--{command}", dest="command", action="store_const", const=command, default="decompile")
    parser.add_argument("--inside", action="store_true")
    parser.add_argument("--jobs", type=int, default=os.cpu_count())
    parser.add_argument("elf", metavar="ELF")
    parser.add_argument("out", metavar="OUT", nargs="?")
    found = parser.parse(arguments)
    if found.jobs < 1:
        parser.error("--jobs wants a number from 1 on")
    return found


def fail(text, status=1):
    print(f"mc functions: {text}", file=sys.stderr)
    return status


def answers(found, jobs, folder, count):
    """The program's answer to each function, in order."""
    with ThreadPoolExecutor(count) as pool:
        yield from pool.map(lambda job: say(found.command, found.elf, os.path.join(folder, f"{job[0]:x}"), job[1])[1], jobs)


def main(arguments):
    found = parse(arguments)
    if found.out is not None and one_file(found.out, found.elf):
        return fail(f"OUT {found.out} is the ELF file itself: nothing was done", 2)
    if found.out is not None and advice.begins_with(found.out, b"\x7fELF"):
        return fail(f"OUT {found.out} is an ELF file, and would be overwritten: nothing was done. One ELF file is taken at a time", 2)
    with tempfile.TemporaryDirectory() as folder:
        # No instruction stands at an odd address, so the answer is that, or why the file isn't read.
        status, line = say(found.command, found.elf, os.path.join(folder, "none"), "0x1")
        if status != 1:
            return fail(f"{found.elf}: {why_unread(found.elf, line)}")
        try:
            functions = Functions(found.elf)
        except (OSError, elf.BadElf) as bad:
            return fail(f"{bad}")
        if not functions.names:
            return fail(f"{found.elf}: no function in its symbols (is it stripped?). `mc decompile` takes addresses too")
        for line in remarks(functions):
            print(line)
        if is_function_alone(found.out, functions):
            return fail(f"OUT `{found.out}` is the name of a function there, and was to be a file: nothing was done. {advice_for_one(found)}", 2)
        report = Report(found.command, len(functions.words), found.inside)
        for (address, word), answer in zip(functions.words.items(), answers(found, functions.words.items(), folder, found.jobs)):
            report.line(address, functions.names[address], word, answer, os.path.join(folder, f"{address:x}"))
    report.summary()
    return write(found, report.inside) if found.out is not None and report.inside else 0


def is_function_alone(out, functions):
    """Whether OUT is a function's name, and no file that is there: then the function was meant."""
    return out is not None and out in functions.places and not os.path.exists(out)


def advice_for_one(found):
    """How that function is taken alone."""
    return f"Alone it is taken by `mc {found.command} {found.elf} OUT {found.out}`; a file of that name is `./{found.out}`"


def why_unread(path, line):
    """Why the program doesn't read the file, with what a person may do."""
    if line == "read fault":
        return f"{line}: {advice.why_unreadable(path) or 'it could not be read'}"
    return ". ".join([line, *(advice.plain(text) for _, text in advice.told("decompile", line)[:1])])


def remarks(functions):
    """What to know of the file before its functions."""
    if functions.image.position_independent:
        yield "position independent (type 3): a loader may put it at other addresses than these, at which it is read. A program: link it with -static or -no-pie"
    if not functions.are_named:
        yield "no symbol table: the names are those of .dynsym, and in OUT and for the commands each function has its address as its name"


def write(found, words):
    """Writes all functions that are inside, and checks the text."""
    status, lines = say(found.command, found.elf, found.out, *words)
    if status:
        return fail(f"{found.out}: {lines}")
    print(f"{found.out}: {say('check', found.elf, found.out)[1]}")
    return 0
