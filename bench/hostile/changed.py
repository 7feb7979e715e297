#!/usr/bin/env python3
"""changed.py [PROGRAM] [COUNT [PROCESSES [FIRST]]]: gives a built program COUNT changed proofs, ELF files and certificates each, and looks at how it ends.

Each case is drawn from its number: one of some small files after one change to three, by bytes or by what the file is made of (`changing.py`).

- A changed proof goes to `check`. Where it is accepted, each function in it is still what the code does: from drawn registers and bytes, `run` must come
  to where evaluation ends, with the same registers and bytes, and with all other registers as they were. Evaluation that doesn't end says nothing.
  It goes to `simplify` and `smt` as well; what `simplify` writes, `laws` must accept. So do the proofs in version 2, as `migrate` writes them. `migrate` takes a
  changed proof of version 1 exactly where `check` accepts it, and `check` accepts what it writes with the same numbers; of version 2 it takes none.
- A changed ELF file goes to `decompile`, to `check` with the old proof, or to `run`. What is decompiled must be accepted and is compared in the same
  manner, and so is what is accepted; what isn't leaves no OUT.
- A changed certificate goes to `laws`. Where it is accepted, and for each that `simplify` writes, evaluation with the new definitions must answer as with
  the old ones, from drawn registers and bytes.

Each answer must be one of those that docs/COMMANDS.md lists for the command, with its exit status, and tell a line of the text where it tells one.
COUNT is 50,000, as many processes run as there are processors, and numbers begin at FIRST, 0. A case is told with its number where something is
otherwise: `changed.py 1 1 NUMBER` shows it again. A program gets 1 GiB (then it may answer `no memory`) and a minute of a processor.
The exit status is 1 where something is otherwise.
"""
import collections
import multiprocessing
import os
import random
import re
import resource
import struct
import sys
import tempfile
import time

sys.path.insert(0, os.path.join(os.path.dirname(os.path.abspath(__file__)), "..", "library"))
from answers import Speaker, is_stated
from changing import changed_elf, changed_text
from drawn import EDGES
from machine import Machine
from programs import numbers, program_of

TOP = os.path.join(os.path.dirname(os.path.abspath(__file__)), "..", "..")
# Each ELF file with its proof and its function; in data/ the file has no symbols.
FILES = (
    ("crates/mcdec/data/add.elf", "crates/mcdec/data/add.proof", "0x10000"),
    ("examples/gcd/gcd.elf", "examples/gcd/gcd.proof", "gcd"),
    ("examples/strlen/strlen.elf", "examples/strlen/strlen.proof", "strlen"),
    ("examples/sum/sum.elf", "examples/sum/sum.proof", "sum"),
)
MEMORY = 1 << 30
# Where a function's region lies, and how many bytes it has.
REGION, SIZE = 0x8000, 48
BACK = 0x2000
TURNS, STEPS = 100, 20_000
STARTS = 2
Group = collections.namedtuple("Group", "name registers memories entry")


class Wrong(Exception):
    """What the program should have said and didn't."""


def groups(text):
    """The groups of a text that is accepted, of each name the first: `eval` takes that one."""
    found = {}
    for part in re.split(rb"^group ", text, flags=re.M)[1:]:
        name, registers, memories = part.split(b"\n")[:3]
        entry = re.findall(rb"^def (\S+)", part, re.M)[-1]
        numbers = [int(register) for register in registers.split()[1:]]
        found.setdefault(name, Group(name, numbers, int(memories.split()[1]), int(entry, 16)))
    return found.values()


def first_group(text):
    return next(iter(groups(text)))


def segments(file):
    """Address and bytes of each segment of a file that the program reads."""
    (at,), (count,) = struct.unpack_from("<Q", file, 32), struct.unpack_from("<H", file, 56)
    for place in range(at, at + 56 * count, 56):
        kind, _, offset, address, _, size, memory, _ = struct.unpack_from("<IIQQQQQQ", file, place)
        if kind == 1:
            yield address, file[offset : offset + size] + bytes(memory - size)


def state(lines, others):
    """The program counter that is told, and the registers that aren't 0, with others where none is told, and the line of the bytes."""
    told = dict(line.split(b" ", 1) for line in lines.splitlines())
    registers = {int(name[1:]): int(value, 16) for name, value in told.items() if name[:1] == b"x"}
    return int(told[b"pc"], 16), ({r: value for r, value in {**others, **registers}.items() if value}, told.get(b"mem"))


class Start:
    """Registers and the bytes of a region in which a function begins, as words of the commands."""

    def __init__(self, draw, group):
        self.bytes = bytes(draw.choice((0, 1, 97, draw.randrange(256))) for _ in range(SIZE))
        weights = (4, 1, 1, 4 if group.memories else 0)
        self.registers = {r: self.word(draw, weights) for r in range(1, 32) if r in group.registers or draw.random() < 0.1}
        self.registers[1] = BACK + draw.choice((0, 0, 2, 3))
        self.words = [f"x{r}={value:#x}" for r, value in self.registers.items()]
        self.words += [f"mem={REGION:#x}:{self.bytes.hex()}"] if group.memories else []

    def word(self, draw, weights):
        """A small number, one at an edge, any, or an address of the region."""
        return draw.choices((draw.randrange(6), draw.choice(EDGES), draw.getrandbits(64), REGION + draw.randrange(SIZE // 2)), weights)[0]


class Tester:
    """A process that tries cases, in a folder of its own."""

    def __init__(self, program, folder):
        self.folder = tempfile.mkdtemp(dir=folder)
        self.speaker = Speaker(program, self.path("told"))
        self.files, self.certificates = [], []
        for elf, proof, name in FILES:
            with open(os.path.join(TOP, elf), "rb") as file:
                code = file.read()
            with open(os.path.join(TOP, proof), "rb") as file:
                text = file.read()
            found = re.search(rb"^code \(\S+ (\w+)\)", text, re.M)
            start = code.index(bytes.fromhex(found[1].decode()))
            place = (start, start + len(found[1]) // 2)
            self.speaker.say("migrate", os.path.join(TOP, elf), os.path.join(TOP, proof), self.path("table"))
            with open(self.path("table"), "rb") as file:
                self.files += [(code, text, name, place), (code, file.read(), name, place)]
            group = first_group(text)
            self.speaker.say("simplify", os.path.join(TOP, proof), group.name, self.path("certificate"))
            with open(self.path("certificate"), "rb") as file:
                self.certificates.append((text, file.read()))
        self.told = collections.Counter()

    def path(self, name):
        return os.path.join(self.folder, name)

    def write(self, name, data):
        with open(self.path(name), "wb") as file:
            file.write(data)
        return self.path(name)

    def say(self, *words):
        """The status and the lines of a command, which must be an answer to it."""
        status, lines = self.speaker.say(*words)
        if not is_stated(words[0], status, lines) or status in (2, 4, 5):
            raise Wrong(f"{' '.join(map(str, words))[:300]}: status {status}, {lines[:200]!r}")
        form = b" ".join(lines.split()[:2]) if status in (1, 3) and words[0] in ("check", "laws") else lines.split()[0]
        self.told[f"{words[0]}: {status} {form.decode()}"] += 1
        return status, lines

    def check(self, elf, proof, text):
        """Whether `check` accepts the text. A line that it tells is one of the text, or missing behind it."""
        status, lines = self.say("check", elf, proof)
        told = re.match(rb"(?:unreadable text|refused line) (\d+)", lines)
        if told and int(told[1]) > text.count(b"\n") + 1:
            raise Wrong(f"check: {lines!r} of {text.count(bytes([10]))} lines")
        return status == 0

    def migrate(self, elf, proof, text):
        """Has a text migrated: that goes as its check does, but for texts of other versions than the first."""
        out = self.path("migrated")
        checked, migrated = self.say("check", elf, proof), self.say("migrate", elf, proof, out)
        is_other = re.match(rb"mcproof [234]\n", text)
        due = (3, b"unreadable text 1\n") if is_other else (checked[0], re.sub(rb"^accepted", b"migrated", checked[1]))
        if 6 in (checked[0], migrated[0]):
            return
        if migrated != due:
            raise Wrong(f"check: {checked}, migrate: {migrated}")
        if migrated[0] == 0 and self.say("check", elf, out) not in (checked, (6, b"no memory\n")):
            raise Wrong(f"what is migrated isn't accepted as {checked}")

    def compare(self, draw, elf, proof, code, text):
        """What evaluation of each function gives, the code does."""
        for group in groups(text):
            for _ in range(STARTS):
                start = Start(draw, group)
                status, lines = self.say("eval", proof, group.name, str(TURNS), *start.words)
                if status == 0:
                    self.told["compared"] += 1
                    self.compare_run(elf, code, group, start, lines)

    def compare_run(self, elf, code, group, start, lines):
        """The run comes to where evaluation ended. Where it was there before in another state, the model tells whether it comes again."""
        place, due = state(lines, start.registers)
        status, ran = self.say("run", elf, f"{group.entry:#x}", f"{place:#x}", str(STEPS), *start.words)
        met = state(ran, {}) if status == 0 else None
        if met == (place, due):
            return
        meetings = states_at(code, group, start, place)
        if met is None or met[1] != next(meetings, None) or due not in meetings:
            raise Wrong(f"eval {group.name} {' '.join(start.words)}: {lines!r}, run: {ran!r}")

    def try_text(self, number):
        draw = random.Random(2 * number)
        code, text, _, _ = draw.choice(self.files)
        changed = changed_text(draw, text)
        elf, proof = self.write("e", code), self.write("p", changed)
        if self.check(elf, proof, changed):
            self.compare(draw, elf, proof, code, changed)
        self.migrate(elf, proof, changed)
        group = first_group(text)
        self.writes("smt", proof, group.name, str(draw.randrange(3)))
        certificate = self.writes("simplify", proof, group.name)
        if certificate is not None:
            self.judge(draw, proof, self.write("c", certificate), certificate, True)

    def try_certificate(self, number):
        draw = random.Random(b"%d" % number)
        text, certificate = draw.choice(self.certificates)
        changed = changed_text(draw, certificate)
        self.judge(draw, self.write("p", text), self.write("c", changed), changed, False)

    def judge(self, draw, proof, path, certificate, is_due):
        """Has a certificate judged; it is accepted where that is due. With the definitions that it then gives, evaluation answers as with those of the proof."""
        status, lines = self.say("laws", proof, path)
        told = re.match(rb"(?:unreadable laws|refused step) (\d+)", lines)
        if told and int(told[1]) > certificate.count(b"\n") + 1:
            raise Wrong(f"laws: {lines!r} of {certificate.count(bytes([10]))} lines")
        if status != 0:
            if is_due:
                raise Wrong(f"what is simplified isn't accepted: {lines!r}")
            return
        group = first_group(certificate)
        head, definitions = certificate[: certificate.index(b"\ndef ")], certificate[certificate.index(b"\nresult\n") + len(b"\nresult") :]
        new = self.write("n", head.replace(b"mclaws", b"mcproof", 1) + definitions)
        for _ in range(STARTS):
            words = group.name, str(TURNS), *Start(draw, group).words
            answers = [self.say("eval", path, *words) for path in (proof, new)]
            if answers[0] != answers[1]:
                raise Wrong(f"eval {words}: {answers[0]!r}, with the new definitions {answers[1]!r}")
            self.told["compared with the new definitions"] += 1

    def try_elf(self, number):
        draw = random.Random(2 * number + 1)
        old, text, name, place = draw.choice(self.files)
        changed = changed_elf(draw, old, place)
        elf, way = self.write("e", changed), draw.randrange(4)
        if way == 0:
            self.say("run", elf, name, f"{BACK:#x}", str(STEPS), f"x1={BACK:#x}", f"x10={REGION:#x}", f"mem={REGION:#x}:{bytes(SIZE).hex()}")
        elif way == 1:
            proof = self.write("p", text)
            if self.check(elf, proof, text):
                self.compare(draw, elf, proof, changed, text)
        else:
            self.decompile(draw, elf, changed, name)

    def decompile(self, draw, elf, code, name):
        text = self.writes("decompile", elf, name)
        if text is not None:
            proof = self.write("p", text)
            if not self.check(elf, proof, text):
                raise Wrong("what is decompiled isn't accepted")
            self.compare(draw, elf, proof, code, text)

    def writes(self, command, file, *words):
        """What a command writes into OUT, if it does. OUT stands first behind the file for `decompile`, else last."""
        out = self.path("out")
        status, _ = self.say(command, file, *((out, *words) if command == "decompile" else (*words, out)))
        if os.path.exists(out) != (status == 0):
            raise Wrong(f"{command}: status {status}, and OUT is {'there' if os.path.exists(out) else 'missing'}")
        if status != 0:
            return None
        with open(out, "rb") as file:
            text = file.read()
        os.remove(out)
        return text

    def try_case(self, case):
        """Tries a proof, an ELF file or a certificate, and tells what is wrong and what was answered."""
        kind, number = case
        self.told = collections.Counter()
        try:
            {"proof": self.try_text, "ELF file": self.try_elf, "certificate": self.try_certificate}[kind](number)
        except Wrong as why:
            return f"{kind} {number}: {why}", self.told
        return None, self.told


def states_at(code, group, start, place):
    """What the code holds each time that it comes to a place, by the model: registers that aren't 0, and the line of the bytes."""
    machine = Machine(group.entry, {r: start.registers.get(r, 0) for r in range(32)}, {})
    for address, piece in segments(code):
        machine.memory.update((address + i, byte) for i, byte in enumerate(piece))
    if group.memories:
        machine.memory.update((REGION + i, byte) for i, byte in enumerate(start.bytes))
    try:
        for _ in range(STEPS):
            if machine.pc == place:
                held = bytes(machine.memory[REGION + i] for i in range(SIZE)).hex().encode() if group.memories else None
                yield {r: value for r, value in enumerate(machine.registers) if value}, held and b"%#x %b" % (REGION, held)
            machine.step()
    except (KeyError, ValueError, TypeError):
        return


tester = None


def begin(program, folder):
    global tester
    resource.setrlimit(resource.RLIMIT_AS, (MEMORY, MEMORY))
    tester = Tester(program, folder)


def try_case(case):
    return tester.try_case(case)


def main():
    program, words = program_of(__doc__, sys.argv[1:], most=3)
    count, processes, first = numbers(words, 50_000, os.cpu_count(), 0)
    cases = [(kind, first + i) for i in range(count) for kind in ("proof", "ELF file", "certificate")]
    wrong, told, start = [], collections.Counter(), time.monotonic()
    with tempfile.TemporaryDirectory() as folder:
        begin(program, folder)  # A program that doesn't run within the limits ends this here: a pool would begin again and again.
    with tempfile.TemporaryDirectory() as folder, multiprocessing.Pool(processes, begin, (program, folder)) as pool:
        for done, (why, answers) in enumerate(pool.imap_unordered(try_case, cases, 20), 1):
            told += answers
            wrong += [why] if why else []
            if sys.stdout.isatty() and (done % 100 == 0 or done == len(cases)):
                seconds = time.monotonic() - start
                print(f"\r{done:,} of {len(cases):,} cases, {len(wrong)} otherwise, {done / seconds:.0f} a second", end="", flush=True)
    if sys.stdout.isatty():
        print()
    for answer in sorted(told):
        print(f"{told[answer]:9,}  {answer}")
    print(f"{count:,} proofs, {count:,} ELF files, {count:,} certificates, {len(wrong)} otherwise, {time.monotonic() - start:.0f} s")
    for why in wrong:
        print(why)
    return 1 if wrong else 0


if __name__ == "__main__":
    sys.exit(main())
