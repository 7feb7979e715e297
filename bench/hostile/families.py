#!/usr/bin/env python3
"""families.py [PROGRAM] [FAMILY..]: how the cost of a command grows with files and words that are made to cost much.

A family is a way to make them of any size. Each is made at three sizes, each twice the one before, and the program is run on them. A line tells the bytes
(of the text, of the certificate, of the ELF file, of the words; of what is decompiled, those of OUT), the seconds of a processor and the MiB that were taken, then by which power
of the bytes time and memory grow from the second size to the third, and what that comes to at the limit of the bytes, with the power to a half. Powers of
times below a tenth of a second and of peaks below 32 MiB aren't told. A program gets a minute of a processor and 4 GiB, and is run twice: the faster run
counts. All families take a minute or two; with their names, only those are tried.
"""
import collections
import math
import os
import random
import sys
import tempfile
from concurrent.futures import ProcessPoolExecutor

sys.path.insert(0, os.path.join(os.path.dirname(os.path.abspath(__file__)), "..", "library"))
from elf_files import BASE, write_elf
from instructions import RETURN, arithmetic, branch, immediate, jump, words
from measuring import MIB, measure_work
from programs import program_of

SECONDS, MEMORY = 60, 4 << 30
# A peak of which most may be that of the process which starts the program.
SMALL = 16 * MIB
TIMES = ("years", 365 * 86400), ("days", 86400), ("h", 3600), ("min", 60)
SPACES = ("TiB", MIB), ("GiB", 1024)
FENCE, NOTHING = 0x0000000F, immediate(0, 10, 10, 1)
# The most bytes of a proof file, of a certificate and of an ELF file, and of words on Linux.
LIMITS = {"PROOF": 256 * MIB, "CERT": 256 * MIB, "ELF": 64 * MIB, "WORDS": 2 * MIB}
Family = collections.namedtuple("Family", "sizes counted make")
# The bytes of code at the base, or the segments of the ELF file; the text; the words of the command; how many functions `f` the symbol table has; the
# certificate.
Made = collections.namedtuple("Made", "code text command symbols certificate", defaults=(0, ""))
FAMILIES = {}
ENTRY, BEHIND = f"{BASE:#x}", f"{BASE + 4:#x}"
CHECK, DECOMPILE = ["check", "ELF", "PROOF"], ["decompile", "ELF", "OUT", ENTRY]
MIGRATE = ["migrate", "ELF", "PROOF", "OUT"]


def family(first, counted="PROOF"):
    """A family with its least size, and what its bytes are: those of PROOF, of CERT, of ELF, of the WORDS, of OUT, or a NUMBER that grows as the cost may.
    What makes it gives what `Made` has."""

    def add(make):
        FAMILIES[make.__name__.replace("_", "-")] = Family((first, 2 * first, 4 * first), counted, make)
        return make

    return add


def text(*lines, code=words([FENCE]).hex(), registers="", memories=0):
    """A text of one function at the entry."""
    return "\n".join(["mcproof 1", "group f", f"regs {registers}".rstrip(), f"mems {memories}", f"code ({ENTRY} {code})", *lines, "end", ""])


def states(rule, facts="", covered="all", memories=("", ""), behind=BEHIND):
    """A line that states a triple from the entry on, without registers."""
    before, after = (f"{pc} ; {memory}".strip() for pc, memory in zip((ENTRY, behind), memories))
    return " ".join(f"{rule} facts {facts} pre ({before}) code {covered} post ({after})".split())


def each(count, form, between=" "):
    return between.join(form.format(i) for i in range(count))


def tree(count, leaf):
    """A body that branches into so many leaves."""
    return [leaf] if count == 1 else ["if (eq 0x0 0x0)", *tree(count // 2, leaf), "else", *tree(count - count // 2, leaf)]


LEAVES = [f"def {ENTRY} {BEHIND}", "leave 0 ;"]
AGAIN = f"def {ENTRY}"
TURN = words([jump(0)])
STEP = states(f"axiom {ENTRY} {FENCE:#x} next")
LOOP = states(f"axiom {ENTRY} {jump(0):#x} next", behind=ENTRY)


# ---- `check`: leaves of bodies, and theorems cited for them


@family(40_000)
def leaves(n):
    """n leaves behind n steps, each with a theorem."""
    return TURN, text(AGAIN, *["let 0x0"] * n, *tree(n, "again ;"), LOOP, "loop 0" + " 0" * n, code=TURN.hex()), CHECK


@family(80_000)
def leaves_refused(n):
    """The same, and no theorem is cited."""
    return TURN, text(AGAIN, *["let 0x0"] * n, *tree(n, "again ;"), LOOP, "loop 0", code=TURN.hex()), CHECK


@family(40_000)
def facts_of_leaves(n):
    """n leaves behind n steps, each with a theorem of n facts."""
    steps, facts = each(n, "let {0:#x}", "\n"), each(n, "(is v{0} {0:#x})")
    lines = [AGAIN, steps, *tree(n, "again ;"), LOOP, states("weaken 0", facts, behind=ENTRY), "loop 0" + " 1" * n]
    return TURN, text(*lines, code=TURN.hex()), CHECK


@family(20_000)
def late_facts(n):
    """n leaves behind n steps. Each second one has a theorem of n facts and of the condition that stands right before the leaf."""
    steps, facts = each(n, "let {0:#x}", "\n"), each(n, "(is v{0} {0:#x})")
    pairs = tree(n // 2, "if (eq 0x1 0x1)\nagain ;\nelse\nagain ;")
    lines = [AGAIN, steps, *pairs, LOOP, states("weaken 0", f"(so (eq 0x1 0x1)) {facts}", behind=ENTRY), "loop 0" + " 1 0" * (n // 2)]
    return TURN, text(*lines, code=TURN.hex()), CHECK


@family(10_000)
def facts_of_blocks(n):
    """n leaves in blocks, as many as a block has leaves and steps. Each leaf of a block has another theorem of as many facts, those of its block's steps."""
    size = math.isqrt(n)
    block = "\n".join([each(size, "let {0:#x}", "\n"), *tree(size, "again ;")])
    facts = each(size, "(is v{0} {0:#x})")
    lines = [AGAIN, *tree(size, block), LOOP, *[states("weaken 0", facts, behind=ENTRY)] * size, "loop 0" + "".join(f" {i + 1}" for i in range(size)) * size]
    return TURN, text(*lines, code=TURN.hex()), CHECK


@family(40_000)
def code_of_leaves(n):
    """n leaves, each with a theorem of code of 4n bytes."""
    covered = f"({ENTRY} {TURN.hex()})"
    lines = [AGAIN, *tree(n, "again ;"), states(f"axiom {ENTRY} {jump(0):#x} next", covered=covered, behind=ENTRY)]
    return TURN * n, text(*lines, states("extend 0", behind=ENTRY), "loop 0" + " 1" * n, code=(TURN * n).hex()), CHECK


# ---- `check`: facts


@family(32_000)
def weakened_facts(n):
    """A line of n facts, behind another of the same."""
    facts = each(n, "(is v{0} 0x0)")
    return words([FENCE]), text(*LEAVES, STEP, states("weaken 0", facts), states("weaken 1", facts)), CHECK


@family(32_000)
def composed_facts(n):
    """Two theorems of n facts each, one after the other."""
    two = words([FENCE, FENCE])
    covered = [f"({at} {words([FENCE]).hex()})" for at in (ENTRY, BEHIND)]
    facts, more, end = each(n, "(is v{0} 0x0)"), each(n, "(is v{0} 0x1)"), f"{BASE + 8:#x}"

    def second(rule, facts):
        return states(rule, facts, covered[1], behind=end).replace(f"pre ({ENTRY}", f"pre ({BEHIND}")

    lines = [f"def {ENTRY} {end}", "leave 0 ;", states(f"axiom {ENTRY} {FENCE:#x} next", covered=covered[0]), second(f"axiom {BEHIND} {FENCE:#x} next", "")]
    lines += [states("weaken 0", facts, covered[0]), second("weaken 1", more), states("compose 2 3", f"{facts} {more}", behind=end)]
    return two, text(*lines, code=two.hex()), CHECK


@family(8000)
def discharged_facts(n):
    """n facts, each of which follows from another by n equations."""
    facts = " ".join(f"(so (eq (add v{i} 0x1) v{n + i}))" for i in range(n))
    others = " ".join(f"(so (eq (add 0x0 0x1) v{n + i}))" for i in range(n))
    equations = each(n, "(is v{0} 0x0)")
    return words([FENCE]), text(*LEAVES, STEP, states("weaken 0", facts), states("discharge 1", f"{equations} {others}")), CHECK


@family(8000)
def one_class(n):
    """n conditions that differ in their operations alone, each of which follows from another by an equation."""

    def condition(i, word):
        for _ in range(6):
            i, operation = divmod(i, 4)
            word = f"({('add', 'sub', 'xor', 'or')[operation]} {word} v1)"
        return f"(so (eq {word} v2))"

    facts, others = (" ".join(condition(i, word) for i in range(n)) for word in ("v0", "0x0"))
    return words([FENCE]), text(*LEAVES, STEP, states("weaken 0", facts), states("discharge 1", f"(is v0 0x0) {others}")), CHECK


@family(8000)
def one_form(n):
    """n conditions that differ in their memories alone, each of which follows from another by an equation."""
    facts, others = (each(n, f"(so (eq (ld8 m{{0}} {word}) v2))") for word in ("v0", "0x0"))
    return words([FENCE]), text(*LEAVES, STEP, states("weaken 0", facts), states("discharge 1", f"(is v0 0x0) {others}")), CHECK


@family(32_000)
def swapped_terms(n):
    """n terms that are swapped by n equations."""
    old, new = each(n, "(st1 m0 v{0} v0)"), each(n, "(st1 m0 0x0 0x0)")
    lines = [states("frame 0", memories=(old, old)), states("weaken 1", each(n, "(is v{0} 0x0)"), memories=(old, new))]
    return words([FENCE]), text(*LEAVES, STEP, *lines), CHECK


@family(64_000)
def instances(n):
    """n terms for variables, in n facts."""
    facts, pairs = " ".join([f"(is v{n - 1} 0x0)"] * n), each(n, "(v{0} v{0})")
    return words([FENCE]), text(*LEAVES, STEP, states("weaken 0", facts), states(f"inst 1 {pairs}", facts)), CHECK


@family(64_000)
def listed_variables(n):
    """n terms for variables, in n facts, each of another variable."""
    facts, pairs = each(n, "(is v{0} 0x0)"), each(n, "(v{0} v{0})")
    return words([FENCE]), text(*LEAVES, STEP, states("weaken 0", facts), states(f"inst 1 {pairs}", facts)), CHECK


@family(64_000)
def crowded_constants(n):
    """n constants that all fall into one slot of the table of terms."""
    inverse = pow(11400714819323198485, -1, 1 << 64)
    facts = " ".join(f"(is v0 {i * inverse % (1 << 64):#x})" for i in range(n))
    return words([FENCE]), text(*LEAVES, STEP, states("weaken 0", facts)), CHECK


# ---- `check`: code, theorems, groups


@family(100_000)
def code_of_theorems(n):
    """n theorems of a group's code of 4n bytes, all kept."""
    first = states(f"axiom {ENTRY} {FENCE:#x} next", covered=f"({ENTRY} {words([FENCE]).hex()})")
    return words([FENCE]), text(*LEAVES, first, *[states("extend 0")] * n, code=words([FENCE] * n).hex()), CHECK


@family(100_000)
def code_of_lines(n):
    """n compositions over a group's code of 4n bytes, each forgotten."""
    first = states(f"axiom {ENTRY} {jump(0):#x} next", covered=f"({ENTRY} {TURN.hex()})", behind=ENTRY)
    composed = [f"{states('compose 1 1', behind=ENTRY)}\nforget {i + 2}" for i in range(n)]
    return TURN, text(AGAIN, "again ;", first, states("extend 0", behind=ENTRY), *composed, code=(TURN * n).hex()), CHECK


@family(1 << 15)
def code_of_cited(n):
    """n theorems of a group's code of 4n bytes, each cited for a leaf."""
    first = states(f"axiom {ENTRY} {FENCE:#x} next", covered=f"({ENTRY} {words([FENCE]).hex()})")
    cited = " ".join(str(i + 1) for i in range(n))
    return words([FENCE]), text(LEAVES[0], *tree(n, "leave 0 ;"), first, *[states("extend 0")] * n, f"loop 0 {cited}", code=words([FENCE] * n).hex()), CHECK


@family(40_000)
def code_of_extensions(n):
    """n lines that extend the code of a theorem, of 4n bytes, to the group's own, which has four more."""
    first = states(f"axiom {ENTRY} {FENCE:#x} next", covered=f"({ENTRY} {words([FENCE]).hex()})")
    longer = states("extend 0", covered=f"({ENTRY} {words([FENCE] * n).hex()})")
    return words([FENCE]), text(*LEAVES, first, longer, *[states("extend 1")] * n, code=words([FENCE] * (n + 1)).hex()), CHECK


# ---- `migrate`, which writes what is accepted alone


@family(10_000)
def migrated_code(n):
    """n compositions over a group's code of 4n bytes, each forgotten."""
    first = states(f"axiom {ENTRY} {jump(0):#x} next", covered=f"({ENTRY} {TURN.hex()})", behind=ENTRY)
    composed = [f"{states('compose 1 1', behind=ENTRY)}\nforget {i + 2}" for i in range(n)]
    lines = [AGAIN, "again ;", first, states("extend 0", behind=ENTRY), *composed, "loop 0 1"]
    return TURN * n, text(*lines, code=(TURN * n).hex()), MIGRATE


@family(10_000)
def migrated_theorems(n):
    """n theorems of a group's code of 4n bytes, all kept."""
    first = states(f"axiom {ENTRY} {FENCE:#x} next", covered=f"({ENTRY} {words([FENCE]).hex()})")
    return words([FENCE] * n), text(*LEAVES, first, *[states("extend 0")] * n, "loop 0 1", code=words([FENCE] * n).hex()), MIGRATE


@family(500)
def migrated_frames(n):
    """n lines that frame a theorem of n facts."""
    facts = each(n, "(is v{0} {0:#x})")
    return words([FENCE]), text(*LEAVES, STEP, states("weaken 0", facts), *[states("frame 1", facts)] * n, "loop 0 0"), MIGRATE


# ---- `check` of version 2, in which a line states what it computes


def short_text(terms, lines, code=TURN.hex()):
    """A text of version 2 of a function that jumps to itself, with the terms `t1` on behind the address `t0`."""
    head = ["mcproof 2", "group f", "regs", "mems 0", f"code ({ENTRY} {code})", AGAIN, "again ;", f"term {ENTRY}"]
    return "\n".join([*head, *(f"term {it}" for it in terms), f"axiom {ENTRY} {jump(0):#x} next", *lines, "end", ""])


@family(100_000)
def code_of_short_lines(n):
    """n lines that extend a theorem to a group's code of 4n bytes, of which each is forgotten."""
    lines = [f"extend 0 code all\nforget {i + 1}" for i in range(n)]
    return TURN, short_text([], lines, (TURN * n).hex()), CHECK


@family(20_000)
def growing_code(n):
    """n instructions that are composed, one after the other: each line states the code of all before it."""
    steps = [f"axiom {BASE + 4 * i:#x} {FENCE:#x} next" for i in range(n)]
    lines = [f"{step}\ncompose {2 * i} {2 * i + 1}\nforget {2 * i}\nforget {2 * i + 1}" for i, step in enumerate(steps[1:])]
    return words([FENCE]), short_text([], lines, words([FENCE] * n).hex()).replace(f"{jump(0):#x}", f"{FENCE:#x}"), CHECK


@family(16_000)
def extended_facts(n):
    """A theorem of n facts, and n lines that state it again."""
    lines = [f"weaken 0 facts {each(n, '(is t{0} t{0})').replace('t0', f't{n}')} post (t0 ;)", *["extend 1 code all"] * n]
    return TURN, short_text([f"{i:#x}" for i in range(n)], lines), CHECK


@family(16_000)
def extended_memories(n):
    """A theorem of n memories, and n lines that state it again."""
    return TURN, short_text(["m0"], [f"frame 0 ;{' t1' * n}", *["extend 1 code all"] * n]), CHECK


@family(1 << 14, "NUMBER")
def doubled_facts(n):
    """A theorem of n facts, the power of 2 that isn't above n: each two lines double them, by an instance that is put behind."""
    many = n.bit_length() - 1
    terms = ["0x0", "v0", *(it for i in range(many) for it in (f"{3 << i:#x}", f"(add t2 t{2 * i + 3})"))]
    lines = [f"inst {2 * i + 1} (v0 t{2 * i + 4})\ncompose {2 * i + 1} {2 * i + 2}" for i in range(many)]
    return TURN, short_text(terms, ["weaken 0 facts (is t2 t1) post (t0 ;)", *lines]), CHECK


@family(100_000)
def theorems(n):
    """n axioms, all kept."""
    return words([FENCE]), text(*LEAVES, *[STEP] * n, "loop 0 0"), CHECK


@family(40_000)
def groups(n):
    """n functions of one instruction."""
    one = text(*LEAVES, STEP, "loop 0 0").partition("\n")[2].rpartition("end\n")[0]
    return words([FENCE]), f"mcproof 1\n{one * n}end\n", CHECK


@family(400_000)
def steps(n):
    """A body of n steps."""
    return words([FENCE]), text(LEAVES[0], *["let 0x0"] * n, "leave 0 ;", STEP, "loop 0 0"), CHECK


@family(8000)
def deep_terms(n):
    """n terms of the greatest depth."""
    term = "(add " * 63 + "v0" + " v0)" * 63
    return words([FENCE]), text(LEAVES[0], *[f"let {term}"] * n, "leave 0 v0 ;", registers="10"), CHECK


@family(200_000)
def ranges(n):
    """n ranges of code."""
    many = " ".join(f"({BASE + 8 * i:#x} 0f000000)" for i in range(n))
    first = states(f"axiom {ENTRY} {FENCE:#x} next", covered=f"({ENTRY} 0f000000)")
    return words([FENCE]), text(*LEAVES, first, states("extend 0")).replace(f"code ({ENTRY} 0f000000)\ndef", f"code {many}\ndef"), CHECK


# ---- `eval`


@family(400_000)
def skipped_arm(n):
    """A thousand turns past an arm of n side conditions."""
    body = ["if (eq 0x0 0x1)", *["need (eq 0x0 0x0)"] * n, "again ;", "else", "again ;"]
    return TURN, text(AGAIN, *body, code=TURN.hex()), ["eval", "PROOF", "f", "1000"]


@family(25_000)
def memories(n):
    """n names for a memory of 4 KiB."""
    lines = [LEAVES[0], *["letm m0"] * n, "leave 0 ; m0"]
    return words([FENCE]), text(*lines, memories=1), ["eval", "PROOF", "f", "1", "mem=0x0:" + "00" * 4096]


@family(100_000)
def passed_code(n):
    """The text of `code-of-lines`, of whose lines nothing is asked but where they end."""
    code, proof, _ = code_of_lines(n)
    return code, proof, ["eval", "PROOF", "f", "1"]


@family(100_000)
def passed_short_code(n):
    """The same of `code-of-short-lines`."""
    code, proof, _ = code_of_short_lines(n)
    return code, proof, ["eval", "PROOF", "f", "1"]


@family(1_000_000, "NUMBER")
def calls(n):
    """n turns in definitions each of which calls the one before it twice."""
    call = "call {0} 1 ;\narm\n"
    twice = [f"def {ENTRY} {BEHIND}\n{2 * call.format(i)}leave 0 ;" for i in range(40)]
    return words([FENCE]), text(*LEAVES, *twice), ["eval", "PROOF", "f", str(n)]


# ---- `laws`


def certified(body):
    """A text whose definition has such a body, in which each line but `else` has one term, and a certificate that makes `v0` of each `(add v0 0x0)`."""
    proof, old, new = text(LEAVES[0], *body, registers="10"), "(add v0 0x0)", "v0"
    group = proof.partition("\n")[2].rpartition("end\n")[0]
    steps = [f"rw 0 {i} - 1" for i, line in enumerate(line for line in body if line != "else") if old in line]
    result = [*steps, "result", LEAVES[0], *(line.replace(old, new) for line in body), "end", ""]
    return words([FENCE]), proof, ["laws", "PROOF", "CERT"], 0, f"mclaws 1\n{group}" + "\n".join(result)


@family(40_000, "CERT")
def steps_of_a_certificate(n):
    """n steps, each of which rewrites another term of a body of n steps."""
    return certified(["let (add v0 0x0)"] * n + ["leave 0 v0 ;"])


@family(20_000, "CERT")
def steps_in_leaves(n):
    """n steps, each of which rewrites another leaf of a body."""
    return certified(tree(n, "leave 0 (add v0 0x0) ;"))


# ---- ELF files and words


@family(400_000, "ELF")
def symbols(n):
    """n functions of one name."""
    return words([RETURN]), "", ["decompile", "ELF", "OUT", "f"], n


@family(1_000_000, "NUMBER")
def segments(n):
    """64 segments of n bytes of memory, none of the file."""
    return [(BASE + n * i, b"", 0, n) for i in range(64)], "", ["run", "ELF", "0x0", "0x0", "0"]


@family(1_000_000, "ELF")
def segments_of_file(n):
    """16 segments of n bytes of the file, from the last to the first."""
    return [(BASE + n * i, bytes(n), n, n) for i in reversed(range(16))], "", ["run", "ELF", "0x0", "0x0", "0"]


@family(10_000, "WORDS")
def bytes_in_words(n):
    """n words of one byte each, at falling addresses."""
    return TURN, "", ["run", "ELF", ENTRY, ENTRY, "0", *(f"mem={16 * (n - i):#x}:00" for i in range(n))]


@family(10_000, "WORDS")
def names(n):
    """n names, the first of which no function has."""
    return TURN, "", ["decompile", "ELF", "OUT", *(f"n{i}" for i in range(n))]


# ---- `decompile`: shapes of code, at most 1,001 instructions


def shape(make):
    """A family of code that is decompiled, by what gives its words but the return."""

    def decompiled(n):
        return words([*make(n), RETURN]), "", DECOMPILE

    decompiled.__name__, decompiled.__doc__ = make.__name__, make.__doc__
    return family(250, "OUT")(decompiled)


@shape
def straight(n):
    """Additions on all registers."""
    draw = random.Random(n)
    return [arithmetic(0, 0, draw.randrange(32), draw.randrange(32), draw.randrange(32)) for _ in range(n)]


@shape
def branches(n):
    """Each instruction branches to the return."""
    return [branch(0, 10, 0, 4 * (n - i)) for i in range(n)]


@shape
def diamonds(n):
    """Each second instruction is jumped over, or isn't."""
    return [branch(0, 10, 0, 8), NOTHING] * (n // 2)


@shape
def nested_loops(n):
    """Loops in each other."""
    return [NOTHING] * (n // 2) + [branch(0, 10, 0, -4 * (2 * i + 1)) for i in range(n // 2)]


@shape
def loops_in_a_row(n):
    """Loops behind each other."""
    return [NOTHING, branch(1, 10, 0, -4)] * (n // 2)


@shape
def back_edges(n):
    """One loop that many branches close."""
    return [it for i in range(n // 2) for it in (NOTHING, branch(0, 10, 0, -4 * (2 * i + 1)))]


@shape
def drawn_branches(n):
    """Branches forward, to drawn places."""
    draw = random.Random(n)
    return [branch(0, 10, 0, 4 * draw.randrange(1, n - i + 1)) if draw.random() < 0.7 else NOTHING for i in range(n)]


# ---- measuring


def write(folder, made):
    """Writes the files of what was made, and gives their paths."""
    paths = {name: os.path.join(folder, name) for name in ("ELF", "PROOF", "CERT", "OUT")}
    segments = made.code if isinstance(made.code, list) else [(BASE, made.code, len(made.code), len(made.code))]
    write_elf(paths["ELF"], segments, [("f", BASE)] * made.symbols)
    for name, content in (("PROOF", made.text), ("CERT", made.certificate)):
        with open(paths[name], "w") as file:
            file.write(content)
    return paths


def run(measurer, program, folder, counted, made, number):
    """Runs the command twice on what was made. Gives the bytes, the seconds of the faster run, the peak, and the first line."""
    paths = write(folder, made)
    arguments = [paths.get(word, word) for word in made.command]
    limits = SECONDS, MEMORY, os.path.join(folder, "told")
    status, line, seconds, peak = min((measurer.submit(measure_work, program, arguments, *limits).result() for _ in range(2)), key=lambda told: told[2])
    size = {"NUMBER": number, "WORDS": sum(len(word) + 1 for word in arguments)}.get(counted) or os.path.getsize(paths[counted])
    return size, seconds, peak, line if status >= 0 else "killed"


def power(sizes, costs):
    """By which power of the size a cost grows from the second size to the third."""
    return max(math.log(costs[2] / costs[1]) / math.log(sizes[2] / sizes[1]), 0)


def at(limit, sizes, costs):
    """A cost at a limit of the size, by the power that it was found to grow by, to a half."""
    return costs[2] * (limit / sizes[2]) ** max(round(2 * power(sizes, costs)) / 2, 1)


def told_in(cost, units, least):
    """A cost in the greatest of the units of which it has two, or in the least one."""
    unit, length = next(((unit, length) for unit, length in units if cost >= 2 * length), (least, 1))
    return f"{cost / length:,.0f} {unit}"


def main():
    usage = f"{__doc__}\nThe families: {', '.join(FAMILIES)}"
    program, names = program_of(usage, sys.argv[1:], most=len(FAMILIES))
    if any(name not in FAMILIES for name in names):
        sys.exit(usage)
    print(f"{'family':18} {'bytes':>32}   {'seconds':>20}   {'MiB':>17}   powers     at the limit; what it says")
    # A process is born with the peak of its parent: the one that starts programs is small, since it begins before a text is made.
    with tempfile.TemporaryDirectory() as folder, ProcessPoolExecutor(1) as measurer:
        measurer.submit(os.getpid).result()
        for name in names or FAMILIES:
            sizes, counted, make = FAMILIES[name]
            rows = [run(measurer, program, folder, counted, Made(*make(n)), n) for n in sizes]
            tell(name, LIMITS.get(counted), *zip(*rows))


def tell(name, limit, sizes, seconds, peaks, lines):
    """Prints a family's line. What is too little to be measured has no power."""
    powers = [power(sizes, costs) if costs[2] >= least else None for costs, least in ((seconds, 0.1), (peaks, 2 * SMALL))]
    told = " ".join("   -" if it is None else f"{it:4.1f}" for it in powers)
    ends = [told_in(at(limit, sizes, seconds), TIMES, "s")] if limit and powers[0] is not None else []
    ends += [told_in(at(limit, sizes, peaks) / MIB, SPACES, "MiB")] if limit and powers[1] is not None else []
    columns = [" ".join(form.format(it) for it in row) for form, row in (("{:10,}", sizes), ("{:6.2f}", seconds), ("{:5.0f}", [it / MIB for it in peaks]))]
    print(f"{name:18} {'   '.join(columns)}   {told}   {', '.join(ends)}; {lines[2][:40]}", flush=True)


if __name__ == "__main__":
    main()
