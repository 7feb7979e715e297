#!/usr/bin/env python3
"""smt.py [PROGRAM] [ELF [SECONDS [OTHER]]]: what z3 and cvc5 do with the texts that the command `smt` of a built program writes. A solver that isn't installed is passed over.

- Chains of 4 to 32 joins: how long each solver takes to read the text of the last definition, and for two goals. The code is drawn by this script: in
  `sides`, both sides of each branch go on in the same definition; in `either`, two branches lead to one addition, or past it.
- Each definition that is free of loops, of all functions of `functions.elf`, or of ELF, a file with symbols: each solver must read its text, and decides a goal
  that is true by form. Which definitions `smt` refuses for a loop is found here once more, from the proof file.
- Values: from drawn registers, and where the function has a memory, 64 drawn bytes, the values that each solver gives the functions of a definition must be
  those that the command `eval` gives.
- With OTHER, another file: each function of ELF that is free of loops and has a namesake there that is so as well. The two are asked for a start of which both are done, and
  return elsewhere or with another word in x10; both solvers must say the same. Of one source compiled in two ways there is none, but where a function has an address of its file.
- Properties of the functions of `functions.elf`: each solver must prove those of `TRUE` (`unsat`) and refute those of `FALSE` (`sat`); of those of `BEYOND`,
  which are true as well, it is told how far the solvers come.

A solver has SECONDS of a processor, 20 where it isn't given, and 4 GiB for each text. The exit status is 1 where an answer is another than it must be; where a solver has none within
the limit, that is told.
"""
import collections
import os
import random
import re
import shutil
import statistics
import struct
import subprocess
import sys
import tempfile

FOLDER = os.path.dirname(os.path.abspath(__file__))
sys.path += [os.path.join(FOLDER, "..", "library"), os.path.join(FOLDER, "..", "..", "tools")]
from elf_files import BASE, write_elf
from instructions import RETURN, arithmetic, branch, immediate, jump, words
from mc.functions import Functions
from measuring import measure_work
from programs import program_of
from proof_texts import groups_of

OVER = "over the limit"
MEMORY = 4 << 30
JOINS = (4, 8, 12, 16, 20, 24, 28, 32)
STARTS = 3
SOLVERS = {"z3": ["-smt2"], "cvc5": ["--lang=smt2"]}
WORD, BYTES, DOMAIN = "(_ BitVec 64)", "(Array (_ BitVec 64) (_ BitVec 8))", "(Array (_ BitVec 64) (_ BitVec 1))"
FUNCTIONS = os.path.join(FOLDER, "functions.elf")
SOURCE = os.path.join(FOLDER, "functions.c")

# Formulas over the functions of functions.c. NAME is what a function returns, NAME.ok whether it is done with every condition true, NAME.pc where it returns to,
# NAME.m its memory behind it. a, b, c are any words, m is any memory, d where its bytes are present, x1 the return address. A number stands for a word.
TRUE = """
(= (absolute a) (absolute_by_mask a))
(=> (distinct a least) (bvsge (absolute a) 0))
(=> (is_half a) (= (absolute_int a) (rv_sx4 (absolute a))))
(= (sign a) (sign_by_shifts a))
(= (smaller a b) (smaller_by_mask a b))
(= (smaller a (smaller b c)) (smaller (smaller c a) b))
(= (larger_unsigned (larger_unsigned a b) c) (larger_unsigned a (larger_unsigned b c)))
(=> (bvsle b c) (and (bvsle b (clamp a b c)) (bvsle (clamp a b c) c)))
(=> (bvsle b c) (= (clamp a b c) (median a b c)))
(= (median a b c) (median c a b))
(= (compare a b) (bvneg (compare b a)))
(= (difference a b) (difference b a))
(= (choose a b c) (choose_by_mask a b c))
(and (bvuge (saturating_sum a b) a) (bvuge (saturating_sum a b) b))
(= (wide (saturating_sum_signed a b)) (ite (bvslt (wide_sum a b) (wide least)) (wide least) (ite (bvslt (wide most) (wide_sum a b)) (wide most) (wide_sum a b))))
(= (saturating_difference (saturating_sum a b) b) (ite (bvult (bvadd a b) a) (bvnot b) a))
(= ((_ zero_extend 1) (average a b)) (bvlshr (bvadd ((_ zero_extend 1) a) ((_ zero_extend 1) b)) (_ bv1 65)))
(=> (bvuge (bvadd a b) a) (= (average a b) (average_by_sum a b)))
(=> (and (= (is_power_of_two b) 1) (bvule a (bvneg b))) (and (= (bvand (round_up a b) (bvsub b 1)) 0) (bvult (bvsub (round_up a b) a) b)))
(= (eighth a) (rv_div a 8))
(= (rest_of_eight a) (rv_rem a 8))
(=> (bvsge a 0) (= (eighth a) (eighth_by_shift a)))
(= (ten_times a) (ten_times_by_shifts a))
(=> (bvult a 256) (= (tenth a) (tenth_of_byte a)))
(=> (bvult a 4096) (= (is_leap a) (is_leap_by_bits a)))
(= (parity a) (parity_by_table a))
(=> (distinct a 0) (= (bvlshr a (bvsub 63 (leading_zeros a))) 1))
(=> (distinct a 0) (= (bvshl 1 (trailing_zeros a)) (lowest_one a)))
(= (trailing_zeros a) (leading_zeros (reverse_bits a)))
(=> (distinct a 0) (= (is_power_of_two (lowest_one a)) 1))
(=> (and (bvult 0 a) (bvule a least)) (and (= (is_power_of_two (next_power_of_two a)) 1) (bvuge (next_power_of_two a) a)))
(= (rotate_right (rotate_left a b) b) a)
(= (rotate_left a b) (rotate_right a (bvneg b)))
(= (reverse_bits (reverse_bits a)) a)
(= (swap_bytes (reverse_bits a)) (reverse_bits (swap_bytes a)))
(= (gray_back (gray a)) a)
(= (is_power_of_two (bvxor (gray a) (gray (bvadd a 1)))) 1)
(= (gather (spread a)) (bvand a 0xffffffff))
(= (bvor (spread a) (bvshl (spread a) 1)) (bvmul (spread a) 3))
(= (distinct (zero_byte a) 0) (has_zero_byte a))
(=> (= (mix_bits a) (mix_bits b)) (= a b))
(=> (and (is_half a) (bvult b 256)) (= (check_step a b) (check_step_by_mask a b)))
(=> (is_half a) (= (is_letter a) (is_letter_by_case a)))
(=> (bvult a 16) (= (hexadecimal (hexadecimal_digit a)) a))
(=> (= (is_letter a) 1) (= (is_space a) 0))
(=> (is_half a) (= (is_space a) (ite (or (= a 32) (and (bvule 9 a) (bvule a 13))) 1 0)))
(= (check_step a b) (check_step b a))
(= (clamp.pc a b c) (bvand x1 -2))
(=> (and (swap.ok m a b) (apart a b 8)) (and (= (rv_ld8 (swap.m m a b) d a) (rv_ld8 m d b)) (= (rv_ld8 (swap.m m a b) d b) (rv_ld8 m d a))))
(=> (and (swap.ok m a b) (apart a b 8)) (= (rv_ld8 (swap.m m a b) d c) (rv_ld8 (swap_by_xor.m m a b) d c)))
(=> (and (bvuge (bvsub c a) 8) (bvuge (bvsub c b) 8)) (= (select (swap.m m a b) c) (select m c)))
(=> (store_big_endian.ok m a b) (= (load_big_endian (store_big_endian.m m a b) a) (rv_sx4 b)))
(=> (sort_three.ok m a) (bvsle (rv_ld8 (sort_three.m m a) d a) (rv_ld8 (sort_three.m m a) d (bvadd a 8))))
(=> (and (rv_in8 d a) (rv_in4 d (bvadd a 8)) (rv_in1 d (bvadd a 14))) (withdraw.ok m a b))
(=> (and (withdraw.ok m a b) (bvsge (rv_ld8 m d a) 0) (bvsge b 0)) (bvsge (rv_ld8 (withdraw.m m a b) d a) 0))
(=> (and (transfer.ok m a b c) (apart a b 8)) (= (bvadd (balance m a) (balance m b)) (bvadd (balance (transfer.m m a b c) a) (balance (transfer.m m a b c) b))))
(=> (equal_bytes.ok m a b) (= (= (equal_bytes m a b) 1) (= (rv_ld4 m d a) (rv_ld4 m d b))))
"""
FALSE = """
(bvsge (absolute a) 0)
(= (absolute_int a) (absolute a))
(= (clamp a b c) (median a b c))
(= (sign (compare_by_difference a b)) (compare a b))
(= (same_sign a b) (ite (= (sign a) (sign b)) 1 0))
(= (larger_unsigned a b) (bvneg (smaller (bvneg a) (bvneg b))))
(bvult (saturating_sum a b) -1)
(= (saturating_difference a b) (bvsub a b))
(= (average a b) (average_by_sum a b))
(bvuge (round_up a b) a)
(= (eighth a) (eighth_by_shift a))
(= (tenth a) (tenth_of_byte a))
(= (is_power_of_two (next_power_of_two a)) 1)
(= (count_ones (bvor a b)) (bvadd (count_ones a) (count_ones b)))
(= (leading_zeros a) (trailing_zeros a))
(= (rotate_left a b) (bvshl a b))
(= (gather (spread a)) a)
(distinct (mix_bits a) 1)
(= (mix a) a)
(= (hexadecimal (hexadecimal_digit a)) a)
(= (check_step a b) a)
(distinct (mix a) 1)
(swap.ok m a b)
(=> (swap.ok m a b) (= (rv_ld8 (swap.m m a b) d a) (rv_ld8 m d b)))
(=> (store_big_endian.ok m a b) (= (load_big_endian (store_big_endian.m m a b) a) b))
(=> (and (withdraw.ok m a b) (bvsge (rv_ld8 m d a) 0)) (bvsge (rv_ld8 (withdraw.m m a b) d a) 0))
(=> (transfer.ok m a b c) (= (bvadd (balance m a) (balance m b)) (bvadd (balance (transfer.m m a b c) a) (balance (transfer.m m a b c) b))))
"""
BEYOND = """
(= (upper_product a b) (upper_product_by_halves a b))
(=> (is_half a) (= (tenth a) (rv_divuw a 10)))
(= (count_ones a) (count_ones_by_sums a))
(= (parity a) (bvand (count_ones a) 1))
(=> (= (mix a) (mix b)) (= a b))
(=> (sort_three.ok m a) (= (rv_ld8 (sort_three.m m a) d (bvadd a 8)) (median (rv_ld8 m d a) (rv_ld8 m d (bvadd a 8)) (rv_ld8 m d (bvadd a 16)))))
"""
# What the formulas may apply besides.
HELPERS = f"""
(define-fun least () {WORD} #x8000000000000000)
(define-fun most () {WORD} #x7fffffffffffffff)
(define-fun is_half ((a {WORD})) Bool (= (rv_sx4 a) a))
(define-fun apart ((a {WORD}) (b {WORD}) (n {WORD})) Bool (and (bvuge (bvsub a b) n) (bvuge (bvsub b a) n)))
(define-fun wide ((a {WORD})) (_ BitVec 65) ((_ sign_extend 1) a))
(define-fun wide_sum ((a {WORD}) (b {WORD})) (_ BitVec 65) (bvadd (wide a) (wide b)))
(define-fun balance ((m {BYTES}) (a {WORD})) {WORD} (rv_ld8 m d a))
(define-fun has_zero_byte ((a {WORD})) Bool (or {" ".join(f"(= ((_ extract {8 * i + 7} {8 * i}) a) #x00)" for i in range(8))}))
"""


def literal(n):
    return f"(_ bv{n % (1 << 64)} 64)"


def numbered(formula):
    """The formula, its numbers as words."""
    return re.sub(r"\(_ [^)]*\)|(?<![\w.#])-?(?:0x[0-9a-f]+|\d+)(?![\w.])", lambda part: part[0] if part[0][0] == "(" else literal(int(part[0], 0)), formula)


def constants(path):
    """The bytes that the file loads and that are no code, by the section headers: pairs of address and bytes."""
    with open(path, "rb") as file:
        data = file.read()
    (start,), (count,) = struct.unpack_from("<Q", data, 40), struct.unpack_from("<H", data, 60)
    for i in range(count):
        _, kind, flags, address, offset, size = struct.unpack_from("<IIQQQQ", data, start + 64 * i)
        if kind == 1 and flags & 6 == 2:
            yield address, data[offset : offset + size]


def stored(name, bytes_at):
    """The array of that name with these bytes, and a bit 1 at each of their addresses in the other one."""
    bytes_term, bits_term = name
    for address, held in bytes_at:
        for i, byte in enumerate(held):
            bytes_term = f"(store {bytes_term} {literal(address + i)} #x{byte:02x})"
            bits_term = f"(store {bits_term} {literal(address + i)} #b1)"
    return bytes_term, bits_term


class Bench:
    """A program, the solvers that are installed, and a folder to work in."""

    def __init__(self, program, folder, limit):
        self.program, self.folder, self.limit = program, folder, limit
        self.solvers = [solver for solver in SOLVERS if shutil.which(solver)]
        self.faults, self.undecided = [], []

    def path(self, name):
        return os.path.join(self.folder, name)

    def say(self, *words):
        return subprocess.run([self.program, *words], capture_output=True, text=True).stdout

    def judge(self, answer, expected, *words):
        """Counts an answer that is another than it must be, and one that didn't come within the limit."""
        if answer == OVER:
            self.undecided.append(" ".join(words))
            print("OVER THE LIMIT:", *words, flush=True)
        elif answer != expected:
            self.fault(*words, "says", answer[:200])

    def fault(self, *words):
        self.faults.append(" ".join(map(str, words)))
        print("OTHERWISE:", *words, flush=True)

    def solve(self, solver, text):
        """The first line that the solver says to a text, the seconds of a processor that it took, and all that it says."""
        path = self.path("goal.smt2")
        with open(path, "w") as file:
            file.write(f"(set-logic ALL)\n(set-option :produce-models true)\n{text}")
        status, line, seconds, _ = measure_work(shutil.which(solver), [*SOLVERS[solver], path], self.limit, MEMORY, self.path("said"))
        with open(self.path("said")) as file:
            said = file.read()
        return (OVER if status < 0 or "memory" in line else line), seconds, said

    def decompile(self, elf, name):
        """The group of a function of a file, in a proof file of its own, or none where it is refused."""
        proof = self.path(f"{name}.proof")
        if not self.say("decompile", elf, proof, name).startswith("decompiled "):
            return None
        (group,) = groups_of(proof)
        group.proof = proof
        return group

    def export(self, group, definition):
        """The text of a definition, or none where it is refused for a loop."""
        told = self.say("smt", group.proof, group.name, str(definition), self.path("out"))
        least = group.least_loop(definition)
        expected = f"exported {definition}\n" if least is None else f"refused loop {least}\n"
        if told != expected:
            self.fault("smt", group.name, definition, "says", repr(told), "and not", repr(expected))
        if not told.startswith("exported "):
            return None
        with open(self.path("out")) as file:
            return file.read()


def parameters(group):
    """The parameters of a group's definitions as constants, with their declarations."""
    names = [f"x{register}" for register in group.registers]
    declared = [f"(declare-const {name} {WORD})" for name in names]
    if group.has_memory:
        names += ["m", "d"]
        declared += [f"(declare-const m {BYTES})", f"(declare-const d {DOMAIN})"]
    return " ".join(names), "\n".join(declared)


def by_form(group, definition, text):
    """A goal that is true by form: each function of the definition gives what it gives."""
    names, declared = parameters(group)
    told = [f"({name} {names})" if names else name for name in re.findall(rf"^\(define-fun (f{definition}_\w+) ", text, re.M)]
    return f"{declared}\n(assert (not (and {' '.join(f'(= {term} {term})' for term in told)})))\n(check-sat)\n"


# ---- chains


def sides(joins):
    """Each join adds to x10 or takes from it: its low bit is told by how often."""
    return [word for _ in range(joins) for word in (branch(6, 10, 11, 12), arithmetic(32, 0, 10, 10, 11), jump(8), arithmetic(0, 0, 10, 10, 11))] + [RETURN]


def either(joins):
    """Each join adds 2 to x10, where one condition of two holds: its low bit stays."""
    return [word for _ in range(joins) for word in (branch(6, 10, 11, 8), branch(1, 10, 12, 8), immediate(0, 10, 10, 2))] + [RETURN]


def try_chains(bench):
    head = "".join(f"{solver + ': reads':>14} {'by form':>9} {'low bit':>9}" for solver in bench.solvers)
    print(f"{'chain':8} {'joins':>5} {'bytes':>7}{head}    seconds of a processor; - is over {bench.limit}", flush=True)
    for shape, added in ((sides, "(bvmul x11 (_ bv{} 64))"), (either, "(_ bv0 64)")):
        over = set()
        for joins in JOINS:
            code = words(shape(joins))
            write_elf(bench.path("elf"), [(BASE, code, len(code), len(code))], [("chain", BASE)])
            group = bench.decompile(bench.path("elf"), "chain")
            last = len(group.entries) - 1
            text = bench.export(group, last)
            names, declared = parameters(group)
            result = f"(f{last}_w{group.registers.index(10)} {names})"
            low_bit = f"{declared}\n(assert (distinct ((_ extract 0 0) {result}) ((_ extract 0 0) (bvadd x10 {added.format(joins)}))))\n(check-sat)\n"
            cells = []
            for solver in bench.solvers:
                for goal, question, expected in (("reads", "(check-sat)\n", "sat"), ("by form", by_form(group, last, text), "unsat"), ("low bit", low_bit, "unsat")):
                    if (solver, goal) in over:
                        cells.append("-")
                        continue
                    answer, seconds, _ = bench.solve(solver, text + question)
                    if answer == OVER:
                        over.add((solver, goal))
                    elif answer != expected:
                        bench.fault(solver, f"says {answer} to {shape.__name__} of {joins} joins, {goal}")
                    cells.append("-" if answer == OVER else f"{seconds:.2f}")
            print(f"{shape.__name__:8} {joins:5} {len(text):7}" + "".join(f"{cell:>{14 if i % 3 == 0 else 10}}" for i, cell in enumerate(cells)), flush=True)


# ---- definitions, and their values


def try_definitions(bench, groups):
    """Each definition that is free of loops. The texts of the whole functions."""
    whole, sizes, loops = {}, [], 0
    read, told = ({solver: [] for solver in bench.solvers} for _ in range(2))
    for group in groups:
        for definition in range(len(group.entries)):
            text = bench.export(group, definition)
            if text is None:
                loops += 1
                continue
            sizes.append(len(text))
            if definition == len(group.entries) - 1:
                whole[group.name] = text
            for solver in bench.solvers:
                answer, seconds, _ = bench.solve(solver, text + "(check-sat)\n")
                read[solver].append((seconds, f"{group.name} {definition}"))
                bench.judge(answer, "sat", f"{solver} reads definition {definition} of {group.name}")
                answer, seconds, _ = bench.solve(solver, text + by_form(group, definition, text))
                told[solver].append((seconds, f"{group.name} {definition}"))
                bench.judge(answer, "unsat", f"{solver}: definition {definition} of {group.name}")
    print(f"\n{len(groups)} functions: {len(sizes)} definitions exported, {loops} refused for a loop; texts of {min(sizes)} to {max(sizes)} bytes, {statistics.median(sizes):.0f} in the middle")
    for done, by_solver in (("read", read), ("decided", told)):
        for solver, times in by_solver.items():
            middle, (most, which) = statistics.median(seconds for seconds, _ in times), max(times)
            print(f"{solver}: {len(times)} {done} or tried, {middle:.2f} s in the middle, {most:.2f} s at most ({which})", flush=True)
    return whole


REGION, SIZE = 0x8000, 64


def draw(of, group, start):
    """Registers, each a number or an address in the region, and the region's bytes. In the first start of a function with a memory all are such addresses."""
    kinds = (lambda: REGION + 8 * of.randrange(SIZE // 8), lambda: of.getrandbits(64), lambda: of.randrange(256), lambda: -of.randrange(1 << 32) % (1 << 64))
    among = kinds[:1] if start == 0 and group.has_memory else kinds
    return [of.choice(among)() for _ in group.registers], of.randbytes(SIZE)


def question(group, definition, start, registers, memory, asked):
    """Constants that stand for what is asked of the functions of a definition, on these words and this memory."""
    terms = [literal(value) for value in registers]
    lines = []
    if group.has_memory:
        empty = f"((as const {BYTES}) #x00)", f"((as const {DOMAIN}) #b0)"
        for name, sort, term in zip("md", (BYTES, DOMAIN), stored(empty, memory)):
            lines.append(f"(define-fun {name}_{start} () {sort} {term})")
            terms.append(f"{name}_{start}")
    args = f" {' '.join(terms)})" if terms else ")"
    told = {"ok": ("Bool", f"(f{definition}_ok{args}"), "pc": (WORD, f"(f{definition}_pc{args}")}
    told |= {f"x{register}": (WORD, f"(f{definition}_w{i}{args}") for i, register in enumerate(group.registers)}
    if group.has_memory:
        told |= {f"m{at}": (WORD, f"(rv_ld8 (f{definition}_m0{args} d_{start} {literal(REGION + at)})") for at in range(0, SIZE, 8)}
    for name in asked:
        sort, term = told[name]
        lines.append(f"(declare-const {name}_{start} {sort})\n(assert (= {name}_{start} {term}))")
    return lines


def evaluated(bench, group, registers, memory):
    """What `eval` says: whether it is done, and then the values by the same names."""
    given = [f"x{register}={value:#x}" for register, value in zip(group.registers, registers)]
    given += [f"mem={address:#x}:{held.hex()}" for address, held in memory] if group.has_memory else []
    lines = bench.say("eval", group.proof, group.name, "10000", *given).split("\n")
    if not lines[0].startswith("done "):
        return {"ok": 0} if lines[0].startswith("refused side ") else {"ok": lines[0]}
    values = {"ok": 1}
    for name, value, *held in (line.split() for line in lines[1:] if line):
        if name != "mem":
            values[name] = int(value, 16)
        elif int(value, 16) == REGION:
            after = bytes.fromhex(held[0])
            values |= {f"m{at}": int.from_bytes(after[at : at + 8], "little") for at in range(0, SIZE, 8)}
    return values


def try_values(bench, groups, whole, given):
    count = done = 0
    for group in (group for group in groups if group.name in whole):
        of, last = random.Random(group.name), len(group.entries) - 1
        expected, lines, names = [], [], []
        for start in range(STARTS):
            registers, content = draw(of, group, start)
            memory = [*given, (REGION, content)]
            expected.append(evaluated(bench, group, registers, memory))
            lines += question(group, last, start, registers, memory, expected[-1])
            names += [f"{name}_{start}" for name in expected[-1]]
        text = whole[group.name] + "\n".join(lines) + f"\n(check-sat)\n(get-value ({' '.join(names)}))\n"
        count += len(expected)
        done += sum(values["ok"] == 1 for values in expected)
        for solver in bench.solvers:
            answer, _, said = bench.solve(solver, text)
            values = {name: int(value.replace("#", "0").replace("true", "1").replace("false", "0"), 0) for name, value in re.findall(r"\((\w+) (#x[0-9a-f]+|#b[01]+|true|false)\)", said)}
            for start, wanted in enumerate(expected):
                found = {name: values.get(f"{name}_{start}") for name in wanted}
                if answer == "sat" and found != wanted:
                    bench.fault(solver, f"says {found} of {group.name}, and eval {wanted}")
            bench.judge(answer, "sat", f"{solver}: values of {group.name}")
    print(f"{count} evaluations of {len(whole)} functions, {done} of them done: compared with what the solvers say", flush=True)


# ---- properties


def prototypes():
    """The functions of functions.c, and of each parameter whether it is a pointer."""
    with open(SOURCE) as file:
        found = re.findall(r"^\w[\w ]*?[ *](\w+)\((.*)\) \{", file.read(), re.M)
    return {name: ["*" in parameter for parameter in inside.split(",")] for name, inside in found}


def applied(group, pointers):
    """What a function returns and leaves, as functions of its parameters; before them stands the memory where one of them points into it."""
    takes_memory = any(pointers)
    args = {10 + i: "abcdefgh"[i] for i in range(len(pointers))}
    params = ([f"(m {BYTES})"] if takes_memory else []) + [f"({name} {WORD})" for name in args.values()]
    terms = [args.get(register, f"x{register}") for register in group.registers]
    if group.has_memory:
        terms += ["m", "d"] if takes_memory else ["held", "there"]
    last = f"{group.name}.f{len(group.entries) - 1}"
    told = [("", WORD, f"w{group.registers.index(10)}"), (".ok", "Bool", "ok"), (".pc", WORD, "pc")] + ([(".m", BYTES, "m0")] if group.has_memory else [])
    return [f"(define-fun {group.name}{end} ({' '.join(params)}) {sort} ({last}_{name} {' '.join(terms)}))" for end, sort, name in told]


class Properties:
    """Formulas over the functions of functions.c as texts for solvers."""

    def __init__(self, groups, whole, given):
        self.groups = {group.name: group for group in groups}
        self.whole, self.pointers = whole, prototypes()
        held, there = stored(("m", "d"), given)
        declared = [f"(declare-const x{register} {WORD})" for register in range(1, 32)] + [f"(declare-const {name} {WORD})" for name in "abc"]
        declared += [f"(declare-const m {BYTES})", f"(declare-const d {DOMAIN})"]
        declared += [f"(define-fun held () {BYTES} {held})", f"(define-fun there () {DOMAIN} {there})"]
        self.head = "\n".join(declared) + HELPERS

    def text(self, formula):
        """Whether the formula can be false."""
        used = [name for name in dict.fromkeys(re.findall(r"\(([a-z_]+)", formula)) if name in self.groups]
        operations, functions = [], []
        for name in used:
            lines = self.whole[name].split("\n")
            operations = [line for line in lines if line.startswith("(define-fun rv_")]
            functions += [re.sub(r"\bf(?=\d+_)", f"{name}.f", line) for line in lines if line.startswith("(define-fun f")]
            functions += applied(self.groups[name], self.pointers[name])
        return "\n".join([*operations, self.head, *functions, f"(assert (not {numbered(formula)}))", "(check-sat)", ""])


def try_properties(bench, properties):
    for title, formulas, expected in (("proved", TRUE, "unsat"), ("refuted", FALSE, "sat"), ("true, and perhaps beyond a solver", BEYOND, "unsat")):
        head = "".join(f"{solver:>8}" for solver in bench.solvers)
        formulas = formulas.strip().split("\n")
        print(f"\n{head}    {len(formulas)} properties, {title}; seconds of a processor, - is over {bench.limit}", flush=True)
        for formula in formulas:
            text, cells = properties.text(formula), []
            for solver in bench.solvers:
                answer, seconds, _ = bench.solve(solver, text)
                bench.judge(answer, expected, f"{solver}: {formula}")
                cells.append("-" if answer == OVER else f"{seconds:.2f}")
            print("".join(f"{cell:>8}" for cell in cells) + f"    {formula}", flush=True)


# ---- two files


def whole_functions(bench, elf):
    """The functions of a file by their names: those that are free of loops, with the text of the last definition."""
    functions, found = Functions(elf), {}
    for address, name in functions.names.items():
        group = bench.decompile(elf, functions.words[address]) if functions.places[name] == {address} else None
        text = group and bench.export(group, len(group.entries) - 1)
        if text:
            found[name] = group, text
    return found


def question_of_two(first, second):
    """Whether there is a start from which both are done, and differ in x10 or in the place to which they return."""
    lines, told = [], []
    for letter, (group, text) in zip("ab", (first, second)):
        lines += [re.sub(r"\bf(?=\d+_)", f"{letter}.f", line) for line in text.split("\n") if letter == "a" or not line.startswith("(define-fun rv_")]
        names, last = " ".join([*(f"x{register}" for register in group.registers), *(["m", "d"] if group.has_memory else [])]), len(group.entries) - 1
        asked = {"ok": "ok", "pc": "pc"} | ({"x10": f"w{group.registers.index(10)}"} if 10 in group.registers else {})
        told.append({"x10": "x10"} | {word: f"({letter}.f{last}_{end} {names})" if names else f"{letter}.f{last}_{end}" for word, end in asked.items()})
    lines += [f"(declare-const x{register} {WORD})" for register in range(1, 32)] + [f"(declare-const m {BYTES})", f"(declare-const d {DOMAIN})"]
    a, b = told
    return "\n".join([*lines, f"(assert {a['ok']})", f"(assert {b['ok']})", f"(assert (not (and (= {a['pc']} {b['pc']}) (= {a['x10']} {b['x10']}))))", "(check-sat)", ""])


def try_two_files(bench, elf, other):
    first, second = whole_functions(bench, elf), whole_functions(bench, other)
    names, counts = sorted(first.keys() & second.keys()), collections.Counter()
    for name in names:
        text = question_of_two(first[name], second[name])
        answers = {solver: bench.solve(solver, text)[0] for solver in bench.solvers}
        if not {*answers.values()} <= {"sat", "unsat", OVER}:
            bench.fault(name, "of both files:", answers)
        decided = {answer for answer in answers.values() if answer in ("sat", "unsat")}
        if len(decided) == 2:
            bench.fault(name, "of both files: solvers differ:", answers)
        counts["undecided by some solver" if OVER in answers.values() else {"unsat": "the same", "sat": "not the same"}.get(*decided)] += 1
    print(f"{len(names)} functions of both files, asked of each solver: {', '.join(f'{count} {what}' for what, count in counts.most_common())}", flush=True)


def main():
    program, words = program_of(__doc__, sys.argv[1:], most=3)
    elf, limit, other = (*words, *(FUNCTIONS, 20, None)[len(words) :])
    with tempfile.TemporaryDirectory() as folder:
        bench = Bench(program, folder, int(limit))
        for solver in SOLVERS:
            print(f"{solver}: {'installed' if solver in bench.solvers else 'not installed, passed over'}")
        groups = [bench.decompile(elf, word) for word in Functions(elf).words.values()]
        groups = [group for group in groups if group is not None]
        given = list(constants(elf))
        if elf == FUNCTIONS:
            try_chains(bench)
        whole = try_definitions(bench, groups)
        try_values(bench, groups, whole, given if sum(len(held) for _, held in given) <= 1024 else [])
        if other:
            try_two_files(bench, elf, other)
        if elf == FUNCTIONS:
            try_properties(bench, Properties(groups, whole, given))
        print(f"\n{len(bench.faults)} answers otherwise than they must be, {len(bench.undecided)} over the limit")
    return 1 if bench.faults else 0


if __name__ == "__main__":
    sys.exit(main())
