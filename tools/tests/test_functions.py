"""Tests of mc.functions and mc.frames."""
import os
import re
import shutil
import struct
import tempfile
import unittest

from mc import elf, frames, functions, program, proof
from tests import samples

GCD = samples.EXAMPLES / "gcd"
# A function that stores a0 to its frame, and has a loop store to an address that is computed from sp and a0. The first memory is accessed by such an address in the
# lines 9 and 20; that of line 22 was loaded.
TEXT = """mcproof 4
group f
regs 2 10
mems 2
code (0x10000 8280)
def 0x10004 0x10008
let (add v0 v1)
need (in8 m0 (add v2 0x0))
letm (st8 m0 (add v2 0x0) v1)
if (ne v1 0x0)
again v0 v2 ; m2 m1
else
leave 0 v2 v1 ; m2 m1
def 0x10000 ret
let (add v0 0xfffffffffffffff0)
need (in8 m1 (add v2 0x8))
letm (st8 m1 (add v2 0x8) v1)
call 0 1 v2 v1 ; m0 m2
arm
let (ld8 m3 (add v3 0x0))
let (ld8 m4 (add v4 0x0))
let (ld8 m3 (add v5 0x0))
leave 0 0x0 v0 v7 ; m3 m4
end
"""


def made(folder, name, **given):
    """The ELF file of the samples under that name: its path."""
    path = os.path.join(folder, name)
    with open(path, "wb") as file:
        file.write(samples.elf_file(**given))
    return path


class Names(unittest.TestCase):
    def test_of_the_examples(self):
        for path, expected in ((GCD / "gcd.elf", {0x11120: "gcd"}), (samples.EXAMPLES / "refused" / "lcm.elf", {0x11120: "gcd", 0x11130: "lcm"})):
            found = functions.Functions(path)
            self.assertEqual((found.names, found.words), (expected, expected))
            self.assertEqual(found.places, {name: {address} for address, name in expected.items()})

    def test_words(self):
        places = {"f": {16}, "g": {16, 32}, "0x10": {16}, "f(int)": {16}}
        self.assertEqual([functions.word_of(16, name, places) for name in places], ["f", "0x10", "0x10", "0x10"])

    def test_of_dynamic_symbols_alone(self):
        with tempfile.TemporaryDirectory() as folder:
            for table, words in ((2, {0x10000: "f"}), (11, {0x10000: "0x10000"})):
                found = functions.Functions(made(folder, "made", symbol_table=table))
                self.assertEqual((found.names, found.words), ({0x10000: "f"}, words))


class Frames(unittest.TestCase):
    def test_of_a_text_made_by_hand(self):
        self.assertEqual(frames.Walk(proof.parse(TEXT).groups[0]).others(), {9, 20})

    def test_of_the_example(self):
        found = frames.read(samples.EXAMPLES / "split" / "swap.proof")
        self.assertEqual((found.stack, found.all, found.others, found.is_in_both), (12, 16, 0, False))


class WrongWords(unittest.TestCase):
    def test_usage(self):
        for given in ((), ("--foo", "f.elf"), ("--link", "--split", "f.elf"), ("--jobs", "0", "f.elf"), ("--jobs", "f.elf"), ("f.elf", "o", "more")):
            status, out, errors = samples.mc("functions", *given)
            self.assertEqual((status, out), (2, ""), given)
            self.assertIn("usage: mc functions [--link | --split] [--inside] [--jobs N] ELF [OUT]\n", errors)

    def test_out_is_the_file(self):
        with tempfile.TemporaryDirectory() as folder:
            path = shutil.copy(GCD / "gcd.elf", folder)
            os.symlink("gcd.elf", os.path.join(folder, "link"))
            os.link(path, os.path.join(folder, "hard"))
            for out in ("gcd.elf", "./gcd.elf", "link", "hard"):
                status, _, errors = samples.mc("functions", "gcd.elf", out, cwd=folder)
                self.assertEqual((status, errors), (2, f"mc functions: OUT {out} is the ELF file itself: nothing was done\n"))
            shutil.copy(path, os.path.join(folder, "other.elf"))
            status, _, errors = samples.mc("functions", "gcd.elf", "other.elf", cwd=folder)
            self.assertEqual((status, errors), (2, "mc functions: OUT other.elf is an ELF file, and would be overwritten: nothing was done. One ELF file is taken at a time\n"))
            for name in ("gcd.elf", "other.elf"):
                with open(os.path.join(folder, name), "rb") as file:
                    self.assertEqual(file.read(), (GCD / "gcd.elf").read_bytes())

    def test_out_is_a_function(self):
        found = functions.Functions(GCD / "gcd.elf")
        with tempfile.TemporaryDirectory() as folder:
            there = os.path.join(folder, "gcd")
            self.assertEqual([functions.is_function_alone(out, found) for out in ("gcd", "./gcd", "gcd.proof", there, None)], [True] + 4 * [False])


@unittest.skipUnless(program.find(), "no program is built")
class OfAProgram(unittest.TestCase):
    def setUp(self):
        self.folder = tempfile.TemporaryDirectory()

    def tearDown(self):
        self.folder.cleanup()

    def say(self, *given):
        return samples.mc("functions", *given, cwd=self.folder.name)

    def test_a_file_and_out(self):
        shutil.copy(GCD / "gcd.elf", self.folder.name)
        status, out, errors = self.say("gcd.elf", "o.proof", "--jobs", "1")
        self.assertEqual((status, errors), (0, ""))
        self.assertEqual(out, "0x11120  gcd                           7 instructions, 5 definitions\n\n1 functions, 1 decompiled, 0 refused\no.proof: accepted 1 95\n")
        with open(os.path.join(self.folder.name, "o.proof"), "rb") as file:
            self.assertEqual(file.read(), (GCD / "gcd.proof").read_bytes())

    def test_inside(self):
        _, out, _ = self.say("--inside", samples.EXAMPLES / "refused" / "lcm.elf")
        self.assertTrue(out.startswith("0x11120  gcd                           7 instructions, 5 definitions\n\n2 functions, 1 decompiled, 1 refused\n"), out)

    def test_link_and_split(self):
        _, out, _ = self.say("--link", samples.EXAMPLES / "linked" / "lcm.elf")
        self.assertIn("0x100f8  lcm                           21 instructions, 6 definitions\n\n2 functions, 2 linked, 0 refused\n", out)
        _, out, _ = self.say("--split", samples.EXAMPLES / "split" / "swap.elf")
        self.assertIn("20 instructions, 1 definitions, 12 of 16 accesses to the stack\n\n1 functions, 1 split, 0 refused\n1 have accesses to the stack, 12 of their 16; all 12 of 16\n", out)
        self.assertNotIn("Warning", out)

    def test_a_frame_in_both_memories(self):
        """sd a0, -8(sp); add a1, sp, a0; ld a0, -64(a1); ret: the second access is by an address that is computed from sp."""
        code = struct.pack("<IIIH", 0xFEA13C23, 0x00A105B3, 0xFC05B503, 0x8082)
        path = os.path.join(self.folder.name, "made.elf")
        with open(path, "wb") as file:
            file.write(elf_of(code))
        _, out, _ = self.say("--split", "made.elf")
        self.assertIn("4 instructions, 1 definitions, 1 of 2 accesses to the stack, and 1 more at addresses that come from sp\n", out)
        self.assertRegex(out, re.compile(r"^Warning: f may have the frame in both memories\. ", re.M))

    def test_dynamic_symbols_of_a_position_independent_file(self):
        made(self.folder.name, "made.so", kind=3, symbol_table=11)
        status, out, _ = self.say("made.so", "o.proof")
        self.assertEqual(status, 0)
        position, names, line, *_ = out.splitlines()
        self.assertIn("-static or -no-pie", position)
        self.assertIn(".dynsym", names)
        self.assertEqual(line, "0x10000  f                             1 instructions, 1 definitions")
        self.assertIn("\no.proof: accepted 1 ", out)

    def test_files_that_are_none(self):
        made(self.folder.name, "made.o", kind=1)
        for name, why in (("made.o", "unreadable elf kind 1. "), ("none", f"read fault: no such file (looked for in {self.folder.name})\n"), (str(GCD / "gcd.c"), "unreadable elf not-elf. ")):
            status, out, errors = self.say(name)
            self.assertEqual((status, out), (1, ""))
            self.assertTrue(errors.startswith(f"mc functions: {name}: {why}"), errors)

    def test_too_large_with_what_it_calls(self):
        """f calls g, which has 1,024 instructions: by itself it is refused for its call."""
        path = os.path.join(self.folder.name, "made.elf")
        call, add, back = 0x010000EF, 0x00150513, 0x00008067
        with open(path, "wb") as file:
            file.write(elf_of(struct.pack("<2I", call, back).ljust(16, b"\0") + struct.pack("<I", add) * 1023 + struct.pack("<I", back), g=16))
        _, out, _ = self.say("--link", "made.elf")
        self.assertIn("      1  too-large: has more than 1,024 instructions with what it calls\n", out)
        _, out, _ = self.say("made.elf")
        self.assertIn("      1  call: ", out)


def elf_of(code, **others):
    """An ELF file of this code at 0x10000, with a function f there, and others at their offsets."""
    names = {"f": 0, **others}
    strings = b"\0" + b"".join(name.encode() + b"\0" for name in names)
    symbols = bytes(24)
    for name, offset in names.items():
        symbols += struct.pack("<IBBHQQ", strings.index(b"\0" + name.encode() + b"\0") + 1, 2, 0, 1, 0x10000 + offset, 0)
    start = 64 + 56
    tables = start + len(code)
    sections = bytes(64)
    sections += struct.pack("<IIQQQQIIQQ", 0, 2, 0, 0, tables, len(symbols), 2, 0, 8, 24)
    sections += struct.pack("<IIQQQQIIQQ", 0, 3, 0, 0, tables + len(symbols), len(strings), 0, 0, 1, 0)
    header = struct.pack("<16sHHIQQQIHHHHHH", b"\x7fELF\2\1\1", elf.EXECUTABLE, 243, 1, 0x10000, 64, tables + len(symbols) + len(strings), 0, 64, 56, 1, 64, 3, 0)
    segment = struct.pack("<IIQQQQQQ", 1, 5, start, 0x10000, 0x10000, len(code), len(code), 1)
    return header + segment + code + symbols + strings + sections


if __name__ == "__main__":
    unittest.main()
