"""Tests of mc.words: each kind of wrong word has its line, and what is passed on is what the program takes."""
import random
import re
import subprocess
import unittest

from mc import program, words
from tests import samples

NAMES = ("gcd", "0x11120", "", "f(int)", "a;b", "a b", "n" * 4096, "n" * 4097, "é", "--link")
NUMBERS = ("0", "7", "007", "0x7", "0X1F", "-1", "ten", "", "18446744073709551615", "18446744073709551616", "1e3", "9" * 5000)
ADDRESSES = ("0x0", "0x2000", "0x02", "0X2A", "2000", "2a", "0x", "x", "", "0xffffffffffffffff", "0x10000000000000000", "-4")
ARGUMENTS = (
    "a0=0x2", "x1=2", "x10=0X2A", "x0=0x1", "zero=0", "x32=0x1", "x01=0x1", "A0=1", "fp=0x1", "s0=0x1", "x10", "=1", "x10=", "x10=zz", "x10=-1", "x10=-9223372036854775809",
    "mem=0x80:01", "mem=0x80:0A", "mem=0x80:0", "mem=0x80:", "mem=0x80", "mem=80:01", "mem=0x80:0x01", "mem=0xffffffffffffffff:0102", "mem=0xffffffffffffffff:01", "stk=0x80:01",
    "pc=0x0", "foo", "mem=0x80:01=", "x31=18446744073709551615", "x31=18446744073709551616", "ra=0x2000", "sp=0x2000",
)


def read(*given):
    return words.Reading(given[0], list(given[1:]))


class WrongWords(unittest.TestCase):
    def fault(self, line, *given):
        """The words have one fault, with this line."""
        self.assertEqual(read(*given).faults, [line])

    def test_words_that_are_missing(self):
        self.fault("ELF, OUT and NAME are missing", "decompile")
        self.fault("OUT and NAME are missing", "link", "f.elf")
        self.fault("NAME is missing", "split", "f.elf", "o")
        self.fault("PROOF is missing", "check", "f.elf")
        self.fault("TURNS is missing", "eval", "p", "f")
        self.fault("NUMBER and SIZE are missing", "selftest")
        self.fault("DEF and OUT are missing", "smt", "p", "f")

    def test_words_too_many(self):
        self.fault("`three` is a word too many", "check", "f.elf", "p", "three")
        self.fault("`8` is a word too many", "selftest", "1", "2", "8")

    def test_names(self):
        self.fault("NAME `f` stands twice", "decompile", "f.elf", "o", "f", "g", "f")
        self.fault("NAME `` is empty", "decompile", "f.elf", "o", "")
        self.fault("NAME `f(int)` has a character that no name may have (a space, `(`, `)`, `;` or one beyond ASCII): give the address", "decompile", "f.elf", "o", "f(int)")
        self.fault("NAME `é` has a character that no name may have (a space, `(`, `)`, `;` or one beyond ASCII): give the address", "smt", "p", "é", "0", "o")
        self.assertIn("more than 4,096 bytes", read("eval", "p", "f" * 4097, "1").faults[0])
        self.assertEqual(read("decompile", "f.elf", "o", "f" * 4096).faults, [])

    def test_numbers(self):
        self.fault("TURNS `ten` isn't a number: decimal digits, as 42", "eval", "p", "f", "ten")
        self.fault("STEPS `-1` is less than 0", "run", "f.elf", "f", "0x0", "-1")
        self.fault("NUMBER `18446744073709551616` is 2^64 or more", "selftest", "18446744073709551616", "1")
        self.fault("SIZE `601` isn't from 1 to 600", "selftest", "1", "601")
        self.fault("SIZE `0` isn't from 1 to 600", "selftest", "1", "0")

    def test_addresses(self):
        self.fault("UNTIL `2000` has no `0x` in front of its address: 0x2000 if the digits are hexadecimal, 0x7d0 if they are decimal", "run", "f.elf", "f", "2000", "1")
        self.fault("UNTIL `2A` has no `0x` in front of its address: 0x2a", "run", "f.elf", "f", "2A", "1")

    def test_registers(self):
        for word, why in {
            "x0=0x1": "gives x0 a value: it's always 0",
            "zero=1": "gives x0 a value: it's always 0",
            "x32=0x1": "names no register: x1 to x31, or ra, sp, gp, tp, t0 to t6, s0 to s11, a0 to a7",
            "pc=0x0": "names no register: x1 to x31, or ra, sp, gp, tp, t0 to t6, s0 to s11, a0 to a7; a function begins at its entry",
            "x1=zz": "isn't a number: hexadecimal digits after `0x`, as 0x2a",
            "x1=0x10000000000000000": "is 2^64 or more",
            "x1": "isn't REGISTER=VALUE or mem=ADDRESS:BYTES, without spaces",
            "foo": "isn't REGISTER=VALUE or mem=ADDRESS:BYTES",
        }.items():
            self.fault(f"ARG `{word}` {why}", "eval", "p", "f", "1", word)
        self.fault("ARG `x10=3` gives x10 a value again, beside `a0=0x2`", "eval", "p", "f", "1", "a0=0x2", "x10=3")

    def test_bytes(self):
        for word, why in {
            "mem=0x80": "has no `:` between the address and the bytes, as mem=0x80:0102",
            "mem=0x80:012": "has an odd number of digits after the `:`, 3: two for each byte",
            "mem=0x80:": "has bytes that aren't hexadecimal digits alone, two for each, as mem=0x80:0102",
            "mem=0x80:0x01": "has bytes that aren't hexadecimal digits alone, two for each, as mem=0x80:0102",
            "mem=80:01": "has no `0x` in front of its address: 0x80 if the digits are hexadecimal, 0x50 if they are decimal",
            "mem=0xffffffffffffffff:0102": "goes past the address 2^64 - 1",
        }.items():
            self.fault(f"ARG `{word}` {why}", "eval", "p", "f", "1", word)
        self.fault("ARG `stk=0x0:01` is of a second memory, which `run` doesn't have: mem=ADDRESS:BYTES", "run", "f.elf", "f", "0x0", "1", "stk=0x0:01")

    def test_files(self):
        self.fault("ELF `` is empty", "check", "", "p")
        self.fault("OUT `f.elf` is ELF, which it would overwrite: name another file", "decompile", "f.elf", "f.elf", "f")
        self.fault("OUT `p` is PROOF, which it would overwrite: name another file", "migrate", "f.elf", "p", "p")
        self.fault("PROOF `p\\udcff` isn't UTF-8", "check", "f.elf", "p\udcff")
        self.fault("NAME `--all` stands twice. There are no options", "decompile", "f.elf", "o", "--all", "--all")

    def test_bytes_that_overlap(self):
        found = read("eval", "p", "f", "1", "mem=0x80:01020304", "mem=0x82:05060708", "stk=0x80:01")
        self.assertEqual(found.faults, [])
        self.assertEqual(found.warnings, ["two mem words have the bytes from 0x82 to 0x83: the later word's count"])


class WordsThatArePassedOn(unittest.TestCase):
    def passed(self, expected, *given):
        found = read(*given)
        self.assertEqual((found.faults, found.words), ([], expected.split(" ")))

    def test_registers(self):
        self.passed("eval p f 100 x1=0x2000 x10=0x30 x11=0x24", "eval", "p", "f", "0x64", "ra=0x2000", "a0=48", "A1=0X0024")
        self.passed("eval p f 1 x8=0x1 x2=0xffffffffffffffff x31=0x0", "eval", "p", "f", "01", "fp=1", "sp=-1", "t6=0")
        self.assertEqual(sorted(words.REGISTERS[name] for name in words.ABI), list(range(32)))

    def test_bytes(self):
        self.passed("eval p f 1 mem=0x80:0aff stk=0x0:01", "eval", "p", "f", "1", "mem=0x0080:0AFF", "stk=0X0:01")
        self.passed("run f.elf f 0x2000 10 mem=0xffffffffffffffff:00", "run", "f.elf", "f", "0X2000", "0xa", "mem=0xffffffffffffffff:00")


class BesideTheDocument(unittest.TestCase):
    def test_the_commands(self):
        """The headings of docs/COMMANDS.md have each command with its parameters."""
        text = (samples.TOP / "docs" / "COMMANDS.md").read_text(encoding="utf8")
        for name in words.COMMANDS:
            self.assertRegex(text, re.compile(rf"^## (.*, )?`?{re.escape(words.usage_of(name))}`?(, .*)?$", re.M))


@unittest.skipUnless(program.find(), "no program is built")
class BesideTheProgram(unittest.TestCase):
    """On drawn words the program says `not a command` where there is a fault, and nowhere else."""

    def drawn(self, of, command):
        pools = {"ELF": ("nofile", "", "o"), "PROOF": ("nofile", "", "o"), "CERT": ("nofile", ""), "OUT": ("nofolder/o", "", "o", "nofile"), "UNTIL": ADDRESSES, "NAME..": NAMES, "NAME": NAMES, "START": NAMES, "ARG..": ARGUMENTS}
        found = []
        for parameter in words.COMMANDS[command].parameters:
            pool = pools.get(parameter, NUMBERS)
            found += [pool[0] if of.random() < 0.6 else of.choice(pool) for _ in range(of.randrange(4) if parameter.endswith("..") else 1)]
        if command == "selftest":
            # It would draw a program for each good pair.
            found[1] = of.choice(("0", "601", "1"))
        change = of.random()
        return found[:-1] if change < 0.1 else [*found, "more"] if change < 0.15 else found

    def test_drawn_words(self):
        for number in range(150):
            of = random.Random(number)
            command = of.choice(sorted(words.COMMANDS))
            given = self.drawn(of, command)
            found = read(command, *given)
            done = subprocess.run([program.path(), *found.words], capture_output=True, cwd="/", timeout=60)
            self.assertEqual(done.returncode == 2, bool(found.faults), (command, given, found.faults, done))

    def test_each_argument(self):
        for argument in ARGUMENTS:
            found = read("eval", "nofile", "f", "1", argument)
            done = subprocess.run([program.path(), *found.words], capture_output=True, cwd="/", timeout=60)
            self.assertEqual(done.returncode, 2 if found.faults else 4, argument)


if __name__ == "__main__":
    unittest.main()
