"""Tests of `mc data`: on a file made by hand, whose bytes and addresses stand in `samples`, and on an example."""
import os
import pathlib
import re
import shutil
import subprocess
import tempfile
import unittest

from tests import samples
from tests.samples import EXAMPLES, mc

TABLE = "2110422063308440"
ASSERTION = re.compile(r"\(assert \(and \(= \(select (\S+) #x([0-9a-f]{16})\) #b1\) \(= \(select (\S+) #x([0-9a-f]{16})\) #x([0-9a-f]{2})\)\)\)")


class OfAFileMadeByHand(unittest.TestCase):
    def setUp(self):
        folder = tempfile.TemporaryDirectory()
        self.addCleanup(folder.cleanup)
        self.path = pathlib.Path(folder.name) / "made.elf"
        self.path.write_bytes(samples.elf_file())

    def data(self, *words):
        return mc("data", self.path, *words)

    def test_words(self):
        for words, expected in (
            (("table",), f"mem=0x10100:{TABLE}"),
            (("table", "3"), "mem=0x10100:211042"),
            (("table", "0x3"), "mem=0x10100:211042"),
            (("table+6",), "mem=0x10106:8440"),
            (("table+0x6", "1"), "mem=0x10106:84"),
            (("0x10102", "2"), "mem=0x10102:4220"),
            (("65794", "2"), "mem=0x10102:4220"),
            (("0x10100+2", "2"), "mem=0x10102:4220"),
            (("f",), "mem=0x10000:8280"),
        ):
            self.assertEqual(self.data(*words), (0, expected + "\n", ""))

    def test_what_may_be_written(self):
        status, out, told = self.data("counter")
        self.assertEqual((status, out), (0, "mem=0x11000:0700000000000000\n"))
        self.assertRegex(told, r"^mc data: warning: 0x11000, 8 bytes: in a segment that may be written \(\.data\).*\n$")

    def test_zeros(self):
        status, out, told = self.data("counter", "12")
        self.assertEqual((status, out), (0, "mem=0x11000:070000000000000000000000\n"))
        self.assertIn("the file has data for the first 8, the others are zeros", told)
        status, out, told = self.data("zeros")
        self.assertEqual((status, out), (0, f"mem=0x11008:{32 * '0'}\n"))
        self.assertIn("the file has no data for them", told)

    def test_assertions(self):
        for words, names in (((), ("mem0", "dom0")), (("--arrays", "mem", "dom"), ("mem", "dom"))):
            status, out, told = self.data("table", "--smt", *words)
            comments = [line for line in out.splitlines() if line.startswith(";")]
            found = [ASSERTION.fullmatch(line).groups() for line in out.splitlines() if not line.startswith(";")]
            self.assertEqual((status, told, len(comments)), (0, "", 2))
            self.assertIn("nobody wrote there", comments[1])
            places = [f"{0x10100 + k:016x}" for k in range(8)]
            self.assertEqual(found, [(names[1], place, names[0], place, TABLE[2 * k : 2 * k + 2]) for k, place in enumerate(places)])

    def test_assertions_of_what_may_be_written(self):
        _, out, told = self.data("counter", "--smt")
        self.assertIn("; WARNING: 0x11000, 8 bytes: in a segment that may be written", out)
        self.assertIn("warning", told)

    def test_assertions_with_strange_names(self):
        """No name of a file ends a comment."""
        path = self.path.with_name("a\n(assert false).elf")
        path.write_bytes(samples.elf_file(names=("f", "t\nx", "c\n(exit)", "z")))
        _, out, _ = mc("data", path, "0x11000", "2", "--smt")
        self.assertTrue(all(line.startswith(";") or ASSERTION.fullmatch(line) for line in out.splitlines()))

    def test_of_a_file_that_is_moved(self):
        self.path.write_bytes(samples.elf_file(kind=3))
        self.assertIn("a loader moves it", self.data("table")[2])

    def test_of_an_object_file(self):
        self.path.write_bytes(samples.elf_file(kind=1))
        data = bytearray(samples.elf_file(kind=1))
        data[56:58] = 0, 0
        self.path.write_bytes(data)
        status, _, told = self.data("table")
        self.assertEqual(status, 1)
        self.assertIn("object file: link it", told)

    def test_answers(self):
        for words, status, told in (
            (("tabel",), 1, "has no symbol tabel; there is table"),
            (("table", "9"), 1, "nothing of .* is loaded at 0x10108"),
            (("0x9", "1"), 1, "loaded at 0x9"),
            (("0xffffffffffffffff", "2"), 1, "loaded at 0xffffffffffffffff"),
            (("0x10100",), 2, "how many bytes"),
            (("table+8",), 2, "how many bytes"),
            (("table", "0"), 2, "number of bytes from 1"),
            (("table", "-1"), 2, "-1"),
            (("table", "x"), 2, "x: no number of bytes"),
            (("table", "9999999999"), 2, "number of bytes from 1"),
            ((), 2, "ADDRESS"),
            (("table", "--arrays", "a", "b"), 2, "--smt"),
            (("table", "--smt", "--arrays", "a)", "b"), 2, "no name of a constant"),
        ):
            found, out, errors = self.data(*words)
            self.assertEqual((found, out), (status, ""), errors)
            self.assertRegex(errors.splitlines()[0], f"^mc data: .*{told}")

    def test_a_name_of_two_addresses(self):
        self.path.write_bytes(samples.elf_file(names=("f", "g", "twice", "twicX")).replace(b"twicX", b"twice"))
        status, _, told = self.data("twice")
        self.assertEqual(status, 1)
        self.assertIn("0x11000, 0x11008", told)


class OfOtherFiles(unittest.TestCase):
    def test_answers(self):
        for path, status, told in ((EXAMPLES / "gcd" / "gcd.c", 3, "not an ELF file"), (EXAMPLES / "none", 4, "No such file"), (EXAMPLES, 4, "Is a directory")):
            found, out, errors = mc("data", path, "gcd")
            self.assertEqual((found, out), (status, ""))
            self.assertIn(told, errors)

    def test_the_code_of_an_example_from_its_folder(self):
        expected = "mem=0x11120:99c52e86b375b5023285e5fd32858280\n"
        self.assertIn(expected[12:-1], (EXAMPLES / "gcd" / "gcd.proof").read_text())
        self.assertEqual(samples.script("data", "gcd.elf", "gcd", cwd=EXAMPLES / "gcd"), (0, expected, ""))
        self.assertEqual(mc("data", "gcd.elf", "gcd", cwd=EXAMPLES / "gcd"), (0, expected, ""))


class OfTheExampleWithATable(unittest.TestCase):
    """What the section `days` of examples/README.md shows."""

    @classmethod
    def setUpClass(cls):
        page = (EXAMPLES / "README.md").read_text(encoding="utf8").partition("\n## days: ")[2]
        cls.shown, cls.commands, cls.told, cls.solving = re.findall(r"^```\n(.*?)^```$", page, re.M | re.S)

    def run_lines(self, text):
        """What a shell prints for the lines in the folder of the example, where `mcdec` is the program that MCDEC names."""
        with tempfile.TemporaryDirectory() as folder:
            (pathlib.Path(folder) / "mcdec").symlink_to(os.path.abspath(os.environ["MCDEC"]))
            text = text.replace("days.smt2", f"{folder}/days.smt2")
            done = subprocess.run(["sh", "-c", text], cwd=EXAMPLES / "days", capture_output=True, text=True, env={**os.environ, "PATH": f"{folder}:{os.environ['PATH']}"})
            return done.stdout

    def test_its_lines_beside_the_instructions(self):
        _, out, _ = mc("show", EXAMPLES / "days" / "days.proof", "--elf", EXAMPLES / "days" / "days.elf")
        for line in self.shown.splitlines():
            self.assertIn(line if " | " in out else line.partition("|")[2].strip(), out)

    @unittest.skipUnless(os.environ.get("MCDEC"), "MCDEC names no built program")
    def test_its_evaluations(self):
        self.assertEqual(self.run_lines(self.commands), self.told)

    @unittest.skipUnless(os.environ.get("MCDEC") and shutil.which("z3"), "MCDEC names no built program, or z3 isn't there")
    def test_its_goal(self):
        self.assertEqual(self.run_lines(self.solving), "exported 0\nunsat\n")
        self.assertEqual(self.run_lines(self.solving.replace("../../mc data days.elf table --smt; ", "")), "exported 0\nsat\n")


if __name__ == "__main__":
    unittest.main()
