"""Tests of mc.advice: docs/COMMANDS.md says something of each answer, and what is at hand is told of files and names."""
import os
import sys
import tempfile
import unittest

from mc import advice, words
from tests import samples

sys.path.append(str(samples.TOP / "bench" / "library"))
from answers import ANSWERS, OTHERS

WORDS = {"N": "3", "A": "0x10", "H": "00", "NAME": "f"}
PAGE = """# Page

## Exit statuses, in one rule

| Status | Lines | What to do |
|---|---|---|
| 3 | `unreadable elf WHY` | see below |
| 7 | `turns used` | give more |

## decompile ELF OUT NAME..

- 0: `decompiled NAME A I D`: it is done.
- 1: `refused NAME WHY`: it is outside.

A paragraph, which is about nothing.

- `call A`, `jump A A`: the jump at A
  writes a register.
- **`too-large`**: more than `1,024` instructions

## link ELF OUT NAME..

| Status | Line | Meaning |
|---|---|---|
| 1 | `refused NAME WHY` | as for `decompile` |

## eval PROOF NAME TURNS ARG..

| Line | Meaning | What to do |
|---|---|---|
| `turns used` | not yet | |
| `a|b`, `refused side D I` | a bar | stands there |
"""


class TheDocument(unittest.TestCase):
    def test_each_answer(self):
        """There is a text for each line that the program may print."""
        for command, answers in ANSWERS.items():
            for status, lines in {**answers, **OTHERS}.items():
                for line in lines if status else ():
                    line = " ".join(WORDS.get(word, word) for word in line.split())
                    self.assertTrue(any(text for _, text in advice.told(command, line)), (command, line))

    def test_a_line_that_it_doesnt_have(self):
        self.assertEqual(advice.told("eval", "something else"), [])


class APage(unittest.TestCase):
    """The same of a page of tables and lists."""

    def setUp(self):
        self.folder = tempfile.TemporaryDirectory()
        self.document, advice.DOCUMENT = advice.DOCUMENT, samples.pathlib.Path(self.folder.name) / "page.md"
        advice.DOCUMENT.write_text(PAGE)
        advice.entries.cache_clear()

    def tearDown(self):
        advice.DOCUMENT = self.document
        advice.entries.cache_clear()
        self.folder.cleanup()

    def test_rows_and_items(self):
        for command, line, expected in (
            ("decompile", "refused f call 0x10", [("call A", "The jump at A writes a register.")]),
            ("link", "refused f call 0x10", [("call A", "The jump at A writes a register.")]),
            ("link", "refused f jump 0x10 0x20", [("jump A A", "The jump at A writes a register.")]),
            ("decompile", "refused f too-large", [("too-large", "More than `1,024` instructions.")]),
            ("decompile", "refused f other", [("refused NAME WHY", "It is outside.")]),
            ("eval", "turns used", [("turns used", "Not yet."), ("turns used", "Give more.")]),
            ("eval", "refused side 3 0", [("refused side D I", "A bar. Stands there.")]),
            ("eval", "a|b", [("a|b", "A bar. Stands there.")]),
            ("check", "unreadable elf class", [("unreadable elf WHY", "See below.")]),
        ):
            self.assertEqual(advice.told(command, line), expected)


class FilesAtHand(unittest.TestCase):
    def setUp(self):
        self.folder = tempfile.TemporaryDirectory()
        self.place = self.folder.name

    def tearDown(self):
        self.folder.cleanup()

    def path(self, name):
        return os.path.join(self.place, name)

    def on(self, status, line, *given):
        return advice.on(given[0], words.Reading(given[0], list(given[1:])), status, line)

    def test_files_that_cannot_be_read(self):
        with open(self.path("gcd.elf"), "w"):
            pass
        os.symlink("nowhere", self.path("link"))
        os.mkfifo(self.path("pipe"))
        for name, why in (("gdc.elf", f"no such file; there is `{self.path('gcd.elf')}`"), ("link", "a link to nowhere, and no such file"), ("pipe", "a pipe or a device"), ("", "a folder")):
            self.assertEqual(" ".join(self.on(4, "read fault", "check", self.path(name), "p")), f"ELF `{self.path(name)}`: {why}")
        self.assertEqual(self.on(4, "read fault", "check", self.path("gcd.elf"), "/none")[0], "PROOF `/none`: no such file (looked for in /)")

    def test_files_that_cannot_be_written(self):
        for name, why in (("none/o", f"the folder `{self.path('none')}` isn't there"), ("", "a folder"), ("n" * 256, "its name has more than 255 bytes")):
            found = " ".join(self.on(5, "write fault", "decompile", "f.elf", self.path(name), "f"))
            self.assertIn(f": {why}", found)
            self.assertIn("`write fault`: ", found)

    def test_files_of_another_kind(self):
        elf, proof = samples.EXAMPLES / "gcd" / "gcd.elf", samples.EXAMPLES / "gcd" / "gcd.proof"
        self.assertEqual(self.on(3, "unreadable elf not-elf", "check", str(proof), str(elf))[0], f"ELF `{words.shown(str(proof))[1:-1]}` is a proof file: check ELF PROOF")
        self.assertIn("is an ELF file: eval PROOF NAME TURNS ARG..", " ".join(self.on(3, "unreadable text 1", "eval", str(elf), "gcd", "1")))

    def test_a_condition(self):
        found = " ".join(self.on(1, "refused side 0 0", "eval", str(samples.EXAMPLES / "sum" / "sum.proof"), "sum", "9"))
        self.assertIn("in d0: `need", found)
        self.assertIn("`refused side D I`: ", found)

    def test_names(self):
        elf, proof = str(samples.EXAMPLES / "refused" / "lcm.elf"), str(samples.EXAMPLES / "linked" / "lcm.proof")
        self.assertEqual(self.on(1, "refused lmc no-such", "decompile", elf, "o", "lmc")[0], "near names: lcm")
        self.assertIn("none of its 2 functions has a name near that", " ".join(self.on(1, "refused zzz no-such", "run", elf, "zzz", "0x0", "1")))
        self.assertEqual(self.on(1, "refused 0x1112A no-such", "decompile", elf, "o", "0x1112A")[0].partition(".")[0], "`0x1112A` is taken for a name")
        self.assertEqual(self.on(1, "refused lcm call 0x11140", "decompile", elf, "o", "lcm")[0], "0x11140 is lcm+16")
        self.assertIn("has lcm", self.on(1, "refused no function", "eval", proof, "gcd", "1")[0])

    def test_a_name_of_dynamic_symbols(self):
        with open(self.path("made.so"), "wb") as file:
            file.write(samples.elf_file(kind=3, symbol_table=11))
        found = " ".join(self.on(1, "refused f no-such", "decompile", self.path("made.so"), "o", "f"))
        self.assertIn("where the program doesn't look: give the address of `f`, 0x10000", found)
        found = " ".join(self.on(1, "refused table no-such", "decompile", self.path("made.so"), "o", "table"))
        self.assertIn("`table` is no function", found)


if __name__ == "__main__":
    unittest.main()
