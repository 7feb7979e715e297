"""Tries what docs/TUTORIAL.md says from section 10 on, and of `mc goal` and `mc prove` in section 7: that each block of commands prints what the next block has.

It needs a built program (MCDEC names it), and both solvers, as it says what each of them answers. Where a solver has no answer in its time, what stands there isn't compared.
"""
import os
import pathlib
import re
import shlex
import shutil
import subprocess
import tempfile
import unittest

from mc import prove
from tests.test_goal import EXAMPLES, needs_program

TOP = EXAMPLES.parent
ENTRY = "../../mc "
SOLVED = ("goal", "prove", "loop", "data")


def blocks_of(page):
    """The commands of each block that has nothing else, as lists of words, with the block behind it."""
    blocks = re.findall(r"^```\w*\n(.*?)^```$", page, re.M | re.S)
    for block, told in zip(blocks, blocks[1:]):
        lines = block.splitlines()
        if all(line.startswith(ENTRY) for line in lines):
            yield [shlex.split(line)[1:] for line in lines], told


def normal(text):
    """A text with single spaces, and lines of solvers that stand together in the order of their names."""
    lines = [re.sub(r"(?<=\S) +", " ", line) for line in text.splitlines()]
    found, solvers = [], []
    for line in [*lines, ""]:
        if line.startswith(prove.SOLVERS):
            solvers.append(line)
        else:
            found += sorted(solvers) + [line]
            solvers = []
    return "".join(f"{line}\n" for line in found[:-1])


def pattern(told):
    """What a block is to match: a line `..` stands for any lines, `..` at the end of a line or in parentheses for any words."""
    found = ""
    for line in normal(told).splitlines():
        if line.strip() == "..":
            found += f"(?:{line.partition('.')[0]}.*\\n)*"
        else:
            parts = re.split(r"(?<=\()\.\.(?=\))|(?<= )\.\.$", line)
            found += ".*".join(map(re.escape, parts)) + "\\n"
    return found


@needs_program
class Tutorial(unittest.TestCase):
    def test_what_it_shows(self):
        if len(prove.present()) < 2:
            self.skipTest("z3 and cvc5 aren't both on the machine")
        page = (TOP / "docs" / "TUTORIAL.md").read_text(encoding="utf8")
        late = page[page.index("\n## 10.") :]
        tried = []
        with tempfile.TemporaryDirectory() as folder:
            self.fill(folder)
            for commands, told in blocks_of(page):
                if not any(words[0] in SOLVED for words in commands) and (ENTRY + shlex.join(commands[0])) not in late:
                    continue
                out = "".join(self.say(folder, words) for words in commands)
                tried += [words[0] for words in commands]
                if "timeout" not in out:
                    with self.subTest(commands=commands):
                        self.assertRegex(normal(out), rf"\A{pattern(told)}\Z")
        self.assertEqual(tried, "goal prove loop loop loop loop data goal prove loop goal prove goal prove goal prove simplify laws".split())

    def fill(self, folder):
        """The files of all examples, and the proof of section 9."""
        for path in EXAMPLES.glob("*/*"):
            if path.parent.name in ("average", "own", "months", "ring") or path.name == "lcm.proof":
                shutil.copy(path, folder)
        self.say(folder, ["decompile", "my.elf", "my.proof", "crc", "root"])

    def say(self, folder, words):
        """What `./mc` prints. Of the goals of a loop one solver's answer is enough here."""
        more = ["--first"] if words[0] == "loop" else []
        done = subprocess.run([TOP / "mc", *words, *more], cwd=folder, capture_output=True, text=True, check=False)
        return done.stdout


if __name__ == "__main__":
    unittest.main()
