"""Tries the small texts of examples/rules: that `check` answers each as the file beside it says, and
that their page tells the same.

The program is the one that tools/mc/program.py finds; the environment variable MCDEC names another.
Where there is none, the tests that need it are skipped: none is built.
"""
import pathlib
import re
import subprocess
import unittest

from mc import program

TOP = pathlib.Path(__file__).resolve().parents[2]
FOLDER = TOP / "examples" / "rules"
PAGE = FOLDER / "README.md"
RULES = {
    "axiom", "inst", "frame", "extend", "compose", "strengthen", "weaken", "discharge", "use", "loop",
    "forget", "steer", "exchange",
}


def names():
    """The names of the texts."""
    return sorted(path.stem for path in FOLDER.glob("*.proof"))


def answer_of(name):
    """The line that `check` is expected to answer for the text of that name."""
    return (FOLDER / f"{name}.txt").read_text().rstrip("\n")


def lines_of(name):
    """The lines of the text of that name."""
    return (FOLDER / f"{name}.proof").read_text().splitlines()


def rules_of(lines):
    """The rules by which some of the lines are."""
    return {line.split()[0] for line in lines} & RULES


class PageTest(unittest.TestCase):
    """What needs no program."""

    def test_each_text_has_an_answer(self):
        self.assertEqual(names(), sorted(path.stem for path in FOLDER.glob("*.txt")))

    def test_the_page_tells_each_answer(self):
        told = re.findall(r"^- `([\w-]+)`: `([^`]*)`\. ", PAGE.read_text(), re.M)
        self.assertEqual(sorted(told), [(name, answer_of(name)) for name in names()])

    def test_each_rule_is_in_an_accepted_text(self):
        accepted = [name for name in names() if answer_of(name).startswith("accepted")]
        self.assertEqual(set().union(*(rules_of(lines_of(name)) for name in accepted)), RULES)

    def test_the_refused_line_is_by_the_rule_of_the_name(self):
        for name in names():
            refused = re.fullmatch(r"refused line (\d+)", answer_of(name))
            if refused and not name.startswith(("table", "forget")):
                line = lines_of(name)[int(refused[1]) - 1]
                self.assertEqual(line.split()[0], name.partition("-")[0], name)


class AnswerTest(unittest.TestCase):
    """What the program answers."""

    @classmethod
    def setUpClass(cls):
        cls.program = program.find()
        if cls.program is None:
            raise unittest.SkipTest("no program is built")

    def answer(self, *words):
        """What the program prints for these words, in the folder of the texts."""
        words = [self.program, *words]
        return subprocess.run(words, cwd=FOLDER, capture_output=True, text=True, timeout=60).stdout

    def test_check(self):
        for name in names():
            with self.subTest(name):
                answer = self.answer("check", "rules.elf", f"{name}.proof")
                self.assertEqual(answer, answer_of(name) + "\n")

    def test_eval(self):
        words, answer = re.search(r"`mcdec (eval [^`]*)`.*?\n```\n(.*?)```", PAGE.read_text(), re.S).groups()
        self.assertEqual(self.answer(*words.split()), answer)


if __name__ == "__main__":
    unittest.main()
