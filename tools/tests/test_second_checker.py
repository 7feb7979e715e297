"""Tries the second checker of bench/comparison on the examples: that it answers what the pages of examples/ and of examples/rules say. Needs no program."""
import contextlib
import io
import pathlib
import re
import sys
import unittest

TOP = pathlib.Path(__file__).resolve().parents[2]
EXAMPLES = TOP / "examples"
RULES = EXAMPLES / "rules"
sys.path.append(str(TOP / "bench" / "comparison"))
from second_checker import __main__ as second_checker

# What examples/README.md says of its evaluations.
EVALUATED = {
    "gcd": "done 6\n(.*\n)*x10 0xc\n",
    "sum": "(.*\n)*x10 0x6\n",
    "strlen": "(.*\n)*x10 0x5\n",
    "lcm": "done 8\n(.*\n)*x10 0xc\n",
    "swap": "(.*\n)*mem 0x8000 0200000000000000\nmem 0x9000 0100000000000000\n",
}


def answer(*words):
    """The status and the lines of the second checker."""
    status, lines = second_checker.answer([str(word) for word in words])
    return status, lines + "\n"


def page(folder):
    """The README.md of a folder."""
    return (folder / "README.md").read_text(encoding="utf8")


def proof_of(name):
    """The proof file of a function of the examples."""
    return next(EXAMPLES.glob(f"*/{name}.proof"))


class SecondCheckerTest(unittest.TestCase):
    def test_each_rule(self):
        proofs = sorted(RULES.glob("*.proof"))
        self.assertTrue(proofs)
        for proof in proofs:
            with self.subTest(proof.stem):
                _, lines = answer("check", RULES / "rules.elf", proof)
                self.assertEqual(lines, proof.with_suffix(".txt").read_text())

    def test_each_example_is_accepted(self):
        told = re.findall(r"^\| `(\w+)` \| `\w+ (\w+) [^`]*` \| `(accepted [^`]*)` \|$", page(EXAMPLES), re.M)
        self.assertEqual(len(told), 6)
        for folder, name, accepted in told:
            with self.subTest(name):
                files = [EXAMPLES / folder / f"{name}.{kind}" for kind in ("elf", "proof")]
                self.assertEqual(answer("check", *files), (0, accepted + "\n"))

    def test_the_code_is_that_of_the_file(self):
        self.assertEqual(answer("check", EXAMPLES / "sum" / "sum.elf", proof_of("gcd")), (1, "refused group 0\n"))

    def test_eval(self):
        evaluations = [words.split() for words in re.findall(r"`mc\s(eval\s[^`]*)`", page(EXAMPLES))]
        self.assertEqual([words[2] for words in evaluations], list(EVALUATED))
        for words in evaluations:
            with self.subTest(words[2]):
                words[1], words[-1] = proof_of(words[2]), words[-1].replace("STACK", 96 * "0")
                status, lines = answer(*words)
                self.assertEqual(status, 0)
                self.assertRegex(lines, "^" + EVALUATED[words[2]])

    def test_eval_of_two_memories(self):
        words, lines = re.search(r"`mcdec (eval [^`]*)`.*?\n```\n(.*?)```", page(RULES), re.S).groups()
        command, proof, *more = words.split()
        self.assertEqual(answer(command, RULES / proof, *more), (0, lines))

    def test_each_line_is_needed(self):
        """Without a line of the proof the text is refused, but without a `forget`."""
        text = proof_of("average").read_text().splitlines(keepends=True)
        elf = (EXAMPLES / "average" / "average.elf").read_bytes()
        first = next(number for number, line in enumerate(text) if line.startswith("axiom"))
        for number in range(first, len(text) - 1):
            fewer = "".join(text[:number] + text[number + 1 :]).encode()
            status, lines = second_checker.check(elf, lambda fewer=fewer: fewer)
            self.assertEqual(status, 0 if text[number].startswith("forget") else 1, f"without line {number + 1}: {lines}")

    def test_words(self):
        for words in ([], ["check"], ["check", "a"], ["eval", "a", "b"], ["decompile", "a", "b", "c"]):
            self.assertEqual(answer(*words), (2, "not a command\n"))
        self.assertEqual(answer("check", EXAMPLES / "none", "none"), (4, "read fault\n"))

    def test_what_is_printed(self):
        out, kept = io.StringIO(), sys.argv
        sys.argv = ["second_checker", "check", str(RULES / "rules.elf"), str(RULES / "axiom.proof")]
        try:
            with contextlib.redirect_stdout(out), self.assertRaises(SystemExit) as end:
                second_checker.main()
        finally:
            sys.argv = kept
        self.assertEqual((end.exception.code, out.getvalue()), (0, (RULES / "axiom.txt").read_text()))


if __name__ == "__main__":
    unittest.main()
