"""Tries `mc goal` and `mc prove`. What needs a solver, or a built program (`mc build` makes one), is skipped with a line where that isn't there."""
import contextlib
import io
import os
import pathlib
import shutil
import subprocess
import tempfile
import unittest
from unittest import mock

from mc import goal, program, prove, smt

EXAMPLES = pathlib.Path(__file__).resolve().parents[2] / "examples"
needs_solver = unittest.skipUnless(prove.present(), "neither z3 nor cvc5 is on the machine")
needs_program = unittest.skipUnless(program.find(), "no program is built")


def average_script(arguments):
    """What `smt` says of examples/average, from the script that stands there."""
    shutil.copy(EXAMPLES / "average" / "average.smt2", arguments[4])
    return subprocess.CompletedProcess(arguments, 0, "exported 0\n", "")


def say(tool, *words):
    """The exit status of a tool, and what it prints."""
    out, told = io.StringIO(), io.StringIO()
    with contextlib.redirect_stdout(out), contextlib.redirect_stderr(told):
        try:
            status = tool.main([str(word) for word in words])
        except SystemExit as end:
            status = end.code
    return status, out.getvalue(), told.getvalue()


class Expressions(unittest.TestCase):
    def test_what_is_read_is_shown(self):
        for text in ("a", "(a (b c) ())", '(echo "a ; ( b")', "(|a b| #x0f)"):
            self.assertEqual([smt.show(found) for found in smt.parse(f"; (\n{text} ; )\n")], [text])

    def test_deep_terms(self):
        text = "(not " * 20000 + "a" + ")" * 20000
        self.assertEqual(smt.show(smt.parse(text)[0]), text)

    def test_parentheses_have_partners(self):
        for text in ("(a", "a)", '"a', "|a"):
            self.assertRaises(smt.BadExpression, smt.parse, text)

    def test_a_term_is_one(self):
        self.assertEqual(smt.term_of("(= a b) ; so"), ["=", "a", "b"])
        for text in ("", "a b", "(assert a)", "no/such/file"):
            self.assertRaises(smt.BadExpression, smt.term_of, text)


class Scripts(unittest.TestCase):
    """Scripts of examples/average, of which no program is needed."""

    def setUp(self):
        folder = tempfile.TemporaryDirectory()
        self.addCleanup(folder.cleanup)
        self.out = pathlib.Path(folder.name) / "goal.smt2"
        patch = mock.patch.object(program, "run", average_script)
        patch.start()
        self.addCleanup(patch.stop)
        self.word = f"{EXAMPLES / 'average' / 'average.proof'}:average"

    def test_names_are_those_of_registers(self):
        self.assertEqual(say(goal, self.out, f"f={self.word}", f"g={self.word}:0"), (0, "f: average (d0), of (ra a0 a1 a2)\ng: average (d0), of (ra a0 a1 a2)\n", ""))
        script = smt.parse(self.out.read_text())
        names = [command[1] for command in script if command[0].startswith(("de",))]
        self.assertEqual(len(names), len(set(names)), "each name is defined once")
        self.assertLessEqual({"f_ok", "f_exit", "f_pc", "f_ra", "f_a0", "g_a2", "rv_add", "a0", "ra"}, set(names))
        self.assertFalse([name for name in smt.atoms(script) if name.startswith("f0_")])
        self.assertIn("(define-fun f_a2 ((ra Word) (a0 Word) (a1 Word) (a2 Word)) Word (rv_and a1 a0))", self.out.read_text())
        self.assertEqual(script[-2:], [["assert", ["not", "true"]], ["check-sat"]])

    def test_a_goal_is_put_in(self):
        status, _, told = say(goal, self.out, f"f={self.word}", "--goal", "(define-fun left () Word (f_a0 ra a0 a1 a2)) (assert (= a0 a1)) (= left a0)")
        self.assertEqual((status, told), (0, ""))
        self.assertEqual([smt.show(command) for command in smt.parse(self.out.read_text())[-4:]], [
            "(define-fun left () Word (f_a0 ra a0 a1 a2))", "(assert (= a0 a1))", "(assert (not (= left a0)))", "(check-sat)"])

    def test_wrong_words(self):
        for words, told in (
            ([f"a0={self.word}"], "a0 is the name of something else"),
            (["f=average.proof"], "not of the form NAME=PROOF:FUNCTION"),
            ([f"f={self.word}:1"], "average has definitions d0 to d0"),
            ([f"f={self.word}s"], "no function averages. It has: average"),
            ([f"f={self.word}", f"f={self.word}"], "would be defined twice"),
            (["f=none:average"], "none: No such file"),
            ([f"f={self.word}", "--goal", "(= a0 a0) (= a1 a1)"], "one term"),
            ([f"f={self.word}", "--goal", "(= a0 a0"], "without `)`"),
            ([f"f={self.word}", "--goal", "(declare-const a0 Word) (= a0 a0)"], "a0 would be defined twice"),
        ):
            with self.subTest(words=words):
                status, out, error = say(goal, self.out, *words)
                self.assertEqual((status, out), (1, ""))
                self.assertIn(told, error)
                self.assertFalse(self.out.exists())
        self.assertEqual(say(goal, self.out)[0], 2)

    def test_no_file_that_is_read_is_written_over(self):
        proof = EXAMPLES / "average" / "average.proof"
        for name, words in ("average.proof", [f"f={self.out}:average"]), ("average.goal", [f"average={proof}:average", "--goal", self.out]):
            before = (EXAMPLES / "average" / name).read_bytes()
            self.out.write_bytes(before)
            with mock.patch.object(program, "run", average_script):
                self.assertEqual(say(goal, self.out, *words), (1, "", f"{self.out} is a file that is read: nothing was done\n"))
            self.assertEqual(self.out.read_bytes(), before)

    @needs_solver
    def test_the_average(self):
        text = (EXAMPLES / "average" / "average.goal").read_text()
        for shift, status, line in (("bvlshr", 0, "proved by "), ("bvashr", 1, "refuted: false of these values, by ")):
            say(goal, self.out, f"average={self.word}", "--goal", text.replace("bvlshr", shift))
            found, out, told = say(prove, self.out)
            self.assertEqual((found, told), (status, ""))
            self.assertIn(line, out)


@needs_program
class Rings(unittest.TestCase):
    """Two functions in one goal."""

    def test_pop_after_push(self):
        proof, ring = EXAMPLES / "ring" / "ring.proof", EXAMPLES / "ring"
        with tempfile.TemporaryDirectory() as folder:
            out = os.path.join(folder, "goal.smt2")
            words = [out, f"push={proof}:push", f"pop={proof}:pop"]
            self.assertEqual(say(goal, *words, "--goal", ring / "pop.goal")[0], 0)
            if not prove.present(("cvc5",)):
                self.skipTest("cvc5 isn't on the machine")
            self.assertEqual(say(prove, out, "--solver", "cvc5", "--timeout", "200")[0], 0)

    def test_a_loop_has_no_script(self):
        with tempfile.TemporaryDirectory() as folder:
            out = os.path.join(folder, "goal.smt2")
            status, _, told = say(goal, out, f"gcd={EXAMPLES / 'gcd' / 'gcd.proof'}:gcd")
            self.assertEqual((status, os.path.exists(out)), (1, False))
            self.assertIn("d0 of gcd is a loop", told)


class Answers(unittest.TestCase):
    def word(self, text):
        return prove.read_answer("z3", text, ["a0"], 1).word

    def test_what_solvers_print(self):
        self.assertEqual(self.word("unsat\n(error \"line 9 column 12: model is not available\")\n"), "unsat")
        self.assertEqual(self.word("unknown\n"), "unknown")
        self.assertEqual(self.word("(error \"unknown constant x\")\nsat\n"), "error", "an assertion that wasn't read is no part of an answer")
        self.assertEqual(self.word(""), "error")
        self.assertEqual(prove.read_answer("z3", "", [], 1, in_time=False).word, "timeout")
        self.assertEqual(prove.read_answer("z3", "sat\n((a0 #x000000000000000c))\n", ["a0"], 1).values, (("a0", "#x000000000000000c"),))

    def test_statuses(self):
        def status(*words):
            return prove.status_of([prove.Answer("z3", word, 0) for word in words])

        self.assertEqual([status("unsat"), status("unsat", "timeout"), status("unknown", "unsat")], [0, 0, 0])
        self.assertEqual([status("sat"), status("sat", "error")], [1, 1])
        self.assertEqual([status(), status("timeout", "unknown"), status("sat", "unsat"), status("error")], [7, 7, 7, 7])

    def test_values_as_a_person_reads_them(self):
        def text(value):
            return prove.value_text(smt.parse(value)[0])

        self.assertEqual(text("#x000000000000000c"), ["0xc"])
        self.assertEqual(text("(_ bv12 64)"), ["0xc"])
        self.assertEqual(text("true"), ["true"])
        bytes_ = "((as const (Array Word (_ BitVec 8))) #x00)"
        self.assertEqual(text(f"(store (store {bytes_} #x0000000000000011 #b00000010) #x0000000000000010 #xff)"), ["0x10: ff 02", "elsewhere 00"])
        self.assertEqual(text(f"(let ((a (store {bytes_} #x10 #x01))) (store a #x10 #x00))"), ["elsewhere 00"])
        self.assertEqual(text("(store ((as const (Array Word (_ BitVec 1))) #b0) #x10 #b1)"), ["0x10 to 0x10 present", "elsewhere absent"])
        self.assertEqual(text("(_ as-array k!0)"), ["(an array that the solver gives in no readable form)"])

    def test_a_script_has_one_question(self):
        self.assertEqual(prove.prepared("(declare-const a Bool)(assert a)")[0], "(set-logic QF_ABV)\n(declare-const a Bool)(assert a)\n(check-sat)\n(get-value (a))\n")
        self.assertRaises(smt.BadExpression, prove.prepared, "(check-sat)(check-sat)")
        self.assertRaises(smt.BadExpression, prove.prepared, "a")

    def test_without_solvers(self):
        with mock.patch.object(prove.shutil, "which", lambda name: None):
            with tempfile.TemporaryDirectory() as folder:
                path = pathlib.Path(folder) / "goal.smt2"
                path.write_text("(check-sat)")
                status, out, _ = say(prove, path)
        self.assertEqual(status, 7)
        self.assertIn("neither z3 nor cvc5 is on the machine", out)

    def test_what_cannot_be_read(self):
        self.assertEqual(say(prove, "no such file")[0], 4)
        self.assertEqual(say(prove)[0], 2)

    @needs_solver
    def test_solvers_answer(self):
        with tempfile.TemporaryDirectory() as folder:
            path = pathlib.Path(folder) / "goal.smt2"
            head = "(declare-const a (_ BitVec 64)) (declare-const m (Array (_ BitVec 64) (_ BitVec 8)))"
            path.write_text(f"{head} (assert (not (= (bvand a a) a)))")
            self.assertEqual(say(prove, path)[0], 0)
            path.write_text(f"{head} (assert (and (= a #x000000000000000c) (= (select m a) #x07)))")
            status, out, _ = say(prove, path)
            self.assertEqual(status, 1)
            self.assertRegex(out, r"\n  a  0xc\n  m  (0xc: 07\n.*elsewhere|elsewhere 07)")
            path.write_text(f"{head} (assert (= a b))")
            status, out, _ = say(prove, path)
            self.assertEqual(status, 7)
            self.assertIn("error", out)


if __name__ == "__main__":
    unittest.main()
