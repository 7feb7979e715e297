"""Tries `mc loop`. What needs a solver, or a built program (MCDEC names it), is skipped with a line where that isn't there."""
import pathlib
import subprocess
import tempfile
import unittest
from unittest import mock

from mc import goal, loop, obligations, program, proof, smt, turns
from tests.test_goal import EXAMPLES, needs_program, needs_solver, say

GCD = EXAMPLES / "gcd" / "gcd.proof"
PARAMETERS = " ".join(f"(w{k} (_ BitVec 64))" for k in range(4))
# What `smt` says of a turn of the loop of gcd, but for operations that it doesn't use.
TURN = f"""(define-fun rv_add ((a (_ BitVec 64)) (b (_ BitVec 64))) (_ BitVec 64) (bvadd a b))
(define-fun rv_remu ((a (_ BitVec 64)) (b (_ BitVec 64))) (_ BitVec 64) (bvurem a b))
(define-fun f0_ok ({PARAMETERS}) Bool true)
(define-fun f0_exit ({PARAMETERS}) (_ BitVec 32) (let ((w5 (rv_remu w1 w2))) (ite (not (= w5 (_ bv0 64))) (_ bv1 32) (_ bv0 32))))
(define-fun f0_pc ({PARAMETERS}) (_ BitVec 64) (let ((w5 (rv_remu w1 w2))) (ite (not (= w5 (_ bv0 64))) (_ bv69922 64) (_ bv69932 64))))
(define-fun f0_w0 ({PARAMETERS}) (_ BitVec 64) w0)
(define-fun f0_w1 ({PARAMETERS}) (_ BitVec 64) w2)
(define-fun f0_w2 ({PARAMETERS}) (_ BitVec 64) (rv_remu w1 w2))
(define-fun f0_w3 ({PARAMETERS}) (_ BitVec 64) w2)
"""
# Two loops, one in the other, and a memory: d0 leaves ra and a0 as they are, d1 leaves ra, d2 nothing but the memory.
TEXT = """mcproof 1
group f
regs 1 10 11
mems 1
code (0x1000 0100)
def 0x1000 0x1010
need (in8 m0 v1)
let (ld8 m0 v1)
if (eq v3 v2)
leave 0 v0 v1 v3 ; m0
else
again v0 v1 (add v2 0x1) ; m0
def 0x1010 0x1020 ret
call 0 1 v0 v1 v2 ; m0
arm
if (eq v5 0x0)
leave 1 v3 v3 v4 v5 ; m1
else
again v3 (add v4 0x8) v5 ; m1
def 0x1020 ret
call 1 2 v1 v2 v0 ; m0
arm
leave 0 v3 v3 v4 v5 ; m1
arm
leave 0 v3 v4 v5 v6 ; m1
end
"""
ZERO = "(_ bv0 64)"


def gcd_program(arguments):
    """What `smt` says of a turn of gcd."""
    text = pathlib.Path(arguments[1]).read_text()
    if "leave 1 v0 v6 v5 v4 ;" not in text:
        return subprocess.CompletedProcess(arguments, 1, "refused loop 0\n", "")
    pathlib.Path(arguments[4]).write_text(TURN)
    return subprocess.CompletedProcess(arguments, 0, "exported 0\n", "")


class Turns(unittest.TestCase):
    """Texts for `smt` alone."""

    group = proof.parse(TEXT).groups[0]

    def test_a_text_is_written_as_it_was(self):
        self.assertEqual(turns.text(self.group, 2), TEXT)

    def test_again_is_a_further_exit(self):
        rows = turns.text(self.group, 1, turn=1, left_open=(0,)).split("\n")
        self.assertEqual(rows[5:13], [
            "def 0x1000 0x1010", "leave 0 v0 v1 v2 ; m0",
            "def 0x1010 0x1020 ret 0x1010", "call 0 1 v0 v1 v2 ; m0", "arm", "if (eq v5 0x0)", "leave 1 v3 v3 v4 v5 ; m1", "else"])
        self.assertEqual(rows[13], "leave 2 v3 (add v4 0x8) v5 ; m1")
        self.assertTrue(proof.parse("\n".join(rows)))

    def test_needs_are_left_out(self):
        self.assertNotIn("need", turns.text(self.group, 2, with_needs=False))

    def test_what_is_reached(self):
        self.assertEqual(turns.reached(self.group, 2), {0, 1, 2})
        self.assertEqual(turns.reached(self.group, 2, (1,)), {1, 2})
        self.assertEqual([turns.is_loop(definition) for definition in self.group.definitions], [True, True, False])

    def test_what_is_kept(self):
        kept = turns.Kept(self.group)
        self.assertEqual([kept.of(k) for k in range(3)], [({0, 1}, {0}), ({0}, {0}), (set(), {0})])

    def test_a_return_is_left_open(self):
        self.assertEqual(turns.open_row(self.group, self.group.definitions[2]), "leave 0 v0 v0 v1 v2 ; m0")


class Scripts(unittest.TestCase):
    """The goals of the loop of gcd, of which no program is needed."""

    def setUp(self):
        folder = tempfile.TemporaryDirectory()
        self.addCleanup(folder.cleanup)
        self.out = pathlib.Path(folder.name) / "scripts"
        patches = [mock.patch.object(program, "run", gcd_program), mock.patch.object(obligations, "entry_goal", lambda claim: (None, "not tried here"))]
        for patch in patches:
            patch.start()
            self.addCleanup(patch.stop)

    def scripts(self, *words):
        status, out, told = say(loop, GCD, "gcd", 0, *words, "--scripts", "--out", self.out)
        self.assertEqual((status, told), (0, ""))
        return {path.stem: smt.parse(path.read_text()) for path in self.out.iterdir()}

    def test_goals(self):
        found = self.scripts(f"(not (= a1 {ZERO}))", f"(= a1_out {ZERO})", "--measure", "a1", "--needs")
        self.assertEqual(set(found), {"step", "end", "falls", "needs"})
        asserted = {name: [smt.show(command[1]) for command in script if command[0] == "assert"] for name, script in found.items()}
        holds, again = "(invariant ra a0 a1 a2 ra_in a0_in a1_in a2_in)", "(= (turn_exit ra a0 a1 a2) (_ bv1 32))"
        self.assertEqual(asserted["step"], [holds, again, "(not (invariant ra_next a0_next a1_next a2_next ra_in a0_in a1_in a2_in))"])
        self.assertEqual(asserted["end"][:2], [holds, f"(not {again})"])
        self.assertEqual(asserted["end"][2], "(not (post ra_in a0_in a1_in a2_in exit_out pc_out ra_out a0_out a1_out a2_out))")
        self.assertEqual(asserted["falls"][2], "(not (bvult (let ((ra ra_next) (a0 a0_next) (a1 a1_next) (a2 a2_next)) a1) a1))")
        self.assertEqual(asserted["needs"], [holds, "(not (turn_ok ra a0 a1 a2))"])

    def test_a_turn_as_a_goal(self):
        out = self.out.parent / "goal.smt2"
        self.assertEqual(say(goal, out, f"gcd={GCD}:gcd:turn0"), (0, "gcd: a turn of d0 of gcd, of (ra a0 a1 a2)\n", ""))
        self.assertIn("Its exits: 0 leaves to 0x1112c, 1 goes again.", out.read_text())
        self.assertEqual(say(goal, out, f"gcd={GCD}:gcd:turn1")[0], 1)

    def test_side_conditions_are_premises(self):
        found = self.scripts("true", "true")
        self.assertEqual(set(found), {"step", "end"})
        for script in found.values():
            self.assertIn(["assert", ["turn_ok", "ra", "a0", "a1", "a2"]], script)

    def test_what_is_kept_is_told(self):
        invariant = next(command for command in self.scripts("true")["step"] if command[:2] == ["define-fun", "invariant"])
        self.assertEqual(smt.show(invariant[-1]), "(and true (= ra ra_in))")

    def test_commands_know_no_registers(self):
        """What --with defines stands before the constants, so that it can't speak of one entry where a contract speaks of another."""
        script = self.scripts("(zero a1)", "--with", f"(define-fun zero ((word Word)) Bool (= word {ZERO}))")["step"]
        names = [command[1] for command in script if len(command) > 1]
        self.assertLess(names.index("zero"), names.index("a1"))

    def test_wrong_words(self):
        for words, told in (
            (["(= a3 a0)"], "the invariant of d0 names a3. gcd has ra a0 a1 a2, here as a2, a2_in"),
            (["true", "(= a0 a0_in)"], "the postcondition of d0 names a0."),
            (["true", "--entry", "(= a0_in a0)"], "--entry names a0_in"),
            (["(= a0"], "without `)`"),
            (["true", "--known", "0", "true", "true"], "d0 itself"),
            (["true", "--known", "9", "true", "true"], "gcd has definitions d0 to d4"),
            (["true", "--with", "true"], "--with: commands are wanted"),
            (["true", "--with", "(define-fun invariant () Bool true)"], "invariant would be defined twice"),
            (["true", "--with", "(declare-const a0_in Word)"], "a0_in would be defined twice"),
            (["true", "--elf", EXAMPLES / "gcd" / "gcd.elf", "0x11120:4"], "gcd has no memory"),
            (["true", "--elf", EXAMPLES / "gcd" / "gcd.elf", "none"], "neither A:N nor a symbol or a section"),
            (["true", "--elf", EXAMPLES / "gcd" / "gcd.elf", "0x100:4"], "no bytes at 0x100"),
        ):
            with self.subTest(words=words):
                status, out, error = say(loop, GCD, "gcd", 0, *words)
                self.assertEqual((status, out), (1, ""))
                self.assertIn(told, error)
        self.assertEqual(say(loop, GCD, "gcd", 0)[0], 2)
        self.assertEqual(say(loop, GCD, "gcd", 0, "true", "--scripts")[0], 2)
        self.assertIn("calls d0, a loop: tell by --known 0", say(loop, GCD, "gcd", 4, "true")[2])
        self.assertIn("d1 is no loop: no measure", say(loop, GCD, "gcd", 1, "true", "--measure", "a1")[2])
        self.assertEqual(say(loop, GCD, "gcd", 1, "true")[::2], (1, "d1 is no loop: without POST and --needs there is nothing to prove\n"))

    @needs_solver
    def test_the_loop_of_gcd(self):
        status, out, _ = say(loop, GCD, "gcd", 0, "true", f"(= a1_out {ZERO})")
        self.assertEqual(status, 0)
        self.assertRegex(out, r"^begin  isn't asked: not tried here\nstep   proved \(.*\nend    proved \(.*\nproved of d0 of gcd: .*, POST holds\n$")
        status, out, _ = say(loop, GCD, "gcd", 0, "true", f"(= a0_out {ZERO})")
        self.assertEqual(status, 1)
        self.assertRegex(out, r"\nend    refuted: false of these values, by \w+ \(.*\n  ra_in .*")
        status, out, _ = say(loop, GCD, "gcd", 0, "false", f"(= a0_out {ZERO})")
        self.assertIn("note: step says nothing: no values meet its premises\nnote: end says nothing", out)


@needs_program
@needs_solver
class Proofs(unittest.TestCase):
    """A loop of the examples, proved and refuted. docs/TUTORIAL.md has the others, which test_tutorial.py tries."""

    def prove(self, *words):
        """The exit status and the output, in the folder of the example. Where no solver has an answer in a minute, the test is skipped with a line."""
        months = EXAMPLES / "months"
        words = [months / word if str(word).startswith("months.") else word for word in words]
        status, out, told = say(loop, months / "months.proof", "day_of_year", 0, *words, "--with", months / "months.with", "--first")
        if "timeout" in out and status == 7:
            self.skipTest("no solver had an answer in a minute")
        self.assertEqual(told, "")
        return status, out

    def test_a_table(self):
        words = ["months.inv", "months.post", "--measure", "a0", "--entry", "(bvule a0 (_ bv12 64))"]
        status, out = self.prove(*words, "--elf", "months.elf", ".rodata")
        self.assertEqual(status, 0, out)
        self.assertRegex(out, r"begin  proved .*\nstep   proved .*\nend    proved .*\nfalls  proved .*\nproved of d0 of day_of_year: .*")

    def test_without_the_table(self):
        status, out = self.prove("months.inv", "months.post", "--entry", "(bvule a0 (_ bv12 64))")
        self.assertEqual(status, 1, out)
        self.assertRegex(out, r"\nstep   refuted: .*\n  ra_in ")

    def test_a_measure_that_rises(self):
        status, out = self.prove("true", "--measure", "a2")
        self.assertEqual(status, 1, out)
        self.assertRegex(out, r"\nfalls  refuted: ")


@needs_program
@needs_solver
class Nested(unittest.TestCase):
    """The loops of the CRC, of which the inner one is known by its contract alone."""

    def outer(self, *known):
        """Tries the loop over the bytes without what it says of their presence, so that a wrong goal has values."""
        own = EXAMPLES / "own"
        with tempfile.TemporaryDirectory() as folder:
            path = pathlib.Path(folder)
            self.assertEqual(program.run(["decompile", own / "my.elf", path / "my.proof", "crc"]).returncode, 0)
            (path / "crc.with").write_text((own / "crc.with").read_text().partition("; Whether so many bytes")[0])
            invariant = (own / "bytes.inv").read_text().replace("(are_there dom a0 a1)", "")
            words = [path / "my.proof", "crc", 4, invariant, own / "bytes.post", "--with", path / "crc.with", "--axiom", own / "crc.axiom"]
            status, out, told = say(loop, *words, "--known", 1, *known, "--first")
        self.assertEqual(told, "")
        if status == 7:
            self.skipTest("no solver had an answer in a minute")
        return status, out

    def contract(self, old="", new=""):
        return [(EXAMPLES / "own" / name).read_text().replace(old, new) for name in ("bits.inv", "bits.post")]

    def test_what_is_known_is_enough(self):
        self.assertEqual(self.outer(*self.contract())[0], 0)

    def test_a_contract_whose_entry_is_not_met_tells_nothing(self):
        status, out = self.outer(*self.contract("(= a2_in (_ bv0 64))", "(= a2_in (_ bv5 64))"))
        self.assertEqual(status, 1, out)
        self.assertIn("\nend    refuted", out)

    def test_a_contract_that_says_something_else(self):
        status, out = self.outer(*self.contract("(bit_steps (_ bv8 64)", "(bit_steps (_ bv7 64)"))
        self.assertEqual(status, 1, out)

    def test_a_loop_that_nothing_is_known_of(self):
        status, _, told = say(loop, EXAMPLES / "gcd" / "gcd.proof", "gcd", 4, "true", "true")
        self.assertEqual(status, 1)
        self.assertIn("tell by --known 0", told)


@needs_program
class Certificates(unittest.TestCase):
    """What `simplify` wrote is taken in place of a proof."""

    def test_a_goal_and_a_loop(self):
        with tempfile.TemporaryDirectory() as folder:
            out, cert = pathlib.Path(folder) / "goal.smt2", pathlib.Path(folder) / "gcd.cert"
            self.assertEqual(program.run(["simplify", GCD, "gcd", cert]).returncode, 0)
            self.assertEqual(say(goal, out, f"gcd={cert}:gcd:1")[0], 0)
            self.assertIn("define-fun gcd_a0 ", out.read_text())
            self.assertEqual(say(loop, cert, "gcd", 0, "true", "--scripts", "--out", folder)[0], 0)
            before, after = (pathlib.Path(folder) / name for name in ("step.smt2", "before/step.smt2"))
            say(loop, GCD, "gcd", 0, "true", "--scripts", "--out", after.parent)
            self.assertLess(len(before.read_text()), len(after.read_text()))


if __name__ == "__main__":
    unittest.main()
