"""Tests of `./mc COMMAND`: what the program prints is printed, help stands beside it, and no file that is read is written."""
import os
import pathlib
import shutil
import subprocess
import tempfile
import unittest

from mc import program, words
from tests import samples

GCD = samples.EXAMPLES / "gcd"


class Usage(unittest.TestCase):
    """What needs no program."""

    def test_no_words(self):
        for given in ((), ("help",), ("--help",), ("-h",)):
            status, out, errors = samples.script(*given)
            self.assertEqual(status, 0 if given else 2)
            told = out if given else errors
            self.assertTrue(told.startswith("usage: mc [-v] [--program PATH] NAME ..\n"))
            for name in words.COMMANDS:
                self.assertIn(f"  {words.usage_of(name)}  ", told)
            self.assertIn("  functions ", told)

    def test_help_on_each(self):
        for name in words.COMMANDS:
            for given in (("help", name), (name, "--help"), (name, "-h"), ("--help", name)):
                status, out, errors = samples.mc(*given)
                self.assertEqual((status, errors, out.partition("\n")[0]), (0, "", f"usage: mc {words.usage_of(name)}"))
        for name in ("build", "functions"):
            for given in (("help", name), (name, "--help")):
                status, out, _ = samples.mc(*given)
                self.assertEqual((status, out.startswith(f"usage: mc {name} [")), (0, True))

    def test_a_name_that_is_none(self):
        for name, near in {"decompil": " Did you mean decompile?", "Check": " Did you mean check?", "simp": " Did you mean simplify?", "evla": " Did you mean eval?", "frob": "", "--link": None}.items():
            status, out, errors = samples.mc(name)
            self.assertEqual((status, out), (2, ""))
            expected = "mc: no option `--link` before NAME." if near is None else f"mc: no command `{name}`.{near} `mc` alone prints the list.\n"
            self.assertTrue(errors.startswith(expected), errors)

    def test_a_program_that_is_none(self):
        for given in (("--program", "/none"), ("--program=/none",)):
            status, out, errors = samples.script(*given, "selftest", "1", "1")
            self.assertEqual((status, out, errors), (2, "", "mc: /none: no program (MCDEC or --program names it)\n"))
        self.assertEqual(samples.script("--program")[0], 2)

    def test_a_file_that_would_be_overwritten(self):
        """Nothing runs, so no program is needed."""
        with tempfile.TemporaryDirectory() as place:
            folder = os.path.join(place, "a folder")
            os.mkdir(folder)
            elf, proof = (shutil.copy(GCD / name, folder) for name in ("gcd.elf", "gcd.proof"))
            os.symlink("gcd.elf", os.path.join(folder, "link"))
            os.link(elf, os.path.join(folder, "hard"))
            os.symlink("new", os.path.join(folder, "one"))
            os.symlink(folder, os.path.join(place, "other"))
            whole = [pathlib.Path(path).read_bytes() for path in (elf, proof)]
            for given in (
                ("decompile", "gcd.elf", "./gcd.elf", "gcd"),
                ("decompile", "./gcd.elf", "gcd.elf", "gcd"),
                ("link", "gcd.elf", "link", "gcd"),
                ("split", "link", "gcd.elf", "gcd"),
                ("decompile", "gcd.elf", "hard", "gcd"),
                ("decompile", "gcd.elf", os.path.join(place, "other", "gcd.elf"), "gcd"),
                ("decompile", elf, "../a folder/gcd.elf", "gcd"),
                ("migrate", "gcd.elf", "gcd.proof", "./gcd.proof"),
                ("migrate", "gcd.elf", "gcd.proof", "hard"),
                ("simplify", "gcd.proof", "gcd", "./gcd.proof"),
                ("smt", "./gcd.proof", "gcd", "0", proof),
                ("decompile", "one", "new", "gcd"),
            ):
                status, out, errors = samples.script(*given, cwd=folder)
                self.assertEqual((status, out), (2, ""), given)
                self.assertIn("would be overwritten. Nothing ran", errors)
                self.assertEqual([pathlib.Path(path).read_bytes() for path in (elf, proof)], whole)
            self.assertNotIn("new", os.listdir(folder))


@unittest.skipUnless(program.find(), "no program is built")
class PassedOn(unittest.TestCase):
    def setUp(self):
        self.folder = tempfile.TemporaryDirectory()
        self.place = os.path.join(self.folder.name, "a place")
        os.mkdir(self.place)
        for name in ("gcd.elf", "gcd.proof"):
            shutil.copy(GCD / name, self.place)

    def tearDown(self):
        self.folder.cleanup()

    def say(self, *given, cwd=None):
        return samples.script(*given, cwd=cwd or self.place)

    def test_lines_and_status(self):
        self.assertEqual(self.say("decompile", "gcd.elf", "new.proof", "gcd"), (0, "decompiled gcd 0x11120 7 5\n", ""))
        self.assertEqual(self.say("check", "a place/gcd.elf", "a place/new.proof", cwd=self.folder.name), (0, "accepted 1 95\n", ""))
        with open(os.path.join(self.place, "new.proof"), "rb") as file:
            self.assertEqual(file.read(), (GCD / "gcd.proof").read_bytes())

    def test_each_command_says_what_the_program_says(self):
        for given in (
            ("eval", "gcd.proof", "gcd", "100", "x1=0x2000", "x10=0x30", "x11=0x24"), ("eval", "gcd.proof", "gcd", "2", "x10=0x30", "x11=0x24"), ("eval", "gcd.proof", "f", "2"),
            ("run", "gcd.elf", "gcd", "0x2000", "100", "x1=0x2000"), ("run", "gcd.elf", "f", "0x2000", "100"), ("check", "gcd.elf", "none"), ("check", "gcd.elf", "gcd.elf"),
            ("migrate", "gcd.elf", "gcd.proof", "two"), ("simplify", "gcd.proof", "gcd", "cert"), ("laws", "gcd.proof", "cert"), ("smt", "gcd.proof", "gcd", "0", "script"),
            ("smt", "gcd.proof", "gcd", "1", "script"), ("selftest", "1", "20"), ("selftest", "1", "601"), ("link", "gcd.elf", "none/o", "gcd"), ("split", "gcd.elf", "o"), ("laws",),
        ):
            done = subprocess.run([program.path(), *given], capture_output=True, text=True, cwd=self.place)
            status, out, errors = self.say(*given)
            self.assertEqual((status, out), (done.returncode, done.stdout), given)
            self.assertEqual(status == 0, errors == "", (given, errors))

    def test_help_beside_the_answer(self):
        for line, given in {
            "mc: PROOF `none`: no such file": ("check", "gcd.elf", "none"),
            "mc: near names: gcd": ("decompile", "gcd.elf", "o", "gdc"),
            "mc: `gcd.proof` has gcd": ("eval", "gcd.proof", "f", "1"),
            "mc: `turns used`: ": ("eval", "gcd.proof", "gcd", "1", "a1=1"),
            "mc: SIZE `601` isn't from 1 to 600\nusage: mc selftest NUMBER SIZE": ("selftest", "1", "601"),
            "mc: NAME is missing\nusage: mc split ELF OUT NAME..": ("split", "gcd.elf", "o"),
            "mc: OUT `none/o`: the folder `none` isn't there": ("link", "gcd.elf", "none/o", "gcd"),
            "mc: ELF `gcd.proof` is a proof file": ("check", "gcd.proof", "gcd.elf"),
        }.items():
            _, _, errors = self.say(*given)
            self.assertIn(line, errors)

    def test_words_too_many(self):
        """Nothing is left out of what is passed on: the program answers, and writes nothing."""
        for given in (("check", "gcd.elf", "gcd.proof"), ("migrate", "gcd.elf", "gcd.proof", "two"), ("simplify", "gcd.proof", "gcd", "two"), ("smt", "gcd.proof", "gcd", "1", "two"), ("laws", "gcd.proof", "two"), ("selftest", "1", "20")):
            status, out, errors = self.say(*given, "more")
            self.assertEqual((status, out), (2, "not a command\n"))
            self.assertTrue(errors.startswith("mc: `more` is a word too many\nusage: "), errors)
        self.assertNotIn("two", os.listdir(self.place))

    def test_overlapping_bytes(self):
        status, _, errors = self.say("eval", "gcd.proof", "gcd", "100", "mem=0x80:0102", "mem=0x81:03")
        self.assertEqual((status, errors), (0, "mc: two mem words have the bytes from 0x81 to 0x81: the later word's count\n"))

    def test_what_is_passed_on(self):
        status, out, errors = self.say("-v", "eval", "gcd.proof", "gcd", "0x64", "ra=0x2000", "a0=48", "a1=0x24")
        self.assertEqual((status, out.partition("\n")[0]), (0, "done 6"))
        self.assertEqual(errors, f"mc: passed on: {program.path()} eval gcd.proof gcd 100 x1=0x2000 x10=0x30 x11=0x24\nmc: status 0\n")

    def test_the_script_by_another_path(self):
        """From another folder, by a link, and with a program that has a space in its path."""
        link = os.path.join(self.folder.name, "entry")
        os.symlink(samples.TOP / "mc", link)
        copy = os.path.join(self.place, "the program")
        os.symlink(program.path(), copy)
        done = subprocess.run([link, "--program", "../a place/the program", "-v", "check", "gcd.elf", "gcd.proof"], capture_output=True, text=True, cwd=self.place)
        self.assertEqual((done.returncode, done.stdout, done.stderr), (0, "accepted 1 95\n", f"mc: passed on: '{copy}' check gcd.elf gcd.proof\nmc: status 0\n"))

    def test_an_open_file_as_out(self):
        with open(os.path.join(self.place, "o"), "wb") as file:
            words = [samples.TOP / "mc", "decompile", "gcd.elf", f"/dev/fd/{file.fileno()}", "gcd"]
            done = subprocess.run(words, capture_output=True, text=True, cwd=self.place, pass_fds=[file.fileno()])
        self.assertEqual((done.returncode, done.stdout, done.stderr), (0, "decompiled gcd 0x11120 7 5\n", ""))
        self.assertEqual(pathlib.Path(self.place, "o").read_bytes(), (GCD / "gcd.proof").read_bytes())

    def test_standard_output_as_out(self):
        status, out, _ = self.say("decompile", "gcd.elf", "/dev/stdout", "gcd")
        self.assertEqual((status, out), (0, (GCD / "gcd.proof").read_text() + "decompiled gcd 0x11120 7 5\n"))


if __name__ == "__main__":
    unittest.main()
