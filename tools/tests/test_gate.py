"""Tries tools/gate.py on a stand-in for `rt`, which works for two seconds as a check of a crate would."""
import os
import pathlib
import subprocess
import sys
import tempfile
import textwrap
import unittest

TOP = pathlib.Path(__file__).resolve().parents[2]
STAND_IN = """\
    #!{python}
    import subprocess, sys
    if sys.argv[1:] == ["version"]:
        print("stand-in")
    else:
        work = "import time\\nwhile time.process_time() < 2: pass"
        subprocess.run(["rattle", "-c", work, "--crate-name", "rv_words", *sys.argv[2:]], executable=sys.executable)
        print("1 passed, 0 failed")
"""


class GateTest(unittest.TestCase):
    def run_gate(self, *words):
        """The table that a run over the stand-in writes, and what it prints."""
        with tempfile.TemporaryDirectory() as room:
            folder = pathlib.Path(room)
            for name in ("tools", "bench", "bin"):
                (folder / name).mkdir()
            tool = folder / "tools" / "gate.py"
            tool.write_text((TOP / "tools" / "gate.py").read_text())
            rt = folder / "bin" / "rt"
            rt.write_text(textwrap.dedent(STAND_IN).format(python=sys.executable))
            rt.chmod(0o755)
            path = {**os.environ, "PATH": f"{folder / 'bin'}:{os.environ['PATH']}"}
            ran = subprocess.run([sys.executable, tool, *words], env=path, capture_output=True, text=True, check=True)
            return (folder / "bench" / "gate.json").read_text(), ran.stdout

    def test_seconds_are_those_of_the_crate(self):
        table, printed = self.run_gate()
        self.assertIn('"said": "1 passed, 0 failed"', table)
        self.assertIn('"kit": "stand-in"', table)
        self.assertRegex(table, r'"crate": "rv_words",\s+"proof": [12],')
        self.assertRegex(printed, r"(?m)^rv_words +[12] ")

    def test_wrong_bodies_are_apart(self):
        table, _ = self.run_gate("scratch/rt-edits-1/seed")
        self.assertRegex(table, r'"crate": "rv_words",\s+"proof": 0,\s+"tests": 0,\s+"edits": [12],')
