#!/usr/bin/env python3
"""checkers.py [PROGRAM] [--count N] [--seed S] [--jobs J] [--seconds T] [--kinds KIND,..] [--keep FOLDER]: compares `check` and `eval` of a built program with second_checker.

The texts are, first, 554 that were thought out, one for each sentence of docs/FORMATS.md that could be read in two ways; and then N (2,000) that are drawn, a
quarter of each version. The kinds are:

    changed   a text that the program made, or one of examples/, with some change
    drawn     lines by each rule, right ones and at the end a wrong one
    tried     lines that try one thing, at which a wrong rule would be seen
    axioms    many axioms, of version 2 without their triples
    numbers   an axiom, mostly of a number that is no instruction
    elf       a changed ELF file
    eval      evaluation with drawn registers and bytes

With `--kinds` these alone are drawn, and what was thought out is left out. S (1) is the seed: text K of a seed is the same however many there are. J texts (as many as there are
processors) are compared at a time. After T seconds no text is begun. What differs is told, with the files in FOLDER, or where none is named, in a new one of the temporary
folder. At the end stands how many texts, answers and drawn lines there were of each version.

The exit status is 1 where something differs.
"""
import argparse
import collections
import os
import subprocess
import sys
import tempfile
import time
from concurrent.futures import ProcessPoolExecutor

sys.path.insert(0, os.path.join(os.path.dirname(os.path.abspath(__file__)), "..", "library"))
from programs import program_of
from checker_texts import made
from checker_texts.drawn_texts import KINDS, of_number, thought_out
from second_checker import evaluation, verdict

VERSIONS = ("1", "2", "3", "4", "-")
# So many texts are given to a process at a time.
CHUNK = 40
LONGEST_RUN = 120


class Comparison:
    """Runs both on texts, within one process, and counts."""

    def __init__(self, words, program, bases, folder):
        self.words, self.program, self.bases, self.folder = words, program, bases, folder
        self.elf, self.text = (os.path.join(folder, f"{os.getpid()}.{kind}") for kind in ("elf", "proof"))
        self.until = time.time() + words.seconds
        self.kinds = words.kinds.split(",") if words.kinds else list(KINDS)

    def theirs(self, text):
        """The status and the lines of the program."""
        for path, held in ((self.elf, text.elf), (self.text, text.held)):
            if held is not None:
                with open(path, "wb") as file:
                    file.write(held)
        words = ["check", self.elf, self.text] if text.words is None else ["eval", self.text, *text.words]
        try:
            done = subprocess.run([self.program, *words], stdout=subprocess.PIPE, stderr=subprocess.STDOUT, check=False, close_fds=False, timeout=LONGEST_RUN)
        except subprocess.TimeoutExpired:
            return None, f"no answer within {LONGEST_RUN} seconds\n"
        return done.returncode, done.stdout.decode("latin-1")

    def mine(self, text):
        """The status and the lines of the second checker."""
        try:
            if text.words is None:
                status, lines = verdict.check(text.elf, lambda: text.held)
            else:
                status, lines = evaluation.evaluate(["text", *text.words], lambda _: text.held)
        except Exception as error:  # It is told as a difference.
            return None, f"{error!r}\n"
        return status, lines + "\n"

    def chunk(self, numbers):
        """The counts of the texts of these numbers, and what differs. A number below 0 is that of a text that was thought out, the first being -1."""
        counts, differences = collections.Counter(), []
        for number in numbers:
            if time.time() > self.until:
                break
            text = THOUGHT_OUT[-number - 1] if number < 0 else of_number(self.words.seed, number, self.kinds, self.bases)
            mine, theirs = self.mine(text), self.theirs(text)
            counts["texts", text.kind, text.version] += 1
            counts["answers", " ".join(theirs[1].split("\n")[0].split(" ")[:2]) if theirs[0] else "accepted, or done", text.version] += 1
            counts.update(("lines", f"{rule}, {end}", text.version) for rule, end in text.lines)
            if mine != theirs:
                differences.append((number, text, mine, theirs))
        return counts, differences


THOUGHT_OUT = list(thought_out())
# The comparison of this process.
_here = None


def begin(*arguments):
    """Begins a process."""
    global _here
    _here = Comparison(*arguments)


def compared(numbers):
    """As Comparison.chunk, in a process that has begun."""
    return _here.chunk(numbers)


def keep(folder, number, text, mine, theirs):
    """Writes what differs into a folder of its own, and tells it."""
    place = os.path.join(folder, str(number))
    os.makedirs(place, exist_ok=True)
    answers = f"kind: {text.kind}, version {text.version}\nwords: {text.words}\nsecond checker: {mine}\nprogram: {theirs}\n"
    for name, held in (("file.elf", text.elf), ("text.proof", text.held), ("answers", answers.encode("latin-1"))):
        if held is not None:
            with open(os.path.join(place, name), "wb") as file:
                file.write(held)
    print(f"difference at text {number}, {text.kind}: the second checker says {mine}, the program {theirs}; see {place}", flush=True)


def table(counts, kind):
    """The lines of a table of one kind of counts, by version."""
    found = sorted({name for what, name, _ in counts if what == kind}, key=lambda name: (name.startswith("unreadable elf"), name))
    width = max(map(len, [kind, *found])) + 1
    yield f"{kind:{width}}" + "".join(f"{version:>10}" for version in VERSIONS) + f"{'all':>10}"
    for name in [*found, "all"]:
        row = [sum(count for (what, other, place), count in counts.items() if what == kind and name in (other, "all") and place == version) for version in VERSIONS]
        yield f"{name:{width}}" + "".join(f"{count:10,}" for count in [*row, sum(row)])


def whole_words(arguments):
    """The program, and the words behind it."""
    program, rest = program_of(__doc__, arguments, 0, len(arguments))
    reader = argparse.ArgumentParser(usage=__doc__, add_help=False)
    reader.add_argument("--count", type=int, default=2000)
    reader.add_argument("--seed", type=int, default=1)
    reader.add_argument("--jobs", type=int, default=os.cpu_count())
    reader.add_argument("--seconds", type=float, default=1e9)
    reader.add_argument("--kinds")
    reader.add_argument("--keep")
    words = reader.parse_args(rest)
    if words.kinds and not set(words.kinds.split(",")) <= set(KINDS):
        reader.error(f"the kinds are {', '.join(KINDS)}")
    return program, words


def main(arguments):
    """Compares, prints the counts, and gives the exit status."""
    program, words = whole_words(arguments)
    numbers = [*range(-len(THOUGHT_OUT), 0)] if not words.kinds else []
    numbers += range(words.count)
    chunks = [numbers[start : start + CHUNK] for start in range(0, len(numbers), CHUNK)]
    counts, different, kept = collections.Counter(), 0, words.keep
    with tempfile.TemporaryDirectory() as folder:
        bases = made.bases(program, folder)
        with ProcessPoolExecutor(words.jobs, initializer=begin, initargs=(words, program, bases, folder)) as pool:
            for more, differences in pool.map(compared, chunks):
                counts += more
                for found in differences:
                    kept = kept or tempfile.mkdtemp(prefix="checkers-")
                    keep(kept, *found)
                    different += 1
    for kind in ("texts", "answers", "lines"):
        print("\n".join(table(counts, kind)), end="\n\n")
    print(f"{different:,} differences")
    return int(different > 0)


if __name__ == "__main__":
    sys.exit(main(sys.argv[1:]))
