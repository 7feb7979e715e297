"""Tests that a listing says what the text says: both are evaluated, from drawn registers and bytes."""
import pathlib
import random
import tempfile
import unittest

from mc import proof
from mc.syntax import ABI, COMPARISONS, OPERATIONS, RETURN
from tests.meaning import OfLines, OfTrees, Refused, TooLong
from tests.samples import EXAMPLES, PROOFS, mc

TURNS = 60


def drawn(random_source, group):
    """Registers and memories: small numbers, addresses in the memories, and any words; some bytes of the memories are absent."""
    words = [random_source.choice((k, 0x8000 + 8 * k, random_source.getrandbits(64))) for k in (random_source.randrange(12) for _ in group.registers)]
    memories = []
    for _ in range(group.memories):
        bytes_there = {0x7FC0 + k: random_source.choice((0, random_source.randrange(256))) for k in range(256)}
        if random_source.randrange(3) == 0:
            del bytes_there[random_source.choice(list(bytes_there))]
        memories.append(bytes_there)
    return words, memories


def outcome(evaluate):
    try:
        return evaluate()
    except Refused as bad:
        return "refused", bad.args
    except TooLong:
        return ("too long",)


def by_tree(group, words, memories):
    exit, words, memories = OfTrees(group, TURNS).enter(len(group.definitions) - 1, words, memories)
    exit = (RETURN, words[0]) if exit == RETURN else exit
    return exit, words[isinstance(exit, tuple) :], memories


def by_lines(listing, group, words, memories):
    lines = OfLines(listing, TURNS)
    exit, values = lines.enter(lines.first, dict(zip((*lines.registers, *lines.memories), (*words, *memories))))
    return exit, [values[ABI[r]] for r in group.registers], [values[name] for name in lines.memories]


class OfListings(unittest.TestCase):
    def agree(self, path, count):
        group = proof.read(path).groups[0]
        seen = set()
        for options in ((), ("--fold",)):
            listing = mc("show", path, *options)[1]
            random_source = random.Random(7)
            for _ in range(count):
                words, memories = drawn(random_source, group)
                expected = outcome(lambda: by_tree(group, words, memories))
                self.assertEqual(outcome(lambda: by_lines(listing, group, words, memories)), expected, (path, options, words))
                seen.add(expected[0] if isinstance(expected[0], str) else "done")
        return seen

    def test_of_the_examples(self):
        seen = set()
        for name in PROOFS:
            seen |= self.agree(EXAMPLES / f"{name}.proof", 60)
        self.assertLessEqual({"done", "refused"}, seen)

    def test_of_all_operations(self):
        lines = [f"let ({name} v{k % 3} v{k % 4})" for k, name in enumerate(sorted(OPERATIONS))]
        lines += [f"let (sx{size} (add v{3 + size} v1))" for size in (1, 2, 4)] + [f"let (ld{size} m0 (add v1 0x{size}))" for size in (1, 2, 4, 8)]
        lines += [f"letm (st{size} m{k} (and v2 0xffff) v{k + 4})" for k, size in enumerate((1, 2, 4, 8))]
        lines += ["need (in8 m4 (sub (sx2 v1) 0x7))", "need (not (not (geu (add v1 0x9) v2)))"]
        last = 3 + len(OPERATIONS) + 7
        lines += [f"if ({name} v0 v{k + 9})\nleave 0 v0 v{k + 5} v{k + 6} v{k + 7} ; m{k % 5}\nelse" for k, name in enumerate(sorted(COMPARISONS))]
        text = "mcproof 1\ngroup f\nregs 1 10 11\nmems 1\ncode (0x10000 8280)\ndef 0x10000 ret\n" + "\n".join(lines)
        text += f"\nleave 0 {' '.join(f'v{k}' for k in range(last - 4, last))} ; m4\nend\n"
        with tempfile.TemporaryDirectory() as folder:
            path = pathlib.Path(folder) / "f.proof"
            path.write_text(text)
            self.assertEqual(self.agree(path, 200), {"done", "refused"})


if __name__ == "__main__":
    unittest.main()
