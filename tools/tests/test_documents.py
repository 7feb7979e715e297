"""Tests of what writes and checks the documents, and of mc.affected."""
import contextlib
import io
import unittest

import crates
import documents
import wrapping
from mc import affected

PAGE = """# A heading that is not wrapped, however long it is, since it would be a paragraph behind its first line then, as here

A paragraph of words that goes on past the column at which it has to be wrapped, 27 % of it at least,
and has a second line.
- an item with `a short piece of code` that isn't parted wherever it stands in the line, as this one `a b`
  - an item in it

| a table | stays |
|---|---|

```
code that is longer than a hundred columns stays as well, since a line of it that is parted means something else
```
"""


class Wrapping(unittest.TestCase):
    def setUp(self):
        self.lines = wrapping.wrapped_page(PAGE).split("\n")

    def test_prose_is_narrow_and_keeps_its_words(self):
        prose = [line for line in self.lines if not line.startswith(("#", "code"))]
        self.assertLessEqual(max(map(len, prose)), wrapping.WIDTH)
        self.assertEqual(" ".join(self.lines).split(), PAGE.split())

    def test_all_else_stays(self):
        for line in PAGE.split("\n"):
            if line.startswith(("#", "|", "```", "code")):
                self.assertIn(line, self.lines)

    def test_what_is_wrapped_stays_so(self):
        page = "\n".join(self.lines)
        self.assertEqual(wrapping.wrapped_page(page), page)

    def test_items_hang(self):
        place = next(k for k, line in enumerate(self.lines) if line.startswith("- an item"))
        self.assertTrue(self.lines[place + 1].startswith("  "))
        self.assertIn("  - an item in it", self.lines)

    def test_no_line_becomes_a_list(self):
        words = "x " * 49 + "- y 1. z"
        self.assertFalse([line for line in wrapping.wrapped(words) if line[0] in "-1"])

    def test_code_that_was_parted_has_one_space(self):
        self.assertEqual(wrapping.wrapped_page("- an item with `a\n  b` in it"), "- an item with `a b` in it")

    def test_code_is_not_parted(self):
        self.assertEqual(wrapping.pieces("a `b c` (`d e`), f"), ["a", "`b c`", "(`d e`),", "f"])


class Checks(unittest.TestCase):
    def test_wide_lines(self):
        wide = "word " * 30
        page = "\n".join([wide, "```", wide, "```", f"| {wide} |", documents.WIDE_TABLE, f"| {wide} |", "", wide])
        self.assertEqual(list(documents.too_wide(page)), [1, 5, 9])

    def test_a_long_link_may_be_wide(self):
        self.assertEqual(list(documents.too_wide("  [a](" + 120 * "b" + ")")), [])

    def test_headings(self):
        page = "# What `check` does, and why\n```\n# no heading\n```\n"
        self.assertEqual(documents.anchors(page), {"what-check-does-and-why"})

    def test_links(self):
        page = "[a](#here) [b](GLOSSARY.md#logic) [c](GONE.md) [d](#gone) `docs/GONE.md`\n# Here\n"
        found = list(documents.missing("docs/A.md", {"docs/A.md": page}))
        self.assertEqual(found, ["GONE.md", "#gone", "docs/GONE.md"])


class Affected(unittest.TestCase):
    USES = {"a": [], "b": ["a", "outside"], "c": [], "d": ["b", "c"]}

    def test_those_above(self):
        self.assertEqual(affected.with_those_above({"a"}, self.USES), ["a", "b", "d"])
        self.assertEqual(affected.with_those_above({"c"}, self.USES), ["c", "d"])
        self.assertEqual(affected.with_those_above(set(), self.USES), [])

    def test_the_crates_stand_in_their_order(self):
        uses = crates.layers()[2]
        self.assertEqual(affected.with_those_above({"rv_words"}, uses), list(uses))

    def test_seconds(self):
        lines = affected.table(["a", "b"], {"a"}, {"a": [3, 0, 20, 1]})
        shown = [line.split() for line in lines[1:]]
        self.assertEqual(shown, [["*", "a", "3", "0", "20", "1", "24"], ["b"], ["all", "3", "0", "20", "1", "24"]])

    def test_wrong_words(self):
        told = io.StringIO()
        with contextlib.redirect_stderr(told):
            self.assertEqual(affected.main(["-x"]), 2)
            self.assertEqual(affected.main(["no-such-revision"]), 1)
        self.assertIn("usage: mc affected", told.getvalue())


if __name__ == "__main__":
    unittest.main()
