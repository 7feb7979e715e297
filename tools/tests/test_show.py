"""Tests of `mc show`: on the examples beside the texts that stand there, on what no listing may lose, and on texts that are none."""
import html.parser
import pathlib
import re
import tempfile
import unittest

from mc import disassembly, proof
from tests import samples
from tests.samples import EXAMPLES, PROOFS, mc

GROUP = "mcproof 1\ngroup f\nregs 1 10 11\nmems 1\ncode (0x10000 8280)\ndef 0x10000 ret\n{}leave 0 v0 v0 v1 v2 ; m0\nend\n"
# The text of each operation on a0 and a1, by hand.
OPERATIONS = {
    "add": "a0 + a1", "sub": "a0 - a1", "sll": "a0 << a1", "slt": "a0 <s a1", "sltu": "a0 <u a1", "xor": "a0 ^ a1", "srl": "a0 >>u a1", "sra": "a0 >>s a1",
    "or": "a0 | a1", "and": "a0 & a1", "mul": "a0 * a1", "mulh": "mulh(a0, a1)", "mulhsu": "mulhsu(a0, a1)", "mulhu": "mulhu(a0, a1)", "div": "a0 /s a1",
    "divu": "a0 /u a1", "rem": "a0 %s a1", "remu": "a0 %u a1", "addw": "a0 +w a1", "subw": "a0 -w a1", "sllw": "a0 <<w a1", "srlw": "a0 >>uw a1",
    "sraw": "a0 >>sw a1", "mulw": "a0 *w a1", "divw": "a0 /sw a1", "divuw": "a0 /uw a1", "remw": "a0 %sw a1", "remuw": "a0 %uw a1",
}
COMPARISONS = {"eq": ("==", "!="), "ne": ("!=", "=="), "lt": ("<s", ">=s"), "ge": (">=s", "<s"), "ltu": ("<u", ">=u"), "geu": (">=u", "<u")}


def path_of(name, ending):
    return EXAMPLES / f"{name}.{ending}"


def shown(text, *options):
    """The lines of a text's listing, from the first definition on."""
    with tempfile.TemporaryDirectory() as folder:
        path = pathlib.Path(folder) / "text"
        path.write_text(text)
        status, out, told = mc("show", path, *options)
        assert (status, told) == (0, ""), told
        return out.splitlines()[3:]


def body(*lines):
    """The listing of a body of these lines."""
    return [line[4:] for line in shown(GROUP.format("".join(line + "\n" for line in lines)))[1:-1]]


class OfTheExamples(unittest.TestCase):
    def test_the_texts_that_stand_there(self):
        for name in PROOFS:
            expected = path_of(name, "txt").read_text()
            self.assertEqual(mc("show", path_of(name, "proof")), (0, expected, ""))
            self.assertEqual(mc("show", path_of(name, "proof"), name.split("/")[1]), (0, expected, ""))

    def test_from_any_folder(self):
        expected = (0, path_of("gcd/gcd", "txt").read_text(), "")
        self.assertEqual(samples.script("show", "gcd.proof", cwd=EXAMPLES / "gcd"), expected)
        self.assertEqual(samples.script("show", path_of("gcd/gcd", "proof"), cwd="/"), expected)

    def test_what_the_documents_show(self):
        for page in ("README.md", "docs/TUTORIAL.md", "examples/README.md"):
            blocks = re.findall(r"^```\w*\n(.*?)^```$", (samples.TOP / page).read_text(encoding="utf8"), re.M | re.S)
            listings = [block for block in blocks if re.search(r"^(?:\w+ = )?d\d+, (?:part|loop) at ", block, re.M)]
            self.assertTrue(listings)
            texts = [path_of(name, "txt").read_text() for name in PROOFS]
            for block in listings:
                pieces = re.split(r"^ *\.\.\n", re.sub(r"^\$.*\n", "", block, flags=re.M), flags=re.M)
                # That of `crc` needs the program.
                self.assertTrue("crc" in block or any(all(piece in text for piece in pieces) for text in texts), f"{page}: {block}")

    def test_needs_have_the_numbers_of_the_answers(self):
        """The needs of a definition, counted in the text, stand in the listing by these numbers."""
        for name in PROOFS:
            counts = [len(re.findall("^need ", part, re.M)) for part in re.split("^def ", path_of(name, "proof").read_text(), flags=re.M)[1:]]
            listed = path_of(name, "txt").read_text().split("\n\n")[1:]
            found = [[int(number) for number in re.findall(r"^ +need (\d+): ", part, re.M)] for part in listed]
            self.assertEqual(found, [list(range(count)) for count in reversed(counts)])

    def test_pictures(self):
        for name in PROOFS:
            status, picture, _ = mc("show", path_of(name, "proof"), "--dot")
            nodes = set(re.findall(r"^    (\w+) \[", picture, re.M))
            edges = re.findall(r"^    (\w+) -> (\w+) ", picture, re.M)
            self.assertEqual(status, 0)
            self.assertTrue(edges and all(a in nodes and b in nodes for a, b in edges))
        _, picture, _ = mc("show", path_of("gcd/gcd", "proof"), "--dot")
        for edge in ('g0d0 -> g0d0 [label="again"]', 'g0d3 -> g0d0 [label=""]', 'g0d3 -> g0d2 [label="after 0x1112c"]', 'g0d1 -> g0ret [label=""]'):
            self.assertIn(edge, picture)

    def test_folded(self):
        _, out, _ = mc("show", path_of("strlen/strlen", "proof"), "--fold")
        self.assertIn("    v5 = mem[a0 + a1]:1    (need 0)\n    v6 = a1 + 1\n    if v5 != 0:\n", out)
        self.assertIn("    return to ra & -2 with a0 = a1 - 1\n", out)
        _, out, _ = mc("show", path_of("average/average", "proof"), "--fold")
        self.assertIn("    v4 = a1 & a0\n    return to ra & -2 with a0 = ((a0 ^ a1) >>u 1) + v4, a2 = v4\n", out)


def has_disassembler():
    try:
        return bool(disassembly.instructions(str(path_of("gcd/gcd", "elf")), [(0x11120, 0x11130)]))
    except disassembly.NoDisassembler:
        return False


class OfAFileBeside(unittest.TestCase):
    @unittest.skipUnless(has_disassembler(), "no disassembler of RISC-V is on the path")
    def test_each_instruction_of_the_tutorial_stands_in_one_place(self):
        page = (samples.TOP / "docs" / "TUTORIAL.md").read_text(encoding="utf8")
        expected = {address: words.split() for address, words in re.findall(r"^([0-9a-f]{5}): (?:[0-9a-f]{2} )+ *(.*)$", page, re.M)}
        status, out, told = mc("show", path_of("gcd/gcd", "proof"), "--elf", path_of("gcd/gcd", "elf"))
        rows = re.findall(r"^    ([0-9a-f]{5}): (.*?) *(?:<.*>)? *\|", out, re.M)
        self.assertEqual((status, told, len(rows)), (0, "", 7))
        self.assertEqual({address: words.split() for address, words in rows}, expected)
        parts = {part.partition(",")[0]: re.findall(r"^    ([0-9a-f]{5}): ", part, re.M) for part in out.split("\n\n")[1:]}
        self.assertEqual(parts, {"gcd = d4": ["11120"], "d3": [], "d2": ["1112c"], "d1": ["1112e"], "d0": ["11122", "11124", "11128", "1112a"]})

    def test_bytes_at_constant_addresses(self):
        lines = ["let (add 0x10000 0x102)", "need (in2 m0 v3)", "let (sx2 (ld2 m0 v3))", "let (ld8 m0 0x11000)", "let (ld8 m0 0x20000)", "let (add v1 0x10100)", "let (ld2 m0 v1)"]
        with tempfile.TemporaryDirectory() as folder:
            text, file = pathlib.Path(folder) / "f.proof", pathlib.Path(folder) / "f.elf"
            text.write_text(GROUP.format("".join(line + "\n" for line in lines)))
            file.write_bytes(samples.elf_file())
            status, out, told = mc("show", text, "--elf", file)
            self.assertEqual(status, 0)
            for line in (
                "v4 = sx2(mem[0x10102]:2)    # in the file 0x2042 (table+2, .rodata)\n",
                "v5 = mem[0x11000]:8    # in the file 0x7 (counter, .data; writable: may have changed)\n",
                "v6 = mem[0x20000]:8    # nothing of the file at 0x20000\n",
                "v7 = a0 + 0x10100    # 0x10100: table, .rodata\n",
                "v8 = mem[a0]:2\n",
            ):
                self.assertIn(line, out)
            self.assertIn("part at 0x10000 <f>: returns\n", out)
            file.write_bytes(samples.elf_file(kind=3).replace(samples.CODE, b"\0\0"))
            _, _, told = mc("show", text, "--elf", file)
            self.assertIn("position independent", told)
            self.assertIn("the code of f isn't that of", told)


class Page(html.parser.HTMLParser):
    """The tags of a page, with what they name and link to."""

    def __init__(self, text):
        super().__init__()
        self.open, self.wrong, self.ids, self.links, self.tags = [], [], [], [], set()
        self.feed(text)

    def handle_starttag(self, tag, attributes):
        self.tags.add(tag)
        if tag != "meta":
            self.open.append(tag)
        self.ids += [value for name, value in attributes if name == "id"]
        self.links += [value for name, value in attributes if name in ("href", "src")]

    def handle_endtag(self, tag):
        if not self.open or self.open.pop() != tag:
            self.wrong.append(tag)


class OfThePage(unittest.TestCase):
    def test_is_whole(self):
        for name in PROOFS:
            for options in ((), ("--fold",), ("--elf", path_of(name, "elf"))):
                status, out, _ = mc("show", path_of(name, "proof"), "--html", *options)
                page = Page(out)
                self.assertEqual((status, page.open, page.wrong, len(page.ids)), (0, [], [], len(set(page.ids))))
                self.assertTrue(all(link[0] == "#" and link[1:] in page.ids for link in page.links))
                self.assertFalse(page.tags & {"script", "link", "img", "iframe"} or re.search(r"url\(|@import|https?:", out))

    def test_has_what_the_listing_has(self):
        _, out, _ = mc("show", path_of("split/swap", "proof"), "--html")
        lines = [html.unescape(re.sub("<[^>]*>", "", line)) for line in re.findall(r'^<div class="line".*</div>$', out, re.M)]
        self.assertEqual(lines, [line.strip() for line in path_of("split/swap", "txt").read_text().splitlines() if line.startswith("    ")])
        self.assertIn('id="f0d0need15">', out)

    def test_names_are_escaped(self):
        text = GROUP.format("").replace("group f", "group f<b>&")
        with tempfile.TemporaryDirectory() as folder:
            path = pathlib.Path(folder) / "text"
            path.write_text(text)
            _, out, _ = mc("show", path, "--html")
            self.assertIn("<h2>f&lt;b&gt;&amp;</h2>", out)
            self.assertNotIn("f<b>", out)


class OfTerms(unittest.TestCase):
    def test_operations(self):
        self.assertEqual(set(OPERATIONS), set(proof.OPERATIONS))
        self.assertEqual(len(set(OPERATIONS.values())), len(OPERATIONS))
        lines = body(*(f"let ({name} v1 v2)" for name in OPERATIONS))
        self.assertEqual(lines, [f"v{k} = {text}" for k, text in enumerate(OPERATIONS.values(), 3)])

    def test_comparisons(self):
        for name, (sign, contrary) in COMPARISONS.items():
            self.assertEqual(body(f"need ({name} v1 v2)", f"need (not ({name} v1 v2))", f"need (not (not ({name} v1 v2)))"), [
                f"need 0: a0 {sign} a1", f"need 1: a0 {contrary} a1", f"need 2: a0 {sign} a1"])

    def test_parentheses(self):
        self.assertEqual(body("let (sub (sub v1 v2) (sub v1 v2))", "let (mul (ld4 m0 (add v1 v2)) (sx2 (add v1 v2)))", "let (add v1 (add v2 0x1))"), [
            "v3 = (a0 - a1) - (a0 - a1)", "v4 = mem[a0 + a1]:4 * sx2(a0 + a1)", "v5 = a0 + (a1 + 1)"])

    def test_memories(self):
        self.assertEqual(body("letm (st8 m0 (add v1 0x8) (add v1 v2))", "let (ld2 (st1 m1 v1 v2) v1)", "need (in4 m1 v2)"), [
            "m1 = mem[a0 + 8]:8 := a0 + a1", "v3 = (m1[a0]:1 := a1)[a0]:2", "need 0: m1 has [a1]:4"])

    def test_numbers(self):
        self.assertEqual(body("need (eq v1 0xfff)", "need (eq v1 0x1000)", "need (eq v1 0xfffffffffffff001)", "need (eq v1 0xfffffffffffff000)"), [
            "need 0: a0 == 4095", "need 1: a0 == 0x1000", "need 2: a0 == -4095", "need 3: a0 == 0xfffffffffffff000"])

    def test_sums_of_numbers_and_copies(self):
        self.assertEqual(body("let (add 0x11000 0xfffffffffffff958)", "let (add 0x0 v1)", "let (addw 0x7fffffff 0x1)", "let (xor v3 v4)", "let (xor v5 v4)"), [
            "v6 = 0x10958 ^ a0", "v7 = 0xffffffff80000000 ^ a0"])

    def test_fold_leaves_what_is_long_or_used_twice(self):
        lines = ["let (xor v1 v2)", "let (xor v3 v3)", "let (mul v1 v2)", "let (xor v4 v5)", "need (eq v6 0x0)"]
        text = GROUP.format("".join(line + "\n" for line in lines))
        self.assertEqual([line[4:] for line in shown(text, "--fold")[1:-1]], ["v3 = a0 ^ a1", "need 0: ((v3 ^ v3) ^ (a0 * a1)) == 0"])
        chain = ["let (mul v1 v2)"] + [f"let (mul v{k} v1)" for k in range(3, 20)] + ["need (eq v20 0x0)"]
        folded = shown(GROUP.format("".join(line + "\n" for line in chain)), "--fold")[1:-1]
        self.assertTrue(2 < len(folded) < len(chain) and all(len(line) < 100 for line in folded))


class OfOtherTexts(unittest.TestCase):
    def test_fronts(self):
        """No front of whole lines is a proof text; the line that is told is the first that isn't there."""
        for name in PROOFS:
            text = path_of(name, "proof").read_text().split("\n")
            for count in (1, 4, 7, text.index("end")):
                with self.assertRaises(proof.BadProof) as caught:
                    proof.parse("".join(line + "\n" for line in text[:count]))
                self.assertEqual(caught.exception.line, count + 1)

    def test_wrong_lines(self):
        for lines, line, why in (
            ("let (add v1 v3)\n", 7, "there is no v3 here"),
            ("let (addx v1 v2)\n", 7, "`addx` is no operation"),
            ("let (add v1 m0)\n", 7, "m0 is no word"),
            ("let (add v1)\n", 7, "`[)]` is no term"),
            ("let  (add v1 v2)\n", 7, "spaces"),
            ("let 0x01\n", 7, "no number"),
            ("need v1\n", 7, "`[(]` should"),
            ("call 0 1 v0 v1 v2 ; m0\n", 7, "no definition 0"),
            ("again v0 v1 ; m0\n", 7, "2 words and 1 memories stand where 3 and 1 should"),
            ("leave 1 v0 v1 v2 ; m0\n", 7, "no exit 1"),
            ("let v0\nlet v0 v0\n", 8, "behind its end"),
            ("so\n", 7, "a body ends with"),
        ):
            with self.assertRaises(proof.BadProof) as caught:
                proof.parse(GROUP.format(lines))
            self.assertEqual(caught.exception.line, line)
            self.assertRegex(caught.exception.why, why)

    def test_a_text_without_functions(self):
        with tempfile.TemporaryDirectory() as folder:
            path = pathlib.Path(folder) / "text"
            path.write_text("mcproof 1\nend\n")
            self.assertEqual(mc("show", path), (1, "", f"mc show: {path}: no function is in it\n"))

    def test_deepest(self):
        """As the program's own reader: a term is at most 64 deep, a number or a variable being 1 deep."""
        for count, line in ((63, None), (64, 7)):
            term = "(add 0x0 " * count + "v0" + ")" * count
            try:
                proof.parse(GROUP.format(f"let {term}\n"))
                self.assertIsNone(line)
            except proof.BadProof as bad:
                self.assertEqual(bad.line, line)

    def test_answers(self):
        gcd = path_of("gcd/gcd", "proof")
        for words, status, told in (
            ((gcd, "gdc"), 1, "no function gdc; there is gcd"),
            ((), 2, "PROOF"),
            ((gcd, "--flod"), 2, "--flod"),
            ((gcd, "--dot", "--html"), 2, "not allowed"),
            ((path_of("gcd/gcd", "c"),), 3, "gcd.c: line 1: "),
            ((gcd, "--elf", path_of("gcd/gcd", "c")), 3, "gcd.c: not an ELF file"),
            (("none.proof",), 4, "none.proof: No such file"),
            ((EXAMPLES,), 4, "Is a directory"),
        ):
            found, out, errors = mc("show", *words)
            self.assertEqual((found, out), (status, ""), errors)
            self.assertIn(told, errors.splitlines()[0])
            self.assertTrue(errors.startswith("mc show: "))


class OfTextsOfOtherVersions(unittest.TestCase):
    def test_a_certificate_shows_what_it_ends_with(self):
        group = "group f\nregs 1\nmems 0\ncode (0x10000 8280)\n"
        text = f"mclaws 1\n{group}def 0x10000 ret\nlet (xor v0 0x0)\nleave 0 v0 v1 ;\nrw 0 0 - 5\nresult\ndef 0x10000 ret\nlet v0\nleave 0 v0 v1 ;\nend\n"
        self.assertEqual(shown(text), ["f = d0, part at 0x10000: returns", "    return to ra"])
        found = proof.parse(text)
        self.assertEqual((found.steps, str(found.group.definitions[0].body.steps[0].value)), (1, "(xor v0 0x0)"))

    def test_version_2(self):
        text = path_of("gcd/gcd", "proof").read_text().split("\naxiom ")[0].replace("mcproof 1", "mcproof 2")
        text += "\nterm v2\nterm v3\naxiom 0x11122 0x862e next\nloop 0 0\nforget 0\nend\n"
        self.assertEqual("\n".join(shown(text)), "\n".join(path_of("gcd/gcd", "txt").read_text().splitlines()[3:]))
        self.assertEqual(proof.parse(text).groups[0].definitions[0].axioms, (0x11122,))


if __name__ == "__main__":
    unittest.main()
