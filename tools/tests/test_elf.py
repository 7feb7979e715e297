"""Tests of mc.elf: on a file made by hand, on the examples beside what binutils say, and on what is no such file."""
import re
import shutil
import struct
import subprocess
import unittest

from mc import elf
from tests import samples


class OfAFileMadeByHand(unittest.TestCase):
    def setUp(self):
        self.image = elf.parse(samples.elf_file(), "made.elf")

    def test_what_it_is(self):
        self.assertEqual((self.image.kind, self.image.machine, self.image.entry), (elf.EXECUTABLE, 243, 0x10000))
        self.assertFalse(self.image.position_independent)
        self.assertTrue(elf.parse(samples.elf_file(kind=3), "made.so").position_independent)

    def test_bytes(self):
        self.assertEqual(self.image.bytes_at(0x10000, 2), samples.CODE)
        self.assertEqual(self.image.bytes_at(0x10102, 4), samples.TABLE[2:6])
        self.assertEqual(self.image.bytes_at(0x11000, 24), samples.COUNTER + bytes(16))
        self.assertEqual(self.image.bytes_at(0x1100C, 2), bytes(2))

    def test_bytes_that_are_not_there(self):
        for address, length in ((0x10002, 1), (0x10001, 2), (0x11018, 1), (0x11000, 25), (0, 8), (2**64 - 1, 8)):
            self.assertIsNone(self.image.bytes_at(address, length))
            self.assertIsNone(self.image.stored_bytes(address, length))

    def test_stored_bytes(self):
        self.assertEqual([self.image.stored_bytes(*place) for place in ((0x10100, 8), (0x11000, 24), (0x11004, 4), (0x11008, 8))], [8, 8, 4, 0])

    def test_writable(self):
        self.assertEqual([self.image.is_writable(a) for a in (0x10000, 0x10100, 0x11000, 0x11017, 0x11018)], [False, False, True, True, False])
        self.assertTrue(self.image.is_writable(0x10FFF, 2))

    def test_sections(self):
        self.assertEqual([self.image.section_at(a) for a in (0x10000, 0x10107, 0x11000, 0x11008, 0x12000)], [".text", ".rodata", ".data", ".bss", None])

    def test_symbols(self):
        for table in (2, 11):
            image = elf.parse(samples.elf_file(symbol_table=table), "made.elf")
            self.assertEqual([(s.name, s.address, s.size, s.is_function) for s in image.symbols], [
                ("f", 0x10000, 2, True), ("table", 0x10100, 8, False), ("counter", 0x11000, 8, False), ("zeros", 0x11008, 16, False)])
            self.assertEqual(image.functions, {0x10000: "f"})
            self.assertEqual((image.addresses_of("table"), image.addresses_of("none")), ([0x10100], []))

    def test_places(self):
        self.assertEqual([self.image.place(a) for a in (0x10100, 0x10106, 0x11017, 0x11018)], ["table", "table+6", "zeros+15", None])

    def test_two_segments_one_after_the_other(self):
        data = bytearray(samples.elf_file())
        struct.pack_into("<Q", data, 64 + 16, 0x100FE)  # the code now ends where the table begins
        self.assertEqual(elf.parse(bytes(data), "made.elf").bytes_at(0x100FE, 4), samples.CODE + samples.TABLE[:2])


class OfOtherFiles(unittest.TestCase):
    def refused(self, data, why):
        with self.assertRaises(elf.BadElf) as caught:
            elf.parse(bytes(data), "made.elf")
        self.assertRegex(str(caught.exception), f"^made.elf: .*{why}")

    def test_no_elf_file(self):
        self.refused(b"", "not an ELF file")
        self.refused(b"mcproof 1\n", "not an ELF file")

    def test_other_kinds(self):
        data = bytearray(samples.elf_file())
        data[4] = 1
        self.refused(data, "32 bits")
        data[4:6] = 2, 2
        self.refused(data, "high byte first")
        self.refused(samples.elf_file(machine=62), "machine 62, not of RISC-V")
        self.refused(samples.elf_file(kind=4), "type 4")

    def test_wrong_headers(self):
        for place, form, value, why in (
            (54, "<H", 32, "program headers have 32 bytes"),
            (58, "<H", 40, "section headers have 40 bytes"),
            (32, "<Q", 1 << 40, "program header 0"),
            (40, "<Q", 1 << 40, "section header 0"),
            (64 + 8, "<Q", 1 << 40, "segment 0 don't lie in the file"),
            (64 + 40, "<Q", 1, "sizes of segment 0"),
            (64 + 16, "<Q", 2**64 - 1, "sizes of segment 0"),
            (62, "<H", 1, "a name of its tables has no end"),
        ):
            data = bytearray(samples.elf_file())
            struct.pack_into(form, data, place, value)
            self.refused(data, why)

    def test_each_front_is_refused_or_read(self):
        """No front of the file, and no file with one byte changed, makes another error than BadElf."""
        whole = samples.elf_file()
        self.refused(whole[:63], "the header")
        for count in range(len(whole)):
            for data in (whole[:count], whole[:count] + bytes([whole[count] ^ 0xFF]) + whole[count + 1 :]):
                try:
                    image = elf.parse(data, "made.elf")
                    image.bytes_at(0x11000, 24), image.section_at(0x11000), image.functions
                except elf.BadElf:
                    pass


class OfTheExamples(unittest.TestCase):
    def test_the_code_that_the_tutorial_shows(self):
        page = (samples.TOP / "docs" / "TUTORIAL.md").read_text(encoding="utf8")
        shown = re.findall(r"^([0-9a-f]{5}): ((?:[0-9a-f]{2} )+)", page, re.M)
        image = elf.read(samples.EXAMPLES / "gcd" / "gcd.elf")
        self.assertEqual(len(shown), 7)
        for address, found in shown:
            self.assertEqual(image.bytes_at(int(address, 16), len(found.split())), bytes.fromhex(found))

    @unittest.skipUnless(shutil.which("readelf"), "binutils isn't there")
    def test_symbols_as_readelf_prints_them(self):
        for path in sorted(samples.EXAMPLES.glob("*/*.elf")):
            told = subprocess.run(["readelf", "-sW", path], capture_output=True, text=True).stdout
            rows = re.findall(r"^ +\d+: ([0-9a-f]{16}) +(\d+) (FUNC|OBJECT|NOTYPE) +\w+ +\w+ +(?:\d+|ABS) (\S+)", told, re.M)
            expected = [(name, int(address, 16), int(size), kind == "FUNC") for address, size, kind, name in rows]
            self.assertEqual([(s.name, s.address, s.size, s.is_function) for s in elf.read(path).symbols], expected, path)

    @unittest.skipUnless(shutil.which("objdump"), "binutils isn't there")
    def test_bytes_as_objdump_prints_them(self):
        for path in sorted(samples.EXAMPLES.glob("*/*.elf")):
            told = subprocess.run(["objdump", "-s", "-j", ".text", path], capture_output=True, text=True).stdout
            rows = re.findall(r"^ ([0-9a-f]+) ((?:[0-9a-f]+ ){1,4})", told, re.M)
            self.assertTrue(rows)
            for address, words in rows:
                found = bytes.fromhex(words.replace(" ", ""))
                self.assertEqual(elf.read(path).bytes_at(int(address, 16), len(found)), found, path)


if __name__ == "__main__":
    unittest.main()
