"""Files for tests: where the examples stand, and a small ELF file made by hand, which has each thing that the reader is to find."""
import contextlib
import io
import os
import pathlib
import struct
import subprocess

from mc import main

TOP = pathlib.Path(__file__).resolve().parents[2]
EXAMPLES = TOP / "examples"
PROOFS = ("average/average", "days/days", "gcd/gcd", "linked/lcm", "split/swap", "strlen/strlen", "sum/sum")

CODE = bytes.fromhex("8280")  # ret
TABLE = struct.pack("<4H", 0x1021, 0x2042, 0x3063, 0x4084)
COUNTER = struct.pack("<Q", 7)
CODE_AT, TABLE_AT, COUNTER_AT, ZEROS_AT = 0x10000, 0x10100, 0x11000, 0x11008


def mc(*words, cwd="/"):
    """What `./mc` does with these words, in this process: the exit status, the output and the errors."""
    out, errors, here = io.StringIO(), io.StringIO(), os.getcwd()
    os.chdir(cwd)
    try:
        with contextlib.redirect_stdout(out), contextlib.redirect_stderr(errors):
            status = main.main([str(word) for word in words])
    except SystemExit as end:
        status = end.code
    finally:
        os.chdir(here)
    return status, out.getvalue(), errors.getvalue()


def script(*words, cwd="/"):
    """The same by the script itself."""
    done = subprocess.run([TOP / "mc", *map(str, words)], capture_output=True, text=True, cwd=cwd)
    return done.returncode, done.stdout, done.stderr


def elf_file(kind=2, machine=243, symbol_table=2, names=("f", "table", "counter", "zeros")):
    """An ELF file: `f` at 0x10000 in a segment that may be executed, `table` at 0x10100 in one that may be read, `counter` at 0x11000 in one that may be
    written, which has `zeros` behind its bytes of the file. `symbol_table` is the type of the section with the symbols: 2, or 11 for the dynamic one."""
    parts, places = [CODE, TABLE, COUNTER], []
    data = bytearray(64 + 3 * 56)
    for part in parts:
        places.append(len(data))
        data += part
    strings = b"\0" + b"".join(name.encode() + b"\0" for name in names)
    sections = b"\0.text\0.rodata\0.data\0.bss\0.names\0.symbols\0.strings\0"
    addresses = (CODE_AT, TABLE_AT, COUNTER_AT, ZEROS_AT)
    symbols = bytes(24)
    for name, address, size, form, section in zip(names, addresses, (2, 8, 8, 16), (2, 1, 1, 1), (1, 2, 3, 4)):
        symbols += struct.pack("<IBBHQQ", strings.index(b"\0" + name.encode() + b"\0") + 1, form, 0, section, address, size)
    tables = []
    for table in (sections, symbols, strings):
        tables.append((len(data), len(table)))
        data += table
    headers = [(0, 0, 0, 0, 0, 0, 0, 0, 0, 0)]
    for name, flags, address, place, size in ((".text", 6, CODE_AT, places[0], 2), (".rodata", 2, TABLE_AT, places[1], 8), (".data", 3, COUNTER_AT, places[2], 8)):
        headers.append((sections.index(name.encode() + b"\0"), 1, flags, address, place, size, 0, 0, 1, 0))
    headers.append((sections.index(b".bss\0"), 8, 3, ZEROS_AT, len(data), 16, 0, 0, 1, 0))
    headers.append((sections.index(b".names\0"), 3, 0, 0, *tables[0], 0, 0, 1, 0))
    headers.append((sections.index(b".symbols\0"), symbol_table, 0, 0, *tables[1], 7, 0, 8, 24))
    headers.append((sections.index(b".strings\0"), 3, 0, 0, *tables[2], 0, 0, 1, 0))
    section_headers = len(data)
    for header in headers:
        data += struct.pack("<IIQQQQIIQQ", *header)
    data[:64] = struct.pack("<16sHHIQQQIHHHHHH", b"\x7fELF\2\1\1", kind, machine, 1, CODE_AT, 64, section_headers, 0, 64, 56, 3, 64, len(headers), 5)
    for k, (flags, address, place, size, memory) in enumerate(((5, CODE_AT, places[0], 2, 2), (4, TABLE_AT, places[1], 8, 8), (6, COUNTER_AT, places[2], 8, 24))):
        struct.pack_into("<IIQQQQQQ", data, 64 + 56 * k, 1, flags, place, address, address, size, memory, 1)
    return bytes(data)
