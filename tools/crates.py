#!/usr/bin/env python3
"""The crates in their layers, each by the first paragraph of its head comment.

    tools/crates.py            prints the list
    tools/crates.py --write    writes it into docs/ARCHITECTURE.md, between its marks
    tools/crates.py --check    fails where the document would be written otherwise, and where
                               crates.txt has other crates than the folders of crates/

The layers and their order are those of crates.txt. A head comment is what stands behind `//!` in a
crate's root file, `src/lib.rt` or `src/main.rt`.
"""
import os
import pathlib
import re
import sys

from wrapping import wrapped

TOP = pathlib.Path(__file__).resolve().parent.parent
CRATES = TOP / "crates"
LIST = TOP / "crates.txt"
DOCUMENT = TOP / "docs" / "ARCHITECTURE.md"
BEGIN, END = "<!-- crates.py: begin -->\n", "<!-- crates.py: end -->\n"


def layers():
    """The layers of crates.txt by name, each with its title and its crates, and the libraries of
    each crate."""
    titles, crates, uses = {}, {}, {}
    for line in LIST.read_text(encoding="utf8").splitlines():
        head = re.match(r"# (\S+): (.*)", line)
        crate, colon, libraries = line.partition(":")
        if head:
            layer = head[1]
            titles[layer], crates[layer] = head[2], []
        elif colon and not line.startswith("#"):
            crates[layer].append(crate)
            uses[crate] = libraries.split()
    return titles, crates, uses


def head_of(crate):
    """The first paragraph of a crate's head comment."""
    roots = [CRATES / crate / "src" / name for name in ("lib.rt", "main.rt")]
    root = next(path for path in roots if path.exists())
    words = []
    for line in root.read_text(encoding="utf8").splitlines():
        if not line.startswith("//!") or not line[3:].strip():
            break
        words.append(line[3:].strip())
    return " ".join(words)


def listed():
    """The layers with their crates, as Markdown."""
    titles, crates, _ = layers()
    lines = []
    for layer, title in titles.items():
        lines += [f"### {layer}", "", *wrapped(f"{title[0].upper()}{title[1:]}."), ""]
        for crate in crates[layer]:
            lines += wrapped(f"`{crate}`: {head_of(crate)}", "- ", "  ")
        lines.append("")
    return "\n".join(lines)


def written(document):
    """The document with the list between its marks."""
    before, begin, rest = document.partition(BEGIN)
    _, end, after = rest.partition(END)
    if not begin or not end:
        sys.exit("docs/ARCHITECTURE.md has no marks of tools/crates.py")
    return before + BEGIN + "\n" + listed() + END + after


def faults():
    """What is wrong with crates.txt, and with the list in the document."""
    _, crates, _ = layers()
    order = [crate for names in crates.values() for crate in names]
    folders = sorted(os.listdir(CRATES))
    if sorted(order) != folders:
        different = set(order).symmetric_difference(folders)
        yield f"crates.txt and crates/ differ in {', '.join(sorted(different))}"
    document = DOCUMENT.read_text(encoding="utf8")
    if document != written(document):
        yield "docs/ARCHITECTURE.md is to be written anew: tools/crates.py --write"


def main():
    if not sys.argv[1:]:
        print(listed(), end="")
    elif sys.argv[1:] == ["--write"]:
        document = written(DOCUMENT.read_text(encoding="utf8"))
        DOCUMENT.write_text(document, encoding="utf8")
    elif sys.argv[1:] == ["--check"]:
        wrong = list(faults())
        if wrong:
            sys.exit("\n".join(wrong))
    else:
        sys.exit(__doc__)


if __name__ == "__main__":
    main()
