#!/usr/bin/env python3
"""The documents: layout, links, and what they say of crates and of figures.

    tools/documents.py --check    tells each line of a document that is too wide, each link and each
                                  path that leads nowhere, what README.md lacks, and where the
                                  documents differ from crates.txt and from the crates
    tools/documents.py --write    wraps the prose of the documents at 100 columns

A line of prose or of a table has at most 100 columns. Wider may be code blocks, a line that is a
link, and a table under a line `<!-- wide table -->`. A link is `[text](path#heading)`; a path is
what stands in backticks and begins with `crates/`, `docs/`, `tools/`, `bench/` or `examples/`.
"""
import pathlib
import re
import sys

import crates
from wrapping import WIDTH, wrapped_page

TOP = pathlib.Path(__file__).resolve().parent.parent
FOLDERS = ("", "docs", "examples", "examples/rules", "bench", "bench/solvers",
           "bench/comparison/second_checker")
WIDE_TABLE = "<!-- wide table -->"
README_LIMIT = 9000
PATH = re.compile(r"`((?:crates|docs|tools|bench|examples)/[\w./]+)[` ]")
LINK = re.compile(r"\]\(([^)\s]+)\)")
FENCED = re.compile(r"^```.*?^```$", re.M | re.S)


def documents():
    """The documents by their names, from README.md on."""
    found = {}
    for folder in FOLDERS:
        for path in sorted((TOP / folder).glob("*.md")):
            found[str(path.relative_to(TOP))] = path.read_text(encoding="utf8")
    return found


def too_wide(page):
    """The numbers of the lines of a page that are too wide."""
    fenced = wide_table = False
    for number, line in enumerate(page.split("\n"), 1):
        is_fence = line.lstrip().startswith("```")
        fenced = fenced != is_fence
        if line == WIDE_TABLE:
            wide_table = True
        elif line.strip() and not line.startswith("|"):
            wide_table = False
        may_be_wide = fenced or is_fence or wide_table or line.startswith("<!--")
        if len(line) > WIDTH and not may_be_wide and not re.fullmatch(r" *\S+", line):
            yield number


def anchor(heading):
    """The name of a heading in links."""
    return re.sub(r"[^\w\- ]", "", heading.strip().lower()).replace(" ", "-")


def anchors(page):
    return {anchor(heading) for heading in re.findall(r"^#+ (.*)", FENCED.sub("", page), re.M)}


def is_made(path):
    """Whether the path is one of a file that a command writes, or stands for several."""
    name = path.split("/")[-1]
    stands_for_several = re.search(r"\b[A-Z]{4}", name) and not name.endswith(".md")
    return re.match(r"crates/\w+/out/", path) or stands_for_several


def missing(name, pages):
    """The links and the paths of a document that lead nowhere."""
    page, folder = pages[name], (TOP / name).parent
    for link in LINK.findall(page):
        path, _, heading = link.partition("#")
        target = (folder / path).resolve()
        if "://" in link:
            continue
        if path and not target.exists():
            yield link
        elif heading and heading not in anchors(target.read_text(encoding="utf8") if path else page):
            yield link
    for path in PATH.findall(page):
        if not is_made(path) and not (TOP / path).exists():
            yield path


def layout_faults(pages):
    for name, page in pages.items():
        for number in too_wide(page):
            yield f"{name}, line {number}: more than {WIDTH} columns"
        for link in missing(name, pages):
            yield f"{name}: {link} leads nowhere"


def readme_faults(pages):
    """What README.md lacks, and the figures in it that aren't those of other documents."""
    readme = pages["README.md"]
    size = len(readme.encode())
    if size > README_LIMIT:
        yield f"README.md has {size} bytes, more than {README_LIMIT}"
    headline = re.search(r"`run_words`, `headline`: ([\d,]+) lines", pages["docs/DEFINITIONS.md"])
    if not headline or f"stands on {headline[1]} lines" not in readme:
        yield "README.md has another number of lines for row 4 than docs/DEFINITIONS.md"
    for layer in crates.layers()[0]:
        if not re.search(rf"^\| {re.escape(layer)} \| ", readme, re.M):
            yield f"README.md has no row for the layer {layer}"
    example = (TOP / "examples" / "gcd" / "gcd.txt").read_text(encoding="utf8")
    shown = re.search(r"^```\n(d0, .*?)^```$", readme, re.M | re.S)
    if not shown or shown[1] not in example:
        yield "README.md shows other definitions of gcd than examples/gcd/gcd.txt"
    for name in ("gcd.c", "gcd.elf"):
        copies = [TOP / "crates" / "mcdec" / "data" / name, TOP / "examples" / "gcd" / name]
        if len({path.read_bytes() for path in copies}) > 1:
            yield f"crates/mcdec/data/{name} is another than examples/gcd/{name}"


def sources(crate):
    """The code of a crate."""
    files = sorted((crates.CRATES / crate / "src").rglob("*.rt"))
    return "\n".join(path.read_text(encoding="utf8") for path in files)


def promise_faults(pages):
    """Where the crates of PROMISES.md, and the calls that it names, aren't those of the crates."""
    section = pages["docs/PROMISES.md"].partition("## Crate by crate")[2].partition("\n## ")[0]
    items = [" ".join(item.split()) for item in re.split(r"\n- ", section)[1:]]
    named, told = [], {}
    for item in items:
        heads = re.match(r"\*\*(\w+)\*\*:|([\w, ]+):", item)
        names = (heads[1] or heads[2]).split(", ")
        _, calls, listed = item.rpartition(" Calls: ")
        named += names
        told[names[0]] = re.findall(r"`(\w+)(?:::\w+)?`", listed) if calls else []
    _, layers, _ = crates.layers()
    order = [crate for names in layers.values() for crate in names]
    if named != order:
        different = ", ".join(sorted(set(named).symmetric_difference(order))) or "their order"
        yield f"docs/PROMISES.md and crates.txt differ in {different}"
    for crate, names in told.items():
        code = sources(crate)
        for name in names:
            if not re.search(rf"\bpub (?:fn|struct|enum|trait) {name}\b", code):
                yield f"docs/PROMISES.md names {name}, which {crate} has not as a public item"


def faults():
    pages = documents()
    yield from layout_faults(pages)
    yield from readme_faults(pages)
    yield from crates.faults()
    yield from promise_faults(pages)


def main():
    if sys.argv[1:] == ["--check"]:
        wrong = list(faults())
        if wrong:
            sys.exit("\n".join(wrong))
    elif sys.argv[1:] == ["--write"]:
        for name, page in documents().items():
            (TOP / name).write_text(wrapped_page(page), encoding="utf8")
    else:
        sys.exit(__doc__)


if __name__ == "__main__":
    main()
