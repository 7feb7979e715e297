#!/usr/bin/env python3
"""The cases of the commands: crates/cases/stdin, which the program `cases` reads, has behind each of its commands what it is to print.

    tools/cases.py                   writes that into crates/cases/stdout, with which `rt ci` compares what the program prints
    tools/cases.py --check           fails where another text stands there
    tools/cases.py --compare FILE    shows by cases where a file with what the program printed differs

crates/cases/src/main.rt says what the lines mean. A line whose word is in ECHOED is printed as it stands, one behind `> ` without
these two characters, and no other one is.
"""
import os
import sys

CASES = os.path.join(os.path.dirname(os.path.dirname(os.path.abspath(__file__))), "crates", "cases")
ECHOED = ("case", "run", "fronts", "spoil", "show", "head", "pick", "sort", "front")


def expected():
    with open(os.path.join(CASES, "stdin"), encoding="utf-8") as file:
        lines = file.read().split("\n")
    out = [line.removeprefix("> ") for line in lines if line.startswith("> ") or line.split(" ")[0] in ECHOED]
    return "".join(line + "\n" for line in out)


def by_case(text):
    """The lines of each case by its heading."""
    cases, current = {}, None
    for line in text.split("\n"):
        if line.startswith("case "):
            current = line if line not in cases else f"{line} (again)"
            cases[current] = []
        elif current is not None:
            cases[current].append(line)
    return cases


def compare(path):
    """Prints the first lines of each case that differ. Whether there are any."""
    with open(path, encoding="utf-8", errors="backslashreplace") as file:
        wanted, got = by_case(expected()), by_case(file.read())
    differ = False
    for case, lines in wanted.items():
        printed = got.get(case, [])
        if lines != printed:
            differ = True
            place = next((i for i, pair in enumerate(zip(lines, printed)) if pair[0] != pair[1]), min(len(lines), len(printed)))
            print(case)
            print("  wanted:", *lines[max(place - 2, 0) : place + 3], sep="\n    ")
            print("  printed:", *printed[max(place - 2, 0) : place + 3], sep="\n    ")
    return differ


def main():
    path = os.path.join(CASES, "stdout")
    if sys.argv[1:] == []:
        with open(path, "w", encoding="utf-8") as file:
            file.write(expected())
    elif sys.argv[1:] == ["--check"]:
        with open(path, encoding="utf-8") as file:
            if file.read() != expected():
                sys.exit("crates/cases/stdout isn't what crates/cases/stdin says: write it by tools/cases.py")
    elif len(sys.argv) == 3 and sys.argv[1] == "--compare":
        sys.exit(1 if compare(sys.argv[2]) else 0)
    else:
        sys.exit(__doc__)


if __name__ == "__main__":
    main()
