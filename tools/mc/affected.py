"""usage: mc affected [REVISION]

Tells which crates the prover has to look at again: those with a file that differs from REVISION
(HEAD where none is given), files that git doesn't know included, and those that stand on them, in
the order of crates.txt, in which they are proved. A crate whose line in crates.txt differs counts
as changed. Where tools/gate.py has written bench/gate.json, it tells the processor seconds that
each crate took last: of its proof, of its tests' proof, of its wrong bodies, of the rest, and of
all.
"""
import json
import pathlib
import re
import subprocess
import sys

import crates
import gate

TOP = pathlib.Path(__file__).resolve().parent.parent.parent


def git(*words):
    """What git prints."""
    done = subprocess.run(["git", "-C", str(TOP), *words], capture_output=True, text=True)
    if done.returncode:
        raise ValueError(done.stderr.strip())
    return done.stdout


def changed_files(revision):
    """The paths that differ from a revision."""
    differing = git("diff", "--name-only", revision, "--")
    unknown = git("ls-files", "--others", "--exclude-standard")
    return sorted({*differing.splitlines(), *unknown.splitlines()})


def lines_of(text):
    """The line of each crate in a text like crates.txt."""
    return dict(re.findall(r"^(\w+):(.*)$", text, re.M))


def changed_crates(revision):
    """The crates that differ from a revision."""
    paths = changed_files(revision)
    found = {path.split("/")[1] for path in paths if path.startswith("crates/")}
    if "crates.txt" in paths:
        before = lines_of(git("show", f"{revision}:crates.txt"))
        now = lines_of((TOP / "crates.txt").read_text(encoding="utf8"))
        found |= {crate for crate, uses in now.items() if before.get(crate) != uses}
    return found


def with_those_above(changed, uses):
    """These crates and all that stand on them, in the order of `uses`."""
    found, before = set(changed), None
    while before != found:
        before = set(found)
        found |= {crate for crate, used in uses.items() if found.intersection(used)}
    return [crate for crate in uses if crate in found]


def times():
    """The seconds that each crate took last, by kind."""
    if not gate.TABLE.exists():
        return {}
    rows = json.loads(gate.TABLE.read_text(encoding="utf8"))["crates"]
    return {row["crate"]: [row[kind] for kind in gate.KINDS] for row in rows}


def row(mark, name, width, seconds):
    """A line of the table: a crate, its seconds by kind, and their sum."""
    shown = "".join(f"{value:8}" for value in [*seconds, sum(seconds)]) if seconds else ""
    return f"{mark} {name:{width}}{shown}".rstrip()


def table(affected, changed, took):
    """A line for each crate, and one for all of them."""
    width = max(len(name) for name in [*affected, "all"])
    lines = [row("*" if crate in changed else " ", crate, width, took.get(crate)) for crate in affected]
    if not took:
        return lines
    head = f"  {'':{width}}" + "".join(f"{kind:>8}" for kind in [*gate.KINDS, "all"])
    known = [took[crate] for crate in affected if crate in took]
    return [head, *lines, row(" ", "all", width, [sum(values) for values in zip(*known)])]


def main(arguments):
    if len(arguments) > 1 or any(word.startswith("-") for word in arguments):
        print(__doc__.strip(), file=sys.stderr)
        return 2
    try:
        changed = changed_crates(*arguments or ["HEAD"])
    except ValueError as why:
        print(f"mc affected: {why}", file=sys.stderr)
        return 1
    affected = with_those_above(changed, crates.layers()[2])
    if not affected:
        print("no crate is changed")
        return 0
    took = times()
    print("\n".join(table(affected, changed, took)))
    told = " Processor seconds as of bench/gate.json." if took else ""
    print(f"\n{len(affected)} crates; * has changes itself.{told}")
    return 0
