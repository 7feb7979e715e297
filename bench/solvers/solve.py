#!/usr/bin/env python3
"""solve.py [--seconds S] [--runs N] [--keep FOLDER] [--results FILE] [NAME ..]: what z3 and cvc5 say of the goals in goals/, and in how many seconds.

Each goal is a property of functions of functions.elf or calls.elf, with a wrong one that is near to it: a solver must say `unsat` of the first and `sat` of the
second. goals.py says how goals are written; `./mc goal` makes their scripts. With NAME, these goals alone. One solver runs at a time; a solver that isn't
installed is passed over.

    --seconds S      seconds of a processor that a solver has for a script (120)
    --runs N         where a script takes less than five seconds, the least of N runs is told (2)
    --keep FOLDER    the scripts are left there, NAME.smt2 and NAME.wrong.smt2, and the functions' definitions, which are taken from there again
    --scripts        no solver is asked
    --results FILE   a line of JSON for each goal is put behind those that are in FILE

The exit status is 1 where an answer is another than it must be; where a solver has none within the limit, the table has a dash.
"""
import argparse
import json
import os
import shutil
import sys
import tempfile

FOLDER = os.path.dirname(os.path.abspath(__file__))
sys.path += [os.path.join(FOLDER, "..", "..", "tools"), os.path.join(FOLDER, "..", "library")]
import goals
from mc import prove, smt
from measuring import measure_work

SOLVERS = {"z3": ["-smt2"], "cvc5": ["--lang=smt2"]}
EXPECTED = {"claim": "unsat", "wrong": "sat"}
MEMORY = 8 << 30
SHORT = 5


def with_logic(text):
    """The script with its logic named, as `./mc prove` does."""
    logic = prove.logic_of(smt.parse(text))
    return (f"(set-logic {logic})\n" if logic else "") + text


def solve(solver, path, seconds, runs):
    """What the solver says of a script, `-` where it says nothing in time, and the least seconds of so many runs."""
    least, word = None, "-"
    for _ in range(runs):
        with tempfile.TemporaryDirectory() as folder:
            status, word, took, _ = measure_work(shutil.which(solver), [*SOLVERS[solver], path], seconds, MEMORY, os.path.join(folder, "said"))
        least = took if least is None else min(least, took)
        if status < 0 or took >= SHORT:
            return ("-" if status < 0 else word), least
    return word, least


def try_goal(bench, described, given, folder):
    """The answers of all solvers to each part of a goal, and to its wrong claim: pairs of a part's name and a word and seconds for each kind and solver."""
    for part, pair in bench.scripts(described).items():
        found = {}
        for kind, script in zip(EXPECTED, pair):
            path = os.path.join(folder, ".".join([described.name, *([part] if part else []), *([kind] if kind == "wrong" else []), "smt2"]))
            if script is None:
                continue
            with open(path, "w", encoding="utf8") as file:
                file.write(with_logic(script))
            if not given.scripts:
                found |= {f"{kind} {solver}": solve(solver, path, given.seconds, given.runs) for solver in SOLVERS if shutil.which(solver)}
        yield part, found


def cell(kind, answer):
    """A cell of the table: the seconds, with the answer where it is another than it must be."""
    if answer is None:
        return ""
    word, seconds = answer
    return "-" if word == "-" else f"{seconds:.2f}" + ("" if word == EXPECTED[kind] else f" {word[:60]}")


def main():
    parser = argparse.ArgumentParser(usage=__doc__)
    parser.add_argument("--seconds", type=int, default=120)
    parser.add_argument("--runs", type=int, default=2)
    parser.add_argument("--keep")
    parser.add_argument("--scripts", action="store_true")
    parser.add_argument("--results")
    parser.add_argument("names", nargs="*")
    given = parser.parse_args()
    columns = [(kind, solver) for kind in EXPECTED for solver in SOLVERS if shutil.which(solver)]
    print("".join(f"{kind + ' ' + solver:>12}" for kind, solver in columns) + f"    seconds of a processor; - is over {given.seconds}", flush=True)
    faults = 0
    with tempfile.TemporaryDirectory() as work:
        folder = given.keep or work
        os.makedirs(folder, exist_ok=True)
        bench = goals.Bench(folder)
        described_goals = [goals.read(name) for name in given.names or goals.names()]
        bench.prepare(described_goals)
        for described in described_goals:
            for part, found in try_goal(bench, described, given, folder):
                faults += sum(word not in ("-", EXPECTED[key.split()[0]]) for key, (word, _) in found.items())
                cells = "".join(f"{cell(kind, found.get(f'{kind} {solver}')):>12}" for kind, solver in columns)
                print(f"{cells}    {described.name}{', ' * bool(part)}{part}: {described.one('title')}", flush=True)
                if given.results:
                    with open(given.results, "a", encoding="utf8") as file:
                        print(json.dumps({"name": described.name, "part": part, **found}), file=file)
    print(f"{faults} answers otherwise than they must be")
    return 1 if faults else 0


if __name__ == "__main__":
    sys.exit(main())
