#!/usr/bin/env python3
"""tools/gate.py [NAME ..]: runs `rt ci` at the top of the repository, and writes what it took into bench/gate.json.
tools/gate.py --table: that file as a table, the dearest crate first.

Once a second it looks at the processes that `rt ci` has begun, and counts the processor seconds of each for a crate: its proof,
its tests' proof, its wrong bodies, and the rest (compilers, linkers, programs and tests that run). Crates that an earlier run
has kept are not proved again, so a table of all crates comes from a machine that has kept nothing.
"""
import collections
import datetime
import json
import os
import pathlib
import re
import subprocess
import sys
import tempfile
import time

TOP = pathlib.Path(__file__).resolve().parent.parent
TABLE = TOP / "bench" / "gate.json"
TICKS = os.sysconf("SC_CLK_TCK")
KINDS = ("proof", "tests", "edits", "rest")


class Process:
    """What is known of a process: whose child it is, what it works at, and its processor seconds so far."""

    def __init__(self, number):
        with open(f"/proc/{number}/stat") as file:
            fields = file.read().rpartition(")")[2].split()
        self.parent = int(fields[1])
        self.seconds = (int(fields[11]) + int(fields[12])) / TICKS
        self.begun = fields[19]
        with open(f"/proc/{number}/cmdline") as file:
            self.words = file.read().split("\0")
        self.folder = os.readlink(f"/proc/{number}/cwd")

    def crate_and_kind(self):
        program = os.path.basename(self.words[0])
        if program == "rattle" and "--crate-name" in self.words:
            crate = self.words[self.words.index("--crate-name") + 1]
            if any("/rt-edit" in word for word in (self.folder, *self.words)):
                return crate, "edits"
            return crate, "tests" if "--test" in self.words else "proof"
        crate = re.search(r"/crates/(\w+)", self.folder)
        return (crate[1] if crate else ""), "rest"


def processes():
    found = {}
    for name in os.listdir("/proc"):
        if name.isdigit():
            try:
                found[int(name)] = Process(name)
            except (OSError, ValueError, IndexError):
                continue
    return found


def below(found, root):
    """The numbers of the processes that this one, or one that it began, has begun, with its own."""
    children = collections.defaultdict(list)
    for number, process in found.items():
        children[process.parent].append(number)
    numbers, waiting = [], [root]
    while waiting:
        number = waiting.pop()
        numbers.append(number)
        waiting += children[number]
    return numbers


def run(names):
    """Runs the gate; gives its status, its last line, and the seconds of each crate and kind."""
    seconds, begun = {}, time.time()
    with tempfile.TemporaryFile("w+") as told:
        with subprocess.Popen(["rt", "ci", *names], cwd=TOP, stdout=told) as gate:
            while gate.poll() is None:
                found = processes()
                for number in below(found, gate.pid):
                    if number in found:
                        process = found[number]
                        seconds[number, process.begun] = (*process.crate_and_kind(), process.seconds)
                time.sleep(1)
        told.seek(0)
        said = told.read()
    sys.stdout.write(said)
    table = collections.defaultdict(lambda: dict.fromkeys(KINDS, 0.0))
    for crate, kind, spent in seconds.values():
        table[crate or "rt"][kind] += spent
    return gate.returncode, said.strip().split("\n")[-1], table, time.time() - begun


def write(last, table, wall):
    kit = subprocess.run(["rt", "version"], capture_output=True, text=True).stdout.strip()
    rows = [{"crate": crate, **{kind: round(spent[kind]) for kind in KINDS}} for crate, spent in table.items()]
    rows.sort(key=lambda row: -sum(row[kind] for kind in KINDS))
    result = {
        "kit": kit,
        "day": datetime.date.today().isoformat(),
        "processors": len(os.sched_getaffinity(0)),
        "jobs": os.environ.get("RT_JOBS", ""),
        "wall": round(wall),
        "seconds": sum(row[kind] for row in rows for kind in KINDS),
        "said": last,
        "crates": rows,
    }
    TABLE.write_text(json.dumps(result, indent=1) + "\n")
    return result


def show(result):
    print(f"{result['kit']}, {result['day']}: {result['said']}; {result['seconds']} processor seconds, {result['wall']} seconds of {result['processors']} processors")
    print(f"{'':20}" + "".join(f"{kind:>8}" for kind in (*KINDS, "all")))
    for row in result["crates"]:
        print(f"{row['crate']:20}" + "".join(f"{row[kind]:8}" for kind in KINDS) + f"{sum(row[kind] for kind in KINDS):8}")


def main(arguments):
    if arguments == ["--table"]:
        show(json.loads(TABLE.read_text()))
        return 0
    if arguments and arguments[0].startswith("-"):
        print(__doc__)
        return 2
    status, last, table, wall = run(arguments)
    show(write(last, table, wall))
    return status


if __name__ == "__main__":
    sys.exit(main(sys.argv[1:]))
