#!/usr/bin/env python3
"""selftest.py [PROGRAM] [COUNT [LARGEST]]: runs the command `selftest` of a built program on many numbers and sizes, and says which was the slowest.

COUNT numbers are tried, 1,000 where it isn't given, at the sizes from 1 to LARGEST, 600 where that isn't given, one after the other and again; then
numbers at the ends of 64 bits. Each run must end with status 0 and with a line of the one form, with at most 2K turns. As many run at a time as there
are processors. The exit status is 1 where one ends otherwise.
"""
import os
import re
import subprocess
import sys
import time
from concurrent.futures import ThreadPoolExecutor

sys.path.insert(0, os.path.join(os.path.dirname(os.path.abspath(__file__)), "..", "library"))
from programs import numbers, program_of

LINE = re.compile(
    rb"selftest (\d+) (\d+) instructions (\d+) defs (\d+) steps (\d+) turns (\d+) x10 0x(0|[1-9a-f][0-9a-f]*)\n"
)
MOST_STEPS = (1 << 20) - 1
LAST = (1 << 64) - 1


def is_right(number, size, status, out):
    """Whether the run ended well, with the line of this number and size."""
    match = LINE.fullmatch(out)
    if status != 0 or match is None:
        return False
    told, of, _, _, steps, turns = (int(match[i]) for i in range(1, 7))
    return (told, of) == (number, size) and turns <= 2 * steps and steps <= MOST_STEPS


def cases(count, largest):
    for k in range(count):
        size = 1 + k % largest
        yield size * 1009 + k // largest, size
    for number in (LAST, LAST - 1, 1 << 63, 0):
        for size in sorted({min(size, largest) for size in (1, 2, 77, 300, 600)}):
            yield number, size


def run(program, number, size):
    """How a run ended, and the seconds that it took."""
    start = time.perf_counter()
    done = subprocess.run([program, "selftest", str(number), str(size)], capture_output=True)
    return number, size, done.returncode, done.stdout, time.perf_counter() - start


def main():
    program, words = program_of(__doc__, sys.argv[1:], most=2)
    count, largest = numbers(words, 1000, 600)
    start = time.perf_counter()
    runs, failed, slowest = 0, 0, (0.0, 0, 0)
    with ThreadPoolExecutor(os.cpu_count()) as pool:
        for number, size, status, out, took in pool.map(lambda case: run(program, *case), cases(count, largest)):
            runs, slowest = runs + 1, max(slowest, (took, number, size))
            if not is_right(number, size, status, out):
                failed += 1
                print(f"selftest {number} {size}: status {status}, {out[:120]!r}")
    took, number, size = slowest
    print(f"{runs} runs, {failed} failed, {time.perf_counter() - start:.1f} s; the slowest, of {number} and {size}, took {took:.2f} s")
    return 1 if failed else 0


if __name__ == "__main__":
    sys.exit(main())
