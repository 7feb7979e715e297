"""How long a program takes, and how much memory."""
import os
import re
import resource
import subprocess
import sys

from programs import numbers, program_of

MIB = 1 << 20


# GNU time. A process is born with the peak of the one that starts it, and this one is small.
TIMER = "/usr/bin/time"
COUNTER = ["valgrind", "--tool=cachegrind", "--cache-sim=no", "--cachegrind-out-file=/dev/null"]


def given_words(usage, elf):
    """The words of a script, [PROGRAM] [LARGEST [ELF]]: the program's whole path, a number, 1,024 where it isn't given, and an ELF file, `elf` where it isn't given."""
    program, words = program_of(usage, sys.argv[1:], most=2)
    (largest,) = numbers(words[:1], 1024)
    return program, largest, words[1] if len(words) > 1 else elf


def measure(program, arguments):
    """Runs the program, and gives its output, the seconds of a processor that it took and its peak in bytes. Where GNU time isn't installed, the peak is at
    least that of Python."""
    (output, write), (peak, tell) = os.pipe(), os.pipe()
    words, is_timed = [program, *arguments], os.path.exists(TIMER)
    if is_timed:
        words = [TIMER, "-q", "-o", f"/dev/fd/{tell}", "-f", "%M", *words]
    child = os.fork()
    if child == 0:
        os.dup2(write, 1)
        os.set_inheritable(tell, True)
        os.execv(words[0], words)
    os.close(write)
    os.close(tell)
    with os.fdopen(output, "rb") as file:
        lines = file.read()
    _, _, usage = os.wait4(child, 0)
    with os.fdopen(peak) as file:
        kilobytes = int(file.read().split()[-1]) if is_timed else usage.ru_maxrss
    return lines, usage.ru_utime + usage.ru_stime, kilobytes * 1024


def executed(program, arguments):
    """Runs the program under Valgrind, and gives its output and how many instructions it executes."""
    told = subprocess.run([*COUNTER, program, *arguments], capture_output=True, text=True, check=False)
    return told.stdout, int(re.search(r"I\s+refs:\s+([\d,]+)", told.stderr)[1].replace(",", ""))


def measure_work(program, arguments, seconds, memory, path):
    """Runs the program with limits on seconds of a processor and on bytes of memory, its output in that file. Gives how it ended (its exit status, or less
    than 0 where it was killed), its first line, the seconds of a processor that it took and its peak in bytes."""
    file = os.open(path, os.O_RDWR | os.O_CREAT | os.O_TRUNC)
    actions = [(os.POSIX_SPAWN_DUP2, file, 1), (os.POSIX_SPAWN_DUP2, file, 2)]
    child = os.posix_spawn(program, [program, *arguments], os.environ, file_actions=actions)
    resource.prlimit(child, resource.RLIMIT_CPU, (seconds, seconds))
    resource.prlimit(child, resource.RLIMIT_AS, (memory, memory))
    _, status, usage = os.wait4(child, 0)
    line = os.pread(file, 200, 0).split(b"\n")[0].decode("latin-1")
    os.close(file)
    return os.waitstatus_to_exitcode(status), line, usage.ru_utime + usage.ru_stime, usage.ru_maxrss * 1024
