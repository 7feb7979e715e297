"""The program's eleven commands, passed on to it, with help on standard error.

The program's lines go to standard output as they are, and its status is that of `mc`. Before it runs, an OUT that is one of the files that are read, under
whatever path, is refused with status 2: nothing runs, and the file stays whole. `mc -v` shows the words as they are passed on.
"""
import os
import subprocess
import sys

from mc import advice, program
from mc.words import ARGUMENTS, COMMANDS, MEANINGS, READ, Reading, shown, usage_of

NOT_A_COMMAND = 2


def help_on(name):
    """The usage text of a command."""
    parameters = COMMANDS[name].parameters
    lines = [f"usage: mc {usage_of(name)}", "", f"The program's command `{name}`: {COMMANDS[name].says}.", ""]
    lines += [f"  {parameter.removesuffix('..'):7} {ARGUMENTS[name] if parameter == 'ARG..' else MEANINGS[parameter]}" for parameter in parameters]
    return "\n".join([*lines, "", f"docs/COMMANDS.md, section \"{usage_of(name)}\", has each line that it prints, and what to do about it."])


def say(*lines):
    for line in lines:
        print(f"mc: {line}", file=sys.stderr)


def one_file(one, other):
    """Whether two paths lead to one file: by links, by other spellings, or by two names of it."""
    if os.path.exists(one) and os.path.exists(other):
        return os.path.samefile(one, other)
    return os.path.realpath(one) == os.path.realpath(other)


def overwritten(reading):
    """Which of the files that are read OUT is, and its path, or None."""
    out = reading.files.get("OUT")
    for parameter in READ if out else ():
        path = reading.files.get(parameter)
        if path and path != out and one_file(path, out):
            return parameter, path
    return None


def explain(name, reading):
    """Says what is wrong with the words."""
    say(*reading.faults)
    print(f"usage: mc {usage_of(name)}    (`mc help {name}` says more)", file=sys.stderr)


def ended_by(status):
    """The status of a process as a shell tells it, which a signal may have ended."""
    if status < 0:
        say(f"the program was ended by signal {-status}")
    return status if status >= 0 else 128 - status


def main(arguments):
    """Runs a command. Gives the program's status, or 2 where nothing ran."""
    name, *words = arguments
    if words[:1] == ["-h"] or "--help" in words or words == ["help"]:
        print(help_on(name))
        return 0
    reading = Reading(name, words)
    both = overwritten(reading)
    if both is not None:
        parameter, path = both
        say(f"OUT {shown(reading.files['OUT'])} is the file {shown(path)} itself, which is read as {parameter}, and would be overwritten. Nothing ran; it is as it was")
        return NOT_A_COMMAND
    if reading.faults and program.find() is None:
        explain(name, reading)
        return NOT_A_COMMAND
    sys.stdout.flush()
    # OUT may be an open file of the shell's, as `>(command)` is.
    done = program.run(reading.words, stdout=subprocess.PIPE, close_fds=False)
    sys.stdout.buffer.write(done.stdout)
    sys.stdout.buffer.flush()
    say(*reading.warnings)
    if done.returncode == NOT_A_COMMAND and reading.faults:
        explain(name, reading)
    elif done.returncode > 0:
        lines = done.stdout.decode("utf8", "replace").splitlines()
        say(*advice.on(name, reading, done.returncode, lines[-1] if lines else ""))
    return ended_by(done.returncode)
