"""The table of what `./mc` does, and how its words lead to one of these modules."""
import difflib
import importlib
import importlib.util
import os
import signal
import sys

from mc import program
from mc.words import COMMANDS, usage_of

# Name, module, one line. A module has its usage text as its docstring, and a function main(arguments) that gives the exit status.
TOOLS = [
    ("build", "mc.build", "builds the program without proof, in a minute or two, and keeps it"),
    ("functions", "mc.functions", "which functions of an ELF file are inside, and why not"),
    ("show", "mc.show", "prints a proof file as a person reads it"),
    ("data", "mc.data", "what an ELF file holds at addresses, as words and assertions"),
    ("goal", "mc.goal", "makes one script for a solver of one or more functions"),
    ("loop", "mc.loop", "proves what a loop does, by an invariant, with z3 and cvc5"),
    ("prove", "mc.prove", "says whether a goal holds, by z3 and cvc5"),
    ("affected", "mc.affected", "which crates a change touches, in their order, and what each took last"),
]
OPTIONS = """  -v               shows on standard error what is passed on to the program, and the status that comes back
  --program PATH   takes that program; so does the environment's MCDEC. Else that which `rt run` or
                   `rt ci` proved, else that which `mc build` kept, else it is built first"""


def usage():
    """The text of `./mc` alone."""
    commands = [(usage_of(name), command.says) for name, command in COMMANDS.items()]
    width = max(len(words) for words, _ in commands)
    lines = ["usage: mc [-v] [--program PATH] NAME ..", "", "Tools:"]
    lines += [f"  {name:{width}}  {says}" for name, module, says in TOOLS if is_there(module)]
    lines += ["", "The program's commands, with help on standard error where the answer isn't a plain yes:"]
    lines += [f"  {words:{width}}  {says}" for words, says in commands]
    return "\n".join([*lines, "", "`mc help NAME` says more of each.", "", OPTIONS])


def is_there(module):
    return importlib.util.find_spec(module) is not None


def names():
    return [name for name, module, _ in TOOLS if is_there(module)] + list(COMMANDS)


def help_on(words):
    """`mc help` and `mc help NAME`."""
    if not words:
        print(usage())
        return 0
    name = words[0]
    if name in COMMANDS:
        from mc import commands

        print(commands.help_on(name))
        return 0
    module = next((module for tool, module, _ in TOOLS if tool == name and is_there(module)), None)
    if module is None:
        return unknown(name)
    print(importlib.import_module(module).__doc__.strip())
    return 0


def unknown(name):
    """Says that there is no such name, and which are near."""
    near = near_names(name)
    hint = f" Did you mean {' or '.join(near)}?" if near else ""
    print(f"mc: no command `{name}`.{hint} `mc` alone prints the list.", file=sys.stderr)
    return 2


def near_names(name):
    """The names that somebody who wrote this one may have meant."""
    lower = name.lower().lstrip("-")
    known = names()
    starts = [other for other in known if lower and (other.startswith(lower) or lower.startswith(other))]
    return list(dict.fromkeys([*starts, *difflib.get_close_matches(lower, known, 3, 0.6)]))[:3]


def options(words):
    """Takes the options before NAME, and gives the words from NAME on, or an exit status."""
    words = list(words)
    while words and words[0].startswith("-"):
        option = words.pop(0)
        if option in ("-h", "--help"):
            return help_on(words[:1])
        if option in ("-v", "--verbose"):
            program.verbose = True
        elif option == "--program" or option.startswith("--program="):
            path = option.partition("=")[2] if "=" in option else words.pop(0) if words else ""
            if not path:
                print("mc: --program wants the path of a program", file=sys.stderr)
                return 2
            os.environ[program.VARIABLE] = os.path.abspath(path)
        else:
            print(f"mc: no option `{option}` before NAME.\n{OPTIONS}", file=sys.stderr)
            return 2
    return words


def main(arguments):
    """Runs the subcommand that the words name. Gives the exit status."""
    signal.signal(signal.SIGPIPE, signal.SIG_DFL)
    words = options(arguments)
    if isinstance(words, int):
        return words
    if not words:
        print(usage(), file=sys.stderr)
        return 2
    name, *rest = words
    if name == "help":
        return help_on(rest)
    if name not in names():
        return unknown(name)
    try:
        if name in COMMANDS:
            from mc import commands

            return commands.main([name, *rest])
        return importlib.import_module(next(module for tool, module, _ in TOOLS if tool == name)).main(rest)
    except program.NoProgram as why:
        print(f"mc: {why}", file=sys.stderr)
        return 2
    except KeyboardInterrupt:
        print("mc: interrupted", file=sys.stderr)
        return 128 + signal.SIGINT
