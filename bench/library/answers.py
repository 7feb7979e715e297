"""The lines of the program's answers with their statuses, as docs/COMMANDS.md lists them, and how an answer is taken."""
import os
import re
import resource

# The words of a line that stand for others: a decimal number, an address or a value, bytes, and a name of a function.
PLACES = {"N": rb"(?:0|[1-9]\d*)", "A": rb"0x(?:0|[1-9a-f][0-9a-f]*)", "H": rb"(?:[0-9a-f]{2})+", "NAME": rb"[!-'*-:<-~]+"}
UNREADABLE_ELF = [
    f"unreadable elf {why}"
    for why in "not-elf,cut N,class,order,kind N,machine N,entry N,too-many N,sizes N,wraps N,too-big N,overlap N N,symbols".split(",")
]
OUTSIDE = (
    "no-such,ambiguous A A,too-large,misaligned A A,outside-code A,not-decoded A A,environment A,call A,jump-through A,two-entries A A,many-exits A"
).split(",")
STUCK = "misaligned A,no-fetch,not-decoded A,environment,no-byte A".split(",")
STATE = rb"(?:x(?:[1-9]|[12]\d|3[01]) %b\n)*(?:mem %b %b\n)*" % (PLACES["A"], PLACES["A"], PLACES["H"])
ANSWERS = {
    "check": {
        0: ["accepted N N"],
        1: ["refused line N", "refused def N N", "refused group N"],
        3: [*UNREADABLE_ELF, "unreadable text N"],
        7: ["over limit elf", "over limit proof"],
    },
    "decompile": {0: ["decompiled NAME A N N"], 1: [f"refused NAME {why}" for why in OUTSIDE], 3: UNREADABLE_ELF, 7: ["over limit elf"]},
    "link": {0: ["linked NAME A N N"], 1: [f"refused NAME {why}" for why in [*OUTSIDE, "recursive A"]], 3: UNREADABLE_ELF, 7: ["over limit elf"]},
    "split": {0: ["split NAME A N N"], 1: [f"refused NAME {why}" for why in OUTSIDE], 3: UNREADABLE_ELF, 7: ["over limit elf"]},
    "eval": {0: ["done N"], 1: ["refused side N N", "refused no function", "refused def N N"], 3: ["unreadable text N"], 7: ["over limit proof", "turns used"]},
    "laws": {
        0: ["accepted N"],
        1: ["refused no function", "refused group", "refused step N", "refused result", "refused def N N"],
        3: ["unreadable text N", "unreadable laws N"],
        7: ["over limit proof", "over limit laws"],
    },
    "migrate": {
        0: ["migrated N N"],
        1: ["refused line N", "refused def N N", "refused group N"],
        3: [*UNREADABLE_ELF, "unreadable text N"],
        7: ["over limit elf", "over limit proof"],
    },
    "run": {
        0: ["met N"],
        1: ["refused NAME no-such", "refused NAME ambiguous A A", *(f"refused stuck N {why}" for why in STUCK)],
        3: UNREADABLE_ELF,
        7: ["over limit elf", "steps used"],
    },
    "simplify": {0: ["simplified N"], 1: ["refused no function", "refused def N N"], 3: ["unreadable text N"], 7: ["over limit proof"]},
    "smt": {
        0: ["exported N"],
        1: ["refused no function", "refused no def", "refused loop N", "refused def N N"],
        3: ["unreadable text N"],
        7: ["over limit proof"],
    },
}
# Any command may answer these.
OTHERS = {2: ["not a command"], 4: ["read fault"], 5: ["write fault"], 6: ["no memory"]}
SECONDS = 60


def form(command, status, line):
    """The answer with that line: a state stands behind the lines of `eval` and `run` that are met with status 0."""
    words = b" ".join(PLACES.get(word, re.escape(word.encode())) for word in line.split())
    return words + rb"\n" + (rb"pc %b\n" % PLACES["A"] + STATE if status == 0 and command in ("eval", "run") else b"")


FORMS = {
    (command, status): re.compile(b"|".join(form(command, status, line) for line in lines))
    for command, answers in ANSWERS.items()
    for status, lines in {**answers, **OTHERS}.items()
}


def is_stated(command, status, lines):
    """Whether these lines with that status are an answer to the command. One name at most was given to `decompile`, `link` or `split`."""
    found = FORMS.get((command, status))
    return found is not None and found.fullmatch(lines) is not None


class Speaker:
    """A program, and a file of the caller's own into which it writes."""

    def __init__(self, program, path):
        self.program = program
        self.file = os.open(path, os.O_RDWR | os.O_CREAT)

    def say(self, *words):
        """The status and the lines of a command, with those on the standard error. One that takes longer than a minute of a processor is killed."""
        os.ftruncate(self.file, 0)
        os.lseek(self.file, 0, os.SEEK_SET)
        actions = [(os.POSIX_SPAWN_DUP2, self.file, 1), (os.POSIX_SPAWN_DUP2, self.file, 2)]
        child = os.posix_spawn(self.program, [self.program, *words], os.environ, file_actions=actions)
        resource.prlimit(child, resource.RLIMIT_CPU, (SECONDS, SECONDS))
        _, status = os.waitpid(child, 0)
        return os.waitstatus_to_exitcode(status), os.pread(self.file, 1 << 24, 0)
