"""Goals as data: the files goals/NAME.goal, read into the words that `mc goal` and `mc loop` take.

A file has lines `KEY: TEXT`; a line that begins with a space goes on the one before it.

    title   what is claimed
    file    the ELF file, functions.elf where it isn't given
    data    symbols, or sections, whose bytes stand in memory as in the file
    any     further words, for which the claim is to hold
    let     NAME = TERM, a word; or SORT NAME = TERM
    know    what is given

A goal about runs, of which each is of a function without a loop, or of one turn of a loop:

    run     NAME = FUNCTION, or FUNCTION, whose name it has then; behind FUNCTION may stand `turn of dN`. Its results are NAME_a0 and so on, NAME_ok, NAME_pc,
            NAME_mem, and of a turn NAME_again: whether another one follows. It starts from the values a0, mem and so on; with `after OTHER` from the results of
            that run; with `with REGISTER = TERM, ..` from these values
    claim   what is to hold
    wrong   a claim that is near to it, and false

A goal about a loop by an invariant, as `./mc help loop` says it:

    loop    FUNCTION dN
    entry, invariant, post, measure
    wrong   PART KEY TEXT: with this text for that KEY, the goal PART (begin, step, end, falls) is false

Texts are SMT-LIB, where a number stands for a word of 64 bits, and (present A N) says that the N bytes from A on are present. helpers.smt2 has functions that
they may apply.
"""
import contextlib
import dataclasses
import io
import os
import re
import tempfile

from mc import elf, goal, loop, program, scripts, smt, turns

FOLDER = os.path.dirname(os.path.abspath(__file__))
GOALS = os.path.join(FOLDER, "goals")
RUN = re.compile(r"(?:(\w+) = )?(\w+)(?: turn of d(\d+))?(?: after (\w+))?(?: with (.*))?", re.S)
# Functions of `mc goal`, and what of a run's results isn't a word.
PREFIX = "do_"
SORT_OF_RESULT = {"ok": "Bool", "again": "Bool", "exit": "(_ BitVec 32)", "mem": "Memory", "dom": "Domain"}
CLAIM, WRONG = "claim", "wrong"
PARTS = ("begin", "step", "end", "falls")
OF_DEFINITIONS = "group regs mems code def let letm need if else again leave call arm".split()


class BadGoal(Exception):
    """What is wrong with a description."""


@dataclasses.dataclass(frozen=True)
class Goal:
    """A description: its lines as pairs of a key and a text, in their order."""

    name: str
    lines: tuple

    def all(self, key):
        return [text for found, text in self.lines if found == key]

    def one(self, key, otherwise=None):
        found = self.all(key)
        if len(found) > 1 or not found and otherwise is None:
            raise BadGoal(f"{self.name}: {len(found)} lines of {key}")
        return found[0] if found else otherwise


@dataclasses.dataclass(frozen=True)
class Run:
    """A run of a function, from the results of another one, or from given values."""

    name: str
    function: str
    turn: int
    after: str
    given: dict

    def start(self, what):
        """The value of a register, or of the memory, at the entry."""
        return self.given.get(what, f"{self.after}_{what}" if self.after else what)


def names():
    """The names of all goals."""
    return sorted(file[:-5] for file in os.listdir(GOALS) if file.endswith(".goal"))


def read(name):
    """The goal of that name."""
    lines = []
    with open(os.path.join(GOALS, f"{name}.goal"), encoding="utf8") as file:
        for line in file.read().splitlines():
            if line.startswith(" ") and lines:
                lines[-1][1] += f" {line.strip()}"
            elif line.strip():
                key, _, text = line.partition(":")
                lines.append([key, text.strip()])
    return Goal(name, tuple(map(tuple, lines)))


def read_run(text):
    match = RUN.fullmatch(text)
    if match is None:
        raise BadGoal(f"no run: {text}")
    name, function, turn, after, given = match.groups()
    pairs = [pair.split(" = ", 1) for pair in given.split(", ")] if given else []
    return Run(name or function, function, None if turn is None else int(turn), after, {register: words(term) for register, term in pairs})


def words(text):
    """The text with its numbers as words, and `present` written out."""

    def present(match):
        return "(and " + " ".join(f"(= (select dom (bvadd {match[1]} {i})) #b1)" for i in range(int(match[2]))) + ")"

    def word(match):
        return match[0] if match[0][0] == "(" else f"(_ bv{int(match[0], 0) % (1 << 64)} 64)"

    text = re.sub(r"\(present (\w+) (\d+)\)", present, text)
    return re.sub(r"\(_ [^)]*\)|(?<![\w.#])-?(?:0x[0-9a-f]+|\d+)(?![\w.])", word, text)


def helpers(text):
    """The helpers that a text applies, those that they apply before them."""
    with open(os.path.join(FOLDER, "helpers.smt2"), encoding="utf8") as file:
        defined = {expression[1]: expression for expression in smt.parse(words(file.read()))}
    needed = smt.atoms(smt.parse(text)) & defined.keys()
    while True:
        further = {name for one in needed for name in smt.atoms(defined[one]) & defined.keys()} | needed
        if further == needed:
            return [smt.show(expression) for name, expression in defined.items() if name in needed]
        needed = further


def result_lines(run, function, used):
    """The results of a run that a text uses, as constants."""
    lines, arguments = [], [run.start(argument) for argument in function.arguments]

    def told(what):
        return smt.applied(f"{function.name}_{what}", arguments)

    for what in sorted(smt.REGISTERS[1:] + ["ok", "exit", "pc", "mem", "dom", "again"]):
        name = f"{run.name}_{what}"
        if name in used:
            if what == "again":
                value = f"(= {told('exit')} (_ bv{len(function.definition.exits) - 1} 32))"
            else:
                value = told(what) if what in function.arguments or what in ("ok", "exit", "pc") else run.start(what)
            lines.append(f"(define-fun {name} () {SORT_OF_RESULT.get(what, 'Word')} {value})")
    return lines


def data_lines(image, names_of_data):
    """Assertions that the bytes of these symbols and sections are those of the file."""
    lines = []
    for name in names_of_data:
        places = [part for part in (*image.symbols, *image.sections) if part.name == name]
        if len(places) != 1:
            raise BadGoal(f"{image.path} has {len(places)} symbols and sections {name}")
        for i, byte in enumerate(image.bytes_at(places[0].address, places[0].size)):
            address = f"(_ bv{places[0].address + i} 64)"
            lines += [f"(assert (= (select mem {address}) #x{byte:02x}))", f"(assert (= (select dom {address}) #b1))"]
    return lines


def any_lines(text):
    return [f"(declare-const {name} Word)" for name in text.split()]


def made(tool, arguments):
    """The scripts that a tool writes into a folder of its own, by the names of their files. `arguments` makes its words of the path of one of them."""
    with tempfile.TemporaryDirectory() as folder, contextlib.redirect_stdout(io.StringIO()) as said, contextlib.redirect_stderr(said):
        status = tool.main(arguments(os.path.join(folder, "goal.smt2")))
        found = {}
        for file in sorted(os.listdir(folder)):
            with open(os.path.join(folder, file), encoding="utf8") as script:
                found[file] = script.read()
    if status:
        raise BadGoal(said.getvalue().strip())
    return found


def let_line(text):
    name, _, term = text.partition(" = ")
    sort, _, name = name.rpartition(" ")
    return f"(define-fun {name} () {sort or 'Word'} {words(term)})"


class Bench:
    """A folder in which functions are decompiled, each once."""

    def __init__(self, folder):
        self.folder, self.images = folder, {}

    def image(self, file):
        if file not in self.images:
            self.images[file] = elf.read(os.path.join(FOLDER, file))
        return self.images[file]

    def prepare(self, all_goals):
        """Decompiles those functions of these goals that the folder doesn't have, those of a file by one call."""
        wanted = {}
        for described in all_goals:
            functions = [read_run(text).function for text in described.all("run")] + [text.split()[0] for text in described.all("loop")]
            wanted.setdefault(described.one("file", "functions.elf"), {}).update(dict.fromkeys(functions))
        for file, functions in wanted.items():
            functions = [name for name in functions if not os.path.exists(self.proof(file, name))]
            if not functions:
                continue
            path = os.path.join(self.folder, f"{file}.proof")
            done = program.run(["link", os.path.join(FOLDER, file), path, *functions])
            if done.returncode:
                raise BadGoal(done.stdout.strip())
            with open(path, encoding="latin-1") as text:
                head, *groups = re.split(r"^(?=group )", text.read(), flags=re.M)
            for group in groups:
                lines = [line for line in group.splitlines() if line.split(" ")[0] in OF_DEFINITIONS]
                with open(self.proof(file, lines[0].split(" ")[1]), "w", encoding="latin-1") as text:
                    text.write("\n".join([head.strip(), *lines, "end", ""]))

    def proof(self, file, name):
        """The path of a text that has the definitions of a function of a file, and no lines of a proof."""
        return os.path.join(self.folder, f"{file}.{name}.proof")

    def function(self, file, run):
        """The last definition of a run's function, or one turn of a definition."""
        path = self.proof(file, run.function)
        if run.turn is None:
            return scripts.find(path, run.function, None, f"{PREFIX}{run.function}")
        group = scripts.find(path, run.function).group
        path = f"{path}.d{run.turn}"
        with open(path, "w", encoding="latin-1") as text:
            text.write(turns.text(group, run.turn, run.turn))
        return scripts.find(path, run.function, run.turn, f"{PREFIX}{run.function}_d{run.turn}")

    def scripts(self, described):
        """The scripts of a goal: for each part a pair, of its claim and of the wrong one, where it has that."""
        if described.all("loop"):
            return self.loop_scripts(described)
        return {"": self.scripts_of_runs(described)}

    def scripts_of_runs(self, described):
        """The scripts of a goal about runs, of its claim and of its wrong one."""
        file = described.one("file", "functions.elf")
        runs = {run.name: run for run in map(read_run, described.all("run"))}
        functions = {run.name: self.function(file, run) for run in runs.values()}
        distinct = {function.name: function for function in functions.values()}
        claim, wrong = words(described.one(CLAIM)), words(described.one(WRONG))
        texts = " ".join(words(text) for kind, text in described.lines if kind != "title")
        used = set(re.findall(r"\w+", texts)) | {f"{run.after}_{what}" for run in runs.values() for what in functions[run.name].arguments}
        declared = {argument for function in distinct.values() for argument in function.arguments}
        lines = [f"(declare-const {name} Word)" for name in smt.REGISTERS[1:] if name in used and name not in declared]
        if "mem" not in declared and "mem" in used:
            lines += ["(declare-const mem Memory)", "(declare-const dom Domain)"]
        lines += helpers(texts) + data_lines(self.image(file), " ".join(described.all("data")).split())
        for kind, text in described.lines:
            if kind == "any":
                lines += any_lines(text)
            elif kind == "run":
                run = runs[read_run(text).name]
                lines += result_lines(run, functions[run.name], used)
            elif kind == "let":
                lines.append(let_line(text))
            elif kind == "know":
                lines.append(f"(assert {words(text)})")
        given = [f"{name}={function.path}:{function.group.name}:{function.number}" for name, function in distinct.items()]
        *head, _, check = made(goal, lambda path: [path, *given, "--goal", "\n".join([*lines, claim])])["goal.smt2"].splitlines()
        return tuple("\n".join([*head, f"(assert (not {denied}))", check, ""]) for denied in (claim, wrong))

    def loop_scripts(self, described):
        """The scripts of a goal about a loop."""
        part, key, text = described.one(WRONG).split(" ", 2)
        found = self.goals_of_loop(described, {})
        wrong = self.goals_of_loop(described, {key: text})[part]
        return {name: (script, wrong if name == part else None) for name, script in found.items()}

    def goals_of_loop(self, described, instead):
        """What `mc loop` makes of a goal, by the names of its parts, with some texts instead of the described ones."""
        file = described.one("file", "functions.elf")
        name, definition = described.one("loop").split(" d")

        def text(key, otherwise=None):
            return words(instead.get(key) or described.one(key, otherwise))

        terms = {key: text(key, "true") for key in ("entry", "invariant", "post", "measure")}
        known = [words(text) for text in described.all("know")]
        commands = helpers(" ".join([*terms.values(), *known]))
        commands += [line for kind, line in described.lines if kind == "any" for line in any_lines(line)]
        commands += [let_line(line) for line in described.all("let")]
        given = [self.proof(file, name), name, definition, terms["invariant"], terms["post"], "--entry", terms["entry"]]
        given += ["--measure", terms["measure"]] if described.all("measure") else []
        given += ["--with", "\n".join(commands)] if commands else []
        given += ["--axiom", f"(and true {' '.join(known)})"] if known else []
        for data in " ".join(described.all("data")).split():
            given += ["--elf", os.path.join(FOLDER, file), data]
        scripts_by_file = made(loop, lambda path: [*given, "--scripts", "--out", os.path.dirname(path)])
        return {part: scripts_by_file[f"{part}.smt2"] for part in PARTS if f"{part}.smt2" in scripts_by_file}
