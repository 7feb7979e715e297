"""usage: mc loop PROOF FUNCTION D INVARIANT [POST] [OPTION ..]

Proves what a loop does, by an invariant: definition D of FUNCTION in the file PROOF, by the solvers
z3 and cvc5. `mc show PROOF` prints the definitions.

INVARIANT and POST are terms of SMT-LIB, each a file or a text. INVARIANT is over the registers by
their names as they are where a turn begins, a0, mem, dom and so on, and, with `_in`, as they were
where the loop was entered: a0_in. POST is over a0_in and so on, and over what the loop is left
with: a0_out, mem_out, pc_out, and the exit's number exit_out, 32 bits. What each turn leaves as it
is, by the text alone, needn't be told: the tool adds `(= a1 a1_in)` to the invariant, and
`(= a1_out a1_in)` to POST, and they are proved with them. These goals are made, each a script of
its own:

  begin   wherever FUNCTION calls the loop, the invariant holds, from --entry on
  step    a turn that goes again keeps the invariant
  end     where a turn leaves, POST holds
  falls   with --measure: the measure falls, as an unsigned word, with each turn that goes again
  needs   with --needs: in each turn each side condition is true

From step and end follows, by induction on turns (docs/LOOPS.md): where the loop is entered with the
invariant and evaluation is done, POST holds. Of side conditions nothing is claimed then: that they
are true is a premise of each goal. With --needs it is none, but proved; and with --measure, too, it
is proved that evaluation is done. D may be a definition without a loop of its own that calls some,
as the function itself: then INVARIANT is what holds at its entry.

  --entry TERM         what holds at the entry of FUNCTION, over a0, mem and so on (true)
  --measure TERM       a word, over the names of INVARIANT
  --needs              proves the side conditions
  --known E INV POST   of loop E, which D calls, this was proved: nothing else of it is used
  --ends E INV POST    this, and with --measure and --needs, that evaluation of E is done where INV
                       holds at its entry
  --with FILE          commands that stand before these terms: define-fun, declare-fun,
                       declare-const, assert. What is proved holds of all values of what is declared
                       there of which the asserts are true
  --axiom TERM         over the names of INVARIANT: a premise of each goal, as an instance of a
                       definition. That it is true of all values is yours to answer for
  --elf ELF RANGE      constants: the bytes that ELF has there are in memory, and stay there. RANGE
                       is A:N, from address A on N bytes, or the name of a symbol or of a section
  --out FOLDER         keeps the scripts there: begin.smt2, step.smt2 ..
  --scripts            only writes them
  --timeout S          for each solver and goal (60)
  --solver NAME        asks this one alone
  --first              one answer is enough: the other solver is ended

Exit status: 0 each goal is proved; 1 one is refuted, or the words are refused; 2 wrong words; 5
FOLDER can't be written; 7 no answer to one.
"""
import os
import sys

from mc import elf, obligations, program, prove, scripts, smt, usage
from mc.obligations import Claim, Contract

# For so many seconds values are looked for that meet a goal's premises.
SOON = 2


def names_allowed(function, suffixes):
    """The names that a term may have: of registers and memories, with these endings."""
    return {name + suffix for name in function.arguments for suffix in suffixes}


def checked(term, function, suffixes, what, further=()):
    """A term that names no register or memory that isn't there."""
    known = {*smt.REGISTERS[1:], *(name for pair in smt.MEMORIES for name in pair)}
    allowed = names_allowed(function, suffixes) | set(further)
    for atom in sorted(smt.atoms(term)):
        base = next((atom[: -len(end)] for end in ("_in", "_out", "_next") if atom.endswith(end)), atom)
        if base in known and atom not in allowed:
            endings = ", ".join(f"{function.registers[-1]}{suffix}" for suffix in suffixes)
            raise scripts.Refused(f"{what} names {atom}. {function.group.name} has {' '.join(function.arguments)}, here as {endings}")
    return term


def contract_of(function, number, invariant, post, ends=False):
    """A contract whose terms are read."""
    if not 0 <= number < len(function.group.definitions):
        raise scripts.Refused(f"{function.group.name} has definitions d0 to d{len(function.group.definitions) - 1}")
    inv = checked(smt.term_of(invariant), function, ("", "_in"), f"the invariant of d{number}")
    after = None if post is None else checked(smt.term_of(post), function, ("_in", "_out"), f"the postcondition of d{number}")
    return Contract(number, inv, after, ends)


def constants_in(image, word):
    """The addresses and the bytes of a range of a file: A:N, or the name of a symbol or of a section."""
    named = next((part for part in (*image.symbols, *image.sections) if part.name == word and part.size), None)
    try:
        first, count = (named.address, named.size) if named else (int(part, 0) for part in word.split(":"))
    except ValueError:
        raise scripts.Refused(f"{word}: neither A:N nor a symbol or a section of {image.path} that has a size") from None
    found = image.bytes_at(first, count)
    if found is None:
        raise scripts.Refused(f"{image.path} has no bytes at {first:#x}, {count} of them")
    if image.is_writable(first, count):
        print(f"note: {word} of {image.path} is in a segment that may be written: that nobody did is a premise")
    return list(zip(range(first, first + count), found))


def known_contracts(function, given):
    """What the user says is known of loops that are called."""
    found = []
    for words, ends in [(words, False) for words in given.known] + [(words, True) for words in given.ends]:
        if not words[0].isdecimal():
            raise scripts.Refused(f"{words[0]}: no number of a definition")
        found.append(contract_of(function, int(words[0]), words[1], words[2], ends))
    if len({contract.number for contract in found}) < len(found):
        raise scripts.Refused("--known or --ends tells twice of one definition")
    return tuple(sorted(found, key=lambda contract: contract.number))


def claim_of(given):
    """What is to be proved."""
    function = scripts.find(given.proof, given.function, given.number)
    known = known_contracts(function, given)
    numbers = [contract.number for contract in known]
    if function.number in numbers:
        raise scripts.Refused(f"d{function.number} itself is what is to be proved: --known tells of loops that it calls")
    commands = [command for path in given.with_ for command in smt.parse(smt.text_of(path))]
    if not all(smt.is_command(command) for command in commands):
        raise smt.BadExpression("--with: commands are wanted, and no terms")
    constants = {address: byte for path, word in given.elf for address, byte in constants_in(elf.read(path), word)}
    if constants and not function.group.memories:
        raise scripts.Refused(f"{given.function} has no memory: --elf has nothing to tell")
    claim = Claim(
        function,
        contract_of(function, function.number, given.invariant, given.post),
        known,
        checked(smt.term_of(given.entry), function, ("",), "--entry"),
        None if given.measure is None else checked(smt.term_of(given.measure), function, ("", "_in"), "--measure"),
        given.needs,
        tuple(commands),
        tuple(sorted(constants.items())),
        None if given.axiom is None else checked(smt.term_of(given.axiom), function, ("", "_in"), "--axiom"),
    )
    unknown = obligations.unknown_loops(claim, function.number, numbers)
    if unknown:
        raise scripts.Refused(f"d{function.number} calls d{unknown[-1]}, a loop: tell by --known {unknown[-1]} INV POST what is known of it")
    if given.measure is not None and not claim.is_loop:
        raise scripts.Refused(f"d{function.number} is no loop: no measure is wanted")
    if not (claim.is_loop or given.post is not None or given.needs):
        raise scripts.Refused(f"d{function.number} is no loop: without POST and --needs there is nothing to prove")
    return claim


def goals_of(claim):
    """The goals by their names, and why there is no `begin` where there is none. Raises Refused where one has no script."""
    begin, why = obligations.entry_goal(claim) if claim.is_loop else (None, None)
    goals = {"begin": begin} if begin else {}
    goals.update(obligations.turn_goals(claim))
    for goal in goals.values():
        goal.script()
    return goals, why


def keep(goals, folder):
    """Writes the scripts."""
    os.makedirs(folder, exist_ok=True)
    for name, goal in goals.items():
        with open(os.path.join(folder, f"{name}.smt2"), "w", encoding="utf8") as file:
            file.write(goal.script())


def solved(name, goal, given):
    """Has a goal solved, and prints what came of it. The status."""
    status, answers = prove.judge(goal.script(), given.timeout, given.solver or prove.SOLVERS, first=given.first)
    told = ", ".join(prove.answer_words(answer) for answer in answers)
    lines = prove.verdict_text(status, answers)
    if status == prove.PROVED:
        lines = [f"proved ({told})"]
    elif answers:
        lines[0] += f" ({told})"
    print(f"{name:6} " + "\n".join(lines), flush=True)
    return status


def warn(goals, given):
    """A note on each goal whose premises no values meet, so that it says nothing: where a solver finds that soon."""
    for name, goal in goals.items():
        status, _ = prove.judge(goal.script(denied=False), min(given.timeout, SOON), given.solver or prove.SOLVERS, first=True)
        if status == prove.PROVED:
            print(f"note: {name} says nothing: no values meet its premises")


def conclusion(claim, statuses):
    """What the goals prove together."""
    where = "entered with the invariant" if claim.is_loop else "entered so"
    post = " POST holds" if "end" in statuses else " each turn that goes again keeps the invariant"
    total = claim.needs and (claim.measure is not None or not claim.is_loop) and all(contract.ends for contract in claim.known)
    if total:
        return f"proved of {claim.function.where}: where it is {where}, evaluation is done, with each side condition true, and{post}"
    return f"proved of {claim.function.where}: where it is {where} and evaluation is done,{post}"


def parse(arguments):
    parser = usage.Parser("loop", __doc__)
    parser.add_argument("proof", metavar="PROOF")
    parser.add_argument("function", metavar="FUNCTION")
    parser.add_argument("number", metavar="D", type=int)
    parser.add_argument("invariant", metavar="INVARIANT")
    parser.add_argument("post", metavar="POST", nargs="?")
    parser.add_argument("--entry", metavar="TERM", default="true")
    parser.add_argument("--measure", metavar="TERM")
    parser.add_argument("--axiom", metavar="TERM")
    for name in ("--needs", "--scripts"):
        parser.add_argument(name, action="store_true")
    for name in ("--known", "--ends"):
        parser.add_argument(name, metavar=("E", "INV", "POST"), nargs=3, action="append", default=[])
    parser.add_argument("--with", metavar="FILE", action="append", default=[], dest="with_")
    parser.add_argument("--elf", metavar=("ELF", "RANGE"), nargs=2, action="append", default=[])
    parser.add_argument("--out", metavar="FOLDER")
    prove.add_options(parser)
    given = parser.parse(arguments)
    if given.scripts and given.out is None:
        parser.error("--scripts writes to a folder: --out FOLDER")
    return given


def main(arguments):
    given = parse(arguments)
    try:
        claim = claim_of(given)
        goals, why = goals_of(claim)
    except (scripts.Refused, smt.BadExpression, program.NoProgram, elf.BadElf) as bad:
        print(bad, file=sys.stderr)
        return 1
    except OSError as bad:
        print(f"{bad.filename}: {bad.strerror}", file=sys.stderr)
        return 1
    if given.out is not None:
        try:
            keep(goals, given.out)
        except OSError as bad:
            print(f"{bad.filename}: {bad.strerror}", file=sys.stderr)
            return 5
    if given.scripts:
        print(f"{given.out}: {' '.join(f'{name}.smt2' for name in goals)}")
        return 0
    if why:
        print(f"begin  isn't asked: {why}")
    statuses = {name: solved(name, goal, given) for name, goal in goals.items()}
    if any(status == prove.REFUTED for status in statuses.values()):
        return prove.REFUTED
    if any(statuses.values()):
        return prove.NO_ANSWER
    warn(goals, given)
    print(conclusion(claim, statuses))
    return 0
