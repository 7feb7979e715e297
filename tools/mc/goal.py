"""usage: mc goal OUT NAME=PROOF:FUNCTION[:DEF] .. [--goal GOAL]

One script for a solver, of one or more functions of proof files.

For each NAME the script has functions that tell the evaluation of FUNCTION of the file PROOF, or of
its definition of number DEF, as the program's `smt` writes them, but by the names of registers:
NAME_ok, NAME_exit, NAME_pc, NAME_a0 and so on, NAME_mem and NAME_dom for the bytes of memory and
the addresses that have one, NAME_stk and NAME_stk_dom for a second memory. Each takes the values at
the entry, in the order that a comment of the script gives. The operations stand in it once, as
rv_add, rv_ld8, rv_in8 and so on. Constants have the names of registers: a0, mem, dom. So
`(push_a0 ra a0 a1 mem dom)` is what push leaves in a0, and
`(pop_a0 ra a0 a1 (push_mem ra a0 a1 mem dom) dom)` what pop does after it.

At its end stands the goal: write there what is to hold, in place of `true`, and call
`mc prove OUT`. With --goal it is taken from GOAL, a file or a text: commands of SMT-LIB, as
definitions and premises, each as it stands, and at the end one term, which is to hold.

A definition that has a loop, or calls one, has no script: see `mc help loop`. One turn of a loop
has: with `turn4` for DEF it is that of definition 4, which leaves by a further exit where it would
go again, behind its own; if no loop is called in it. PROOF may be a
certificate of `simplify`: then it is about the definitions that this ends with. No line of a proof
or a certificate is judged here: `check` and `laws` do that.

Exit status: 0 written; 1 refused; 2 wrong words; 5 OUT can't be written.
"""
import dataclasses
import os
import re
import sys

from mc import program, scripts, smt, turns, usage

WORD = re.compile(r"([A-Za-z][A-Za-z0-9_]*)=(.+?):([^:]+?)(?::(turn)?(\d+))?")
TEMPLATE = "true"


def function_of(word):
    """The function that a word NAME=PROOF:FUNCTION[:DEF] names."""
    match = WORD.fullmatch(word)
    if match is None:
        raise scripts.Refused(f"{word}: not of the form NAME=PROOF:FUNCTION or NAME=PROOF:FUNCTION:DEF")
    name, path, function, turn, number = match.groups()
    taken = {*smt.REGISTERS, *(part for pair in smt.MEMORIES for part in pair), *smt.SORTS}
    if name in taken or name.startswith("rv_"):
        raise scripts.Refused(f"{word}: {name} is the name of something else in the script")
    found = scripts.find(path, function, None if number is None else int(number), name)
    if turn and not turns.is_loop(found.definition):
        raise scripts.Refused(f"{word}: d{number} of {function} is no loop")
    return dataclasses.replace(found, is_turn=bool(turn))


def constants_of(functions):
    """The names of the constants: the registers of all functions, and their memories."""
    registers = sorted({register for function in functions for register in function.group.registers})
    memories = max(function.group.memories for function in functions)
    return [smt.REGISTERS[register] for register in registers] + [name for pair in smt.MEMORIES[:memories] for name in pair]


def constant_lines(names, suffix="", what="at the entry"):
    """Declarations of constants, each with what it is."""
    lines = []
    for name in names:
        sort = scripts.sort_of(name)
        meaning = {"Word": f"x{smt.REGISTERS.index(name)}" if sort == "Word" else "", "Memory": "bytes", "Domain": "#b1 at each address that has a byte"}[sort]
        lines.append(f"(declare-const {name}{suffix} {sort}) ; {meaning} {what}")
    return lines


def goal_lines(functions, goal):
    """The goal: what a text has, or a place for it."""
    if goal is None:
        example = functions[0]
        use = smt.applied(f"{example.name}_ok", example.arguments)
        return [
            *scripts.heading("The goal: write what is to hold of all these values in place of `true`. Where a solver says `unsat`, it does."),
            f"; `(=> {use} ..)` asks only what holds where evaluation is done.",
            f"(assert (not\n  {TEMPLATE}\n))",
            "(check-sat)",
        ]
    expressions = smt.parse(goal)
    terms = [expression for expression in expressions if not smt.is_command(expression)]
    if len(terms) > 1 or terms and terms[0] is not expressions[-1]:
        raise smt.BadExpression("behind its commands a goal has one term, and nothing behind that")
    lines = scripts.heading("The goal")
    lines += [smt.show(expression) for expression in expressions if smt.is_command(expression) and expression != ["check-sat"]]
    return lines + [f"(assert (not {smt.show(term)}))" for term in terms] + ["(check-sat)"]


def script_of(functions, goal=None):
    """The lines of the script of these functions."""
    operations, body = [], []
    for function in functions:
        made = function.is_rewritten or function.is_turn
        text = turns.text(function.group, function.number, function.number if function.is_turn else None) if made else None
        operations, lines = scripts.exported(function, text)
        body += scripts.heading(f"{function.name}: {function.where} in {os.path.basename(function.path)}")
        body += scripts.told_lines(function, function.name) + scripts.renamed(function, lines, function.name)
    head = ["; Of functions of machine code, for an SMT solver. `./mc prove` gives it to z3 and cvc5.", "", *smt.sorts()]
    constants = scripts.heading("The values at the entry") + constant_lines(constants_of(functions))
    lines = head + scripts.heading("The operations of RISC-V") + operations + body + constants + goal_lines(functions, goal)
    twice = smt.defined_twice(lines)
    if twice is not None:
        raise scripts.Refused(f"{twice} would be defined twice: choose another name")
    return lines


def write(path, text, inputs):
    """Writes a script, but over none of the files that it is made of."""
    for source in inputs:
        if os.path.exists(path) and os.path.exists(source) and os.path.samefile(path, source):
            raise scripts.Refused(f"{path} is a file that is read: nothing was done")
    with open(path, "w", encoding="utf8") as file:
        file.write(text)


def main(arguments):
    parser = usage.Parser("goal", __doc__)
    parser.add_argument("out", metavar="OUT")
    parser.add_argument("functions", metavar="NAME=PROOF:FUNCTION[:DEF]", nargs="+")
    parser.add_argument("--goal", metavar="GOAL")
    given = parser.parse(arguments)
    try:
        functions = [function_of(word) for word in given.functions]
        text = "\n".join(script_of(functions, None if given.goal is None else smt.text_of(given.goal))) + "\n"
        write(given.out, text, [function.path for function in functions] + ([] if given.goal is None else [given.goal]))
    except (scripts.Refused, smt.BadExpression, program.NoProgram) as bad:
        print(bad, file=sys.stderr)
        return 1
    except OSError as bad:
        print(f"{given.out}: {bad.strerror}", file=sys.stderr)
        return 5
    for function in functions:
        print(f"{function.name}: {function.where}, of ({' '.join(function.arguments)})")
    return 0
