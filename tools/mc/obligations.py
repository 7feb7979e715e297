"""The goals that prove a loop by an invariant, each as a script for a solver. docs/LOOPS.md says why they are a proof."""
import dataclasses

from mc import scripts, smt, turns
from mc.goal import constant_lines

EXIT_SORT = "(_ BitVec 32)"
TRUE = "true"


@dataclasses.dataclass(frozen=True)
class Contract:
    """What is to be proved, or was proved, of a definition: an invariant, over the registers' names at a turn and, with `_in`, at the entry, and a
    postcondition, over these with `_in` and with `_out`. Where `ends`, it was proved too that evaluation is done wherever the invariant holds at the entry."""

    number: int
    invariant: object
    post: object = None
    ends: bool = False


@dataclasses.dataclass(frozen=True)
class Claim:
    """A definition with its contract, those of loops that it calls, and what else is told."""

    function: scripts.Function
    contract: Contract
    known: tuple = ()
    entry: object = TRUE
    measure: object = None
    needs: bool = False
    commands: tuple = ()
    constants: tuple = ()
    axiom: object = None

    @property
    def names(self):
        return self.function.arguments

    @property
    def is_loop(self):
        return turns.is_loop(self.function.definition)

    @property
    def whole(self):
        """The function itself: the group's last definition."""
        return dataclasses.replace(self.function, number=len(self.function.group.definitions) - 1)


def with_suffix(names, suffix):
    return [name + suffix for name in names]


def parameters(names, suffix=""):
    return [f"({name}{suffix} {scripts.sort_of(name)})" for name in names]


def defined(name, parameters_, sort, body):
    return f"(define-fun {name} ({' '.join(parameters_)}) {sort} {body})"


def unknown_loops(claim, number, known):
    """The loops that a definition reaches by calls, of which nothing is known."""
    group = claim.function.group
    return sorted(k for k in turns.reached(group, number, known) - {number} - set(known) if turns.is_loop(group.definitions[k]))


# ---- contracts as functions


def kept_terms(function, number, suffix):
    """That a register or a memory is as at the entry, for each that each way through the definition leaves so; and that each byte that is there stays there."""
    words, memories = turns.Kept(function.group).of(number)
    names = [function.registers[k] for k in sorted(words)] + [smt.MEMORIES[k][0] for k in sorted(memories)]
    names += [pair[1] for pair in smt.MEMORIES[: function.group.memories]]
    return [f"(= {name}{suffix} {name}_in)" for name in names]


def constant_terms(claim, suffix):
    """That the bytes of the file that are constants are in memory."""
    return [f"(constants mem{suffix} dom{suffix})"] if claim.constants else []


def contract_lines(claim, contract, prefix):
    """The invariant and the postcondition of a contract as functions."""
    names, number = claim.names, contract.number
    entry = parameters(names, "_in")
    invariant = [smt.show(contract.invariant), *kept_terms(claim.function, number, ""), *constant_terms(claim, "")]
    lines = [defined(f"{prefix}invariant", parameters(names) + entry, "Bool", smt.conjunction(invariant))]
    if contract.post is not None:
        left = [f"(exit_out {EXIT_SORT})", "(pc_out Word)", *parameters(names, "_out")]
        post = [smt.show(contract.post), *kept_terms(claim.function, number, "_out"), *constant_terms(claim, "_out")]
        lines.append(defined(f"{prefix}post", entry + left, "Bool", smt.conjunction(post)))
    return lines


def constant_function(claim):
    """The bytes of the file as a function of a memory."""
    if not claim.constants:
        return []
    terms = [f"(= (select mem #x{address:016x}) #x{byte:02x}) (= (select dom #x{address:016x}) #b1)" for address, byte in claim.constants]
    return [defined("constants", parameters(["mem", "dom"]), "Bool", smt.conjunction(terms))]


# ---- functions of definitions


def open_lines(claim, prefix, contract):
    """A loop that is left open: functions of which nothing is known but that there is such an exit."""
    names, base = claim.names, f"{prefix}_d{contract.number}"
    sorts = " ".join(scripts.sort_of(name) for name in names)
    results = [("ok", "Bool"), ("exit", EXIT_SORT), ("pc", "Word"), *((name, scripts.sort_of(name)) for name in names)]
    return [f"(declare-fun {base}_{what} ({sorts}) {sort})" for what, sort in results]


def given_line(claim, prefix, contract):
    """What is known of a loop that is left open, as a function of its arguments: that its contract is kept."""
    names, base = claim.names, f"{prefix}_d{contract.number}"

    def use(what):
        return smt.applied(f"{base}_{what}", names)

    exits = len(claim.function.group.definitions[contract.number].exits)
    before = smt.applied(f"d{contract.number}_invariant", names + names)
    after = [f"(bvult {use('exit')} (_ bv{exits} 32))", smt.applied(f"d{contract.number}_post", [*names, use("exit"), use("pc"), *map(use, names)])]
    if contract.ends:
        body = f"(=> {before} (and {use('ok')} {' '.join(after)}))"
    else:
        body = f"(=> (and {before} {use('ok')}) (and {' '.join(after)}))"
    return defined(f"{base}_given", parameters(names), "Bool", body)


def without(lines, function, numbers, kinds=None):
    """The lines but for those that define functions of these definitions; with `kinds`, of those left only that kind."""
    found = []
    for line in lines:
        match = scripts.FUNCTION.match(line, len("(define-fun "))
        if int(match[1]) not in numbers and (kinds is None or match[2] in kinds):
            found.append(line)
    return found


def definition_lines(claim, function, prefix, turn=None, left_open=()):
    """The operations, and the functions of a definition, those that it calls among them. Loops that are `left_open` are functions of which nothing is known."""
    numbers = [contract.number for contract in left_open]
    group = function.group
    reached = turns.reached(group, function.number, numbers)
    operations, lines = scripts.exported(function, turns.text(group, function.number, turn, numbers))
    open_ones = [line for contract in left_open if contract.number in reached for line in open_lines(claim, prefix, contract)]
    return operations, open_ones + scripts.renamed(function, without(lines, function, numbers), prefix)


def path_lines(claim, function, prefix, ok, turn, left_open, at_open):
    """Functions of a definition that tell whether, at each call of a loop that is left open, what `at_open` says of it holds; their names end with `ok`."""
    numbers = [contract.number for contract in left_open]
    reached = turns.reached(function.group, function.number, numbers)
    _, lines = scripts.exported(function, turns.text(function.group, function.number, turn, numbers, with_needs=False))
    own = [at_open(contract) for contract in left_open if contract.number in reached]
    return own + scripts.renamed(function, without(lines, function, numbers, ("ok",)), prefix, ok)


# ---- goals


def preamble(claim, operations, functions, constants, extra=()):
    """What each goal begins with: sorts, operations, the user's commands, functions, constants, contracts."""
    told = [line for contract in claim.known for line in contract_lines(claim, contract, f"d{contract.number}_")]
    commands = scripts.heading("The commands of --with, and constants of --elf") + [*map(smt.show, claim.commands), *constant_function(claim)]
    return [
        *smt.sorts(),
        *scripts.heading("The operations of RISC-V"), *operations,
        *(commands if claim.commands or claim.constants else []),
        *scripts.heading("The functions of definitions"), *functions,
        *scripts.heading("The invariant, and what is known of loops that are called"), *contract_lines(claim, claim.contract, ""), *axiom_function(claim), *told, *extra,
        *scripts.heading("The values of which the goal speaks"), *constants,
    ]


def axiom_function(claim):
    """What --axiom says, as a function."""
    if claim.axiom is None:
        return []
    return [defined("axiom", parameters(claim.names) + parameters(claim.names, "_in"), "Bool", smt.show(claim.axiom))]


def turn_constants(claim):
    """The values at the entry of the definition, and at a turn. A definition that isn't a loop has one turn, at its entry."""
    lines = constant_lines(claim.names, "_in", "at the entry of the definition")
    if claim.is_loop:
        return lines + constant_lines(claim.names, "", "at a turn")
    return lines + [defined(name, [], scripts.sort_of(name), f"{name}_in") for name in claim.names]


@dataclasses.dataclass(frozen=True)
class Goal:
    """A conclusion from premises, behind the lines that say what stands in them."""

    comment: str
    lines: list
    premises: list
    conclusion: str

    def script(self, denied=True):
        """The script: its assertions are true together exactly where the goal is false; or, where it isn't denied, where the premises are true."""
        twice = smt.defined_twice(self.lines)
        if twice is not None:
            raise scripts.Refused(f"{twice} would be defined twice: choose another name in --with")
        asserted = [f"(assert {premise})" for premise in self.premises] + ([f"(assert (not {self.conclusion}))"] if denied else [])
        return "\n".join([f"; {self.comment}", "", *self.lines, *scripts.heading("The goal"), *asserted, "(check-sat)", ""])


def turn_goals(claim):
    """The goals about one turn, by their names."""
    function, names = claim.function, claim.names
    turn = function.number if claim.is_loop else None
    operations, functions = definition_lines(claim, function, "turn", turn, claim.known)
    given = path_lines(claim, function, "turn", "given", turn, claim.known, lambda c: given_line(claim, "turn", c)) if claim.known else []
    # A turn that goes again leaves by a further exit, behind the definition's own.
    after = [defined(f"{name}{suffix}", [], scripts.sort_of(name), smt.applied(f"turn_{name}", names)) for suffix in ("_next", "_out") for name in names]
    next_ = [line for line in after if "_next (" in line]
    out = [line for line in after if "_out (" in line]
    out = [defined("exit_out", [], EXIT_SORT, smt.applied("turn_exit", names)), defined("pc_out", [], "Word", smt.applied("turn_pc", names)), *out]
    lines = preamble(claim, operations, functions, turn_constants(claim), given)
    entry = with_suffix(names, "_in")
    holds = [smt.applied("invariant", names + entry)]
    holds += [smt.applied("axiom", names + entry)] if claim.axiom is not None else []
    holds += [smt.applied("turn_given", names)] if claim.known else []
    done = holds + ([] if claim.needs else [smt.applied("turn_ok", names)])
    again = f"(= {smt.applied('turn_exit', names)} (_ bv{len(function.definition.exits)} 32))"
    goals = {}
    if claim.is_loop:
        kept = smt.applied("invariant", with_suffix(names, "_next") + entry)
        goals["step"] = Goal("step: a turn that goes again keeps the invariant.", lines + next_, [*done, again], kept)
    if claim.contract.post is not None:
        post = smt.applied("post", [*entry, "exit_out", "pc_out", *with_suffix(names, "_out")])
        premises = done + ([f"(not {again})"] if claim.is_loop else [])
        goals["end"] = Goal("end: where a turn leaves, the postcondition holds.", lines + out, premises, post)
    if claim.is_loop and claim.measure is not None:
        measure = smt.show(claim.measure)
        after_turn = f"(let ({' '.join(f'({name} {name}_next)' for name in names)}) {measure})"
        goals["falls"] = Goal("falls: with each turn that goes again the measure falls.", lines + next_, [*done, again], f"(bvult {after_turn} {measure})")
    if claim.needs:
        goals["needs"] = Goal("needs: in each turn each side condition is true.", lines, holds, smt.applied("turn_ok", names))
    return goals


def entry_goal(claim):
    """The goal that the function meets the invariant where it calls the loop; or None, and why there is none."""
    function, whole, names = claim.function, claim.whole, claim.names
    constants = constant_lines(names, "", f"at the entry of {whole.group.name}")
    premises = [smt.show(claim.entry), *constant_terms(claim, "")]
    if whole.number == function.number:
        premises += [smt.applied("axiom", names * 2)] if claim.axiom is not None else []
        lines = preamble(claim, *definition_lines(claim, function, "turn", function.number, claim.known), constants)
        return Goal(f"begin: where {whole.group.name} is entered, the invariant holds.", lines, premises, smt.applied("invariant", names * 2)), None
    left_open = (*claim.known, claim.contract)
    numbers = [contract.number for contract in left_open]
    loops = [k for k, definition in enumerate(whole.group.definitions) if turns.is_loop(definition)]
    blocking = unknown_loops(claim, whole.number, numbers)
    if function.number not in turns.reached(whole.group, whole.number, loops):
        return None, f"{whole.group.name} calls d{function.number} in another loop alone. Where that is proved, --known tells of this one"
    if blocking:
        return None, f"{whole.group.name} calls d{blocking[0]}, a loop, too: tell by --known what is known of it"
    operations, functions = definition_lines(claim, whole, "caller", None, left_open)

    def line(contract, ok, body):
        return defined(f"caller_d{contract.number}_{ok}", parameters(names), "Bool", body)

    def given(contract):
        if contract is not claim.contract:
            return given_line(claim, "caller", contract)
        return line(contract, "given", TRUE if claim.axiom is None else smt.applied("axiom", names * 2))

    def calls(contract):
        return line(contract, "calls", smt.applied("invariant", names * 2) if contract is claim.contract else TRUE)

    extra = path_lines(claim, whole, "caller", "given", None, left_open, given) + path_lines(claim, whole, "caller", "calls", None, left_open, calls)
    premises += [smt.applied("caller_given", names)] + ([] if claim.needs else [smt.applied("caller_ok", names)])
    lines = preamble(claim, operations, functions, constants, extra)
    return Goal(f"begin: wherever {whole.group.name} calls the definition, the invariant holds.", lines, premises, smt.applied("caller_calls", names)), None
