"""Assertions and triples, and the definitions of a group."""

from dataclasses import dataclass
from functools import cached_property
from typing import NamedTuple


class Assertion(NamedTuple):
    """A word for the program counter, pairs of a register and a word, and memories."""

    counter: object
    registers: tuple
    memories: tuple


@dataclass
class Triple:
    """Facts, an assertion before, code, and an assertion behind."""

    facts: tuple
    before: Assertion
    code: tuple
    behind: Assertion

    @cached_property
    def fact_set(self):
        """The facts without order and number."""
        return frozenset(self.facts)

    def with_parts(self, **parts):
        """This triple with some parts changed."""
        own = {"facts": self.facts, "before": self.before, "code": self.code,
               "behind": self.behind}
        return Triple(**{**own, **parts})


class Values(NamedTuple):
    """Words and memories."""

    words: tuple
    memories: tuple


@dataclass
class Body:
    """Steps, which are pairs of `let`, `letm` or `need` and a term, and what ends them."""

    steps: list
    end: object


@dataclass
class If:
    """Two bodies, one for each way that a condition goes."""

    condition: object
    bodies: tuple


@dataclass
class Call:
    """An earlier definition is entered; a body for each of its exits."""

    definition: int
    values: Values
    arms: list


@dataclass
class Again:
    """The definition is entered again."""

    values: Values


@dataclass
class Leave:
    """The definition is left by an exit."""

    way: int
    values: Values


RETURN = "ret"


@dataclass
class Definition:
    """Where it is entered, its exits, each an address or RETURN, and its body."""

    entry: int
    exits: tuple
    body: Body


@dataclass
class Group:
    """A function's name, its registers, how many memories it has, its code and definitions."""

    name: str
    registers: tuple
    memories: int
    code: tuple
    definitions: list

    def results(self, definition, way):
        """How many words and memories a definition leaves with by an exit."""
        returned = definition.exits[way] == RETURN
        return returned + len(self.registers), self.memories
