"""Proof files as scripts read them: their groups, and which definitions of a group enter themselves again."""
import re


class Group:
    """A function of a proof file: its registers, whether it has a memory, and of each definition whether it enters itself and what it calls."""

    def __init__(self, name):
        self.name, self.registers, self.has_memory = name, [], False
        self.entries, self.again, self.calls = [], [], []

    def read(self, line):
        """Takes a line of the group's text."""
        head, *words = line.split()
        if head == "regs":
            self.registers = [int(word) for word in words]
        elif head == "mems":
            self.has_memory = words[0] == "1"
        elif head == "def":
            self.entries.append(int(words[0], 16))
            self.again.append(False)
            self.calls.append(set())
        elif head == "again":
            self.again[-1] = True
        elif head == "call":
            self.calls[-1].add(int(words[0]))

    def reached(self, definition):
        """The definitions that this one reaches by calls, itself among them."""
        found, open_ones = set(), [definition]
        while open_ones:
            one = open_ones.pop()
            if one not in found:
                found.add(one)
                open_ones += self.calls[one]
        return found

    def least_loop(self, definition):
        """The least definition that this one reaches and that enters itself again."""
        return min((one for one in self.reached(definition) if self.again[one]), default=None)


def groups_of(path):
    """The groups of a proof file."""
    groups = []
    with open(path, encoding="latin-1") as file:
        for line in file:
            if line.startswith("group "):
                groups.append(Group(line.split()[1]))
            elif groups and re.match(r"regs|mems|def|again|call", line):
                groups[-1].read(line)
    return groups
