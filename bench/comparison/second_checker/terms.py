"""Terms, each made once within a group, so that the same terms are one object; and facts."""

from .operations import COMPARISONS, EXTENSIONS, OPERATIONS

WORD, MEMORY, CONDITION = "word", "memory", "condition"
DEEPEST = 64

# What each form is, and what its children are.
FORMS = {"not": (CONDITION, (CONDITION,))}
FORMS.update((name, (WORD, (WORD, WORD))) for name in OPERATIONS)
FORMS.update((name, (WORD, (WORD,))) for name in EXTENSIONS)
FORMS.update((name, (CONDITION, (WORD, WORD))) for name in COMPARISONS)
for size in "1248":
    FORMS["ld" + size] = (WORD, (MEMORY, WORD))
    FORMS["st" + size] = (MEMORY, (MEMORY, WORD, WORD))
    FORMS["in" + size] = (CONDITION, (MEMORY, WORD))

NUMBER, WORD_VARIABLE, MEMORY_VARIABLE = "number", "v", "m"
KINDS = {form: kind for form, (kind, children) in FORMS.items()}
KINDS.update({NUMBER: WORD, WORD_VARIABLE: WORD, MEMORY_VARIABLE: MEMORY})


class Term:
    """A word, a memory or a condition. The value is the number of a constant or a variable, or,
    of a term without variables, what it is when it is computed, once it was."""

    __slots__ = ("form", "children", "value", "depth", "constant")

    def __init__(self, form, children, value, depth, constant):
        self.form = form
        self.children = children
        self.value = value
        self.depth = depth
        self.constant = constant

    @property
    def kind(self):
        """Whether it is a word, a memory or a condition."""
        return KINDS[self.form]


class Fact:
    """An equation, a condition, or that a definition gives results."""

    __slots__ = ("kind", "parts")

    def __init__(self, kind, parts):
        self.kind = kind
        self.parts = parts


class TooDeep(Exception):
    """A term would be more than 64 deep."""


class Terms:
    """The terms and facts that were made, by what they are made of."""

    def __init__(self):
        self.leaves = {}
        self.nodes = {}
        self.facts = {}

    def leaf(self, form, value):
        """The constant or the variable of a number."""
        key = form, value
        term = self.leaves.get(key)
        if term is None:
            term = self.leaves[key] = Term(form, (), value, 1, form == NUMBER)
        return term

    def number(self, value):
        """A constant."""
        return self.leaf(NUMBER, value)

    def word(self, index):
        """A word variable."""
        return self.leaf(WORD_VARIABLE, index)

    def memory(self, index):
        """A memory variable."""
        return self.leaf(MEMORY_VARIABLE, index)

    def node(self, form, *children):
        """The term of a form and its children."""
        key = form, children
        term = self.nodes.get(key)
        if term is None:
            depth = 1 + max(child.depth for child in children)
            constant = all(child.constant for child in children)
            term = self.nodes[key] = Term(form, children, None, depth, constant)
        return term

    def fact(self, kind, *parts):
        """The fact of a kind and its parts."""
        key = kind, parts
        fact = self.facts.get(key)
        if fact is None:
            fact = self.facts[key] = Fact(kind, parts)
        return fact


def computed(term):
    """The value of a word or a condition without variables."""
    if term.value is None:
        values = [computed(child) for child in term.children]
        if term.form == "not":
            term.value = not values[0]
        elif term.form in EXTENSIONS:
            term.value = EXTENSIONS[term.form](*values)
        elif term.form in COMPARISONS:
            term.value = COMPARISONS[term.form](*values)
        else:
            term.value = OPERATIONS[term.form](*values)
    return term.value


class Substitution:
    """Terms for variables, put in all at once."""

    def __init__(self, terms, places):
        """The places are a dictionary from variables to terms."""
        self.terms = terms
        self.done = dict(places)

    def term(self, term):
        """The term with the terms put in; TooDeep where it isn't within the limit."""
        if term.constant:
            return term
        result = self.done.get(term)
        if result is None:
            if term.children:
                children = [self.term(child) for child in term.children]
                result = self.terms.node(term.form, *children)
                if result.depth > DEEPEST:
                    raise TooDeep
            else:
                result = term
            self.done[term] = result
        return result

    def list(self, terms):
        """A list of terms likewise."""
        return tuple(map(self.term, terms))

    def fact(self, fact):
        """A fact likewise."""
        if fact.kind == "gives":
            definition, way, *lists = fact.parts
            return self.terms.fact("gives", definition, way, *map(self.list, lists))
        return self.terms.fact(fact.kind, *self.list(fact.parts))
