"""python3 -m checker_texts.power COUNT: how many of COUNT drawn texts tell a checker with one wrong rule from the right one: for each wrong rule here, the number of
texts of version 1, 2, 3 and 4 whose answer it changes. Needs no program. Run it in bench/comparison.
"""

import sys

from . import drawing, elf_cases
from second_checker import codes, equality, lines, loop, operations, rules, short_lines, terms, verdict
from second_checker.terms import computed
from second_checker.triples import Triple


def chained(self, first, second, seen=()):
    if first is second or RIGHT_EQUAL(self, first, second):
        return True
    return any((a is first and b not in seen and chained(self, b, second, seen + (first,)))
               or (b is first and a not in seen and chained(self, a, second, seen + (first,)))
               for a, b in self.equal)


RIGHT_EQUAL = equality.Facts.are_equal
RIGHT_ALIKE = equality.Facts.are_alike
RIGHT_FOLLOWS = equality.Facts.follows
RIGHT_COMPOSED = rules.composed
RIGHT_FRAMED = rules.framed


def one_way(self, first, second):
    return first is second or (first, second) in self.equal or bool(first.children) and (
        first.form == second.form and all(one_way(self, a, b) for a, b in
                                          zip(first.children, second.children)))


def partly_stripped(self, first, second):
    if first.form == second.form and first.form.startswith("in"):
        def fronts(memory):
            yield memory
            while memory.children:
                memory = memory.children[0]
                yield memory
        return self.are_equal(first.children[1], second.children[1]) and any(
            self.are_equal(a, b) for a in fronts(first.children[0])
            for b in fronts(second.children[0]))
    return RIGHT_ALIKE(self, first, second)


def turned(self, first, second):
    if first.form == second.form and first.form in ("eq", "ne"):
        return (self.all_equal(first.children, second.children)
                or self.all_equal(first.children, second.children[::-1]))
    return RIGHT_ALIKE(self, first, second)


def not_stripped(self, first, second):
    if first.form == second.form and first.form.startswith("in"):
        return self.all_equal(first.children, second.children)
    return RIGHT_ALIKE(self, first, second)


def computing_words(self, fact):
    if fact.kind == "is" and all(part.constant for part in fact.parts):
        return computed(fact.parts[0]) == computed(fact.parts[1])
    return RIGHT_FOLLOWS(self, fact)


def gives_equal(self, fact):
    if fact.kind == "gives":
        return any(other.kind == "gives" and other.parts[:2] == fact.parts[:2]
                   and all(map(self.all_equal, other.parts[2:], fact.parts[2:]))
                   for other in self.facts)
    return RIGHT_FOLLOWS(self, fact)


def is_from_condition(self, fact):
    if fact.kind == "is" and any(other.kind == "so" and other.parts[0].form == "eq"
                                 and other.parts[0].children == fact.parts for other in self.facts):
        return True
    return RIGHT_FOLLOWS(self, fact)


def same_condition(self, fact):
    if fact.kind == "so" and fact.parts[0].form == "eq" and len(set(fact.parts[0].children)) == 1:
        return True
    return RIGHT_FOLLOWS(self, fact)


def with_all_facts(first, second):
    result = RIGHT_COMPOSED(first, second)
    return result and result.with_parts(facts=first.facts + second.facts)


def with_facts_once(first, second):
    result = RIGHT_COMPOSED(first, second)
    return result and result.with_parts(facts=tuple(dict.fromkeys(result.facts)))


def with_any_code(first, second):
    if first.behind != second.before:
        return None
    code = codes.union(first.code, second.code) or first.code
    further = tuple(fact for fact in second.facts if fact not in first.fact_set)
    return Triple(first.facts + further, first.before, code, second.behind)


def without_facts(part):
    def judge(triple, stated):
        other = "behind" if part == "before" else "before"
        return (triple.code == stated.code and getattr(triple, other) == getattr(stated, other)
                and equality.Facts(stated.facts).assertions_equal(getattr(triple, part),
                                                                  getattr(stated, part)))
    return judge


def one_after_the_other(made, triple, places):
    for variable, term in places.items():
        triple = RIGHT_INSTANCE(made, triple, {variable: term})
        if triple is None:
            return None
    return triple


RIGHT_INSTANCE = rules.instance


def steer_turned(made, triple, stated):
    condition = made.node("eq", stated.behind.counter, triple.behind.counter)
    return RIGHT_STEERED(made, triple, stated) or (
        triple.with_parts(facts=stated.facts).before == stated.before
        and triple.behind[1:] == stated.behind[1:] and triple.fact_set <= stated.fact_set
        and made.fact("so", condition) in stated.fact_set)


RIGHT_STEERED = rules.is_steered


def steer_by_is(made, triple, stated):
    return RIGHT_STEERED(made, triple, stated) or (
        triple.behind[1:] == stated.behind[1:] and triple.fact_set <= stated.fact_set
        and made.fact("is", triple.behind.counter, stated.behind.counter) in stated.fact_set)


class AnyFact(dict):
    def __contains__(self, fact):
        return True


def path_of_any(self, group, made):
    self.group, self.terms, self.path = group, made, AnyFact()


def exchanged_before(triple, stated):
    return rules.is_exchanged(triple, stated) or (
        len(triple.before.memories) == 2 and rules.are_same(triple.with_parts(
            before=triple.before._replace(memories=triple.before.memories[::-1])), stated))


def changed_operation(name, function):
    return (operations.OPERATIONS, name, function)


def wrong_rules():
    """Names, and lists of an object, a name and what stands there instead."""
    facts = equality.Facts
    yield "equations chained", [(facts, "are_equal", chained)]
    yield "equations one way", [(facts, "are_equal", one_way)]
    yield "stores taken off in part", [(facts, "are_alike", partly_stripped)]
    yield "stores not taken off", [(facts, "are_alike", not_stripped)]
    yield "comparisons turned", [(facts, "are_alike", turned)]
    yield "words computed", [(facts, "follows", computing_words)]
    yield "gives by equal parts", [(facts, "follows", gives_equal)]
    yield "is from so eq", [(facts, "follows", is_from_condition)]
    yield "so eq of the same", [(facts, "follows", same_condition)]
    for module in (lines, short_lines):
        name = module.__name__.split(".")[1]
        yield "all facts composed, " + name, [(module, "composed", with_all_facts)]
        yield "facts composed once, " + name, [(module, "composed", with_facts_once)]
        yield "codes clash, " + name, [(module, "composed", with_any_code)]
        yield "inst in turn, " + name, [(module, "instance", one_after_the_other)]
    yield "strengthen drops facts", [(rules.OF_ONE, "strengthen", without_facts("before"))]
    yield "weaken drops facts", [(rules.OF_ONE, "weaken", without_facts("behind"))]
    yield "extend either way", [(rules.OF_ONE, "extend", lambda triple, stated: (
        triple.facts == stated.facts and triple.before == stated.before
        and triple.behind == stated.behind))]
    yield "steer turned", [(lines, "is_steered", steer_turned)]
    yield "steer by is", [(lines, "is_steered", steer_by_is)]
    yield "exchange before alone", [(rules.OF_ONE, "exchange", exchanged_before)]
    yield "any fact of a leaf", [(loop.Leaves, "__init__", path_of_any)]
    yield "any code of a leaf", [(loop, "is_within", lambda part, whole: True)]
    yield "65 deep", [(terms, "DEEPEST", 65)]
    yield "used when open", [(verdict.Bench, "is_usable", lambda self, number, way: (
        number < len(self.group.definitions)
        and way < len(self.group.definitions[number].exits)))]
    yield "cited when forgotten", [(verdict.Bench, "forget", lambda self, number: (
        self.has(number)))]
    yield "mulhsu", [changed_operation("mulhsu", operations.OPERATIONS["mulh"])]
    yield "remw", [changed_operation("remw", operations.OPERATIONS["remuw"])]
    yield "sraw", [changed_operation("sraw", operations.OPERATIONS["srlw"])]
    yield "divw by 0", [changed_operation("divw", lambda x, y, right=operations.OPERATIONS["divw"]: (
        right(x, y) if y & 0xFFFFFFFF else 0xFFFFFFFF))]
    yield "sllw by 63", [changed_operation("sllw", lambda x, y: operations.low_word(x << (y & 63)))]


def main():
    """Prints each wrong rule and how many texts of each version tell it."""
    texts = []
    for seed in range(int(sys.argv[1])):
        drawer = drawing.Drawer(seed % 4 + 1, seed + 10 ** 6)
        drawn = drawer.draw_try() if seed % 8 >= 4 else drawer.draw()
        texts.append((seed % 4 + 1, drawn[0].encode()))
    elf = elf_cases.elf([elf_cases.segment()], names=b"", sections_at=0)
    right = [verdict.check(elf, lambda text=text: text) for _, text in texts]
    for name, places in wrong_rules():
        kept = []
        for holder, key, value in places:
            if isinstance(holder, dict):
                kept.append((holder, key, holder[key]))
                holder[key] = value
            else:
                kept.append((holder, key, getattr(holder, key)))
                setattr(holder, key, value)
        told = [0] * 5
        for (version, text), answer in zip(texts, right):
            told[version] += verdict.check(elf, lambda text=text: text) != answer
        for holder, key, value in kept:
            if isinstance(holder, dict):
                holder[key] = value
            else:
                setattr(holder, key, value)
        print(name, told[1:], flush=True)


if __name__ == "__main__":
    main()
