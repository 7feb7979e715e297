"""The instructions of two bytes, as the words for which they stand, written from the manual's tables 16.5 to 16.7 and apart from the program."""
from instructions import arithmetic, branch, immediate, jump, load, store, upper

IN_WORDS = 0x08
EBREAK = 0x00100073


def bits(number, high, low):
    return number >> low & ((1 << high - low + 1) - 1)


def placed(number, *places):
    """The number whose bits from `low` on are those of the instruction from `source` on, for each place (source, count, low)."""
    return sum(bits(number, source + count - 1, source) << low for source, count, low in places)


def signed(number, count):
    return number - (number >> (count - 1) << count)


def of_stack(h):
    """Quadrant 0: from the stack pointer, and loads and stores of the registers 8 to 15."""
    p, q = 8 + bits(h, 9, 7), 8 + bits(h, 4, 2)
    kind = h >> 13
    if kind == 0:
        n = placed(h, (11, 2, 4), (7, 4, 6), (6, 1, 2), (5, 1, 3))
        return immediate(0, q, 2, n) if n else None
    four, eight = placed(h, (10, 3, 3), (6, 1, 2), (5, 1, 6)), placed(h, (10, 3, 3), (5, 2, 6))
    return {2: load(2, q, p, four), 3: load(3, q, p, eight), 6: store(2, q, p, four), 7: store(3, q, p, eight)}.get(kind)


def of_constants(h):
    """Quadrant 1: immediates, operations of the registers 8 to 15, jumps and branches."""
    kind, r, p, q = h >> 13, bits(h, 11, 7), 8 + bits(h, 9, 7), 8 + bits(h, 4, 2)
    plain = placed(h, (12, 1, 5), (2, 5, 0))
    i = signed(plain, 6) & 0xFFF
    if kind == 0:
        return immediate(0, r, r, i)
    if kind == 1:
        return immediate(0, r, r, i) | IN_WORDS if r else None
    if kind == 2:
        return immediate(0, r, 0, i)
    if kind == 3:
        if plain == 0:
            return None
        if r == 2:
            return immediate(0, 2, 2, signed(placed(h, (12, 1, 9), (6, 1, 4), (5, 1, 6), (3, 2, 7), (2, 1, 5)), 10) & 0xFFF)
        return upper(0x37, r, signed(plain, 6) & 0xFFFFF)
    if kind == 5:
        return jump(signed(placed(h, (12, 1, 11), (11, 1, 4), (9, 2, 8), (8, 1, 10), (7, 1, 6), (6, 1, 7), (3, 3, 1), (2, 1, 5)), 12))
    if kind > 5:
        return branch(kind - 6, p, 0, signed(placed(h, (12, 1, 8), (10, 2, 3), (5, 2, 6), (3, 2, 1), (2, 1, 5)), 9))
    which = bits(h, 11, 10)
    if which < 2:
        return immediate(5, p, p, plain | which << 10)
    if which == 2:
        return immediate(7, p, p, i)
    funct7, funct3 = ((32, 0), (0, 4), (0, 6), (0, 7))[bits(h, 6, 5)]
    if bits(h, 12, 12) == 0:
        return arithmetic(funct7, funct3, p, p, q)
    return {0: arithmetic(32, 0, p, p, q) | IN_WORDS, 1: arithmetic(0, 0, p, p, q) | IN_WORDS}.get(bits(h, 6, 5))


def of_registers(h):
    """Quadrant 2: shifts, loads and stores from the stack pointer, and what goes by whole registers."""
    kind, r, s, link = h >> 13, bits(h, 11, 7), bits(h, 6, 2), bits(h, 12, 12)
    if kind == 0:
        return immediate(1, r, r, placed(h, (12, 1, 5), (2, 5, 0)))
    if kind == 2:
        return load(2, r, 2, placed(h, (12, 1, 5), (4, 3, 2), (2, 2, 6))) if r else None
    if kind == 3:
        return load(3, r, 2, placed(h, (12, 1, 5), (5, 2, 3), (2, 3, 6))) if r else None
    if kind == 6:
        return store(2, s, 2, placed(h, (9, 4, 2), (7, 2, 6)))
    if kind == 7:
        return store(3, s, 2, placed(h, (10, 3, 3), (7, 3, 6)))
    if kind != 4:
        return None
    if s:
        return arithmetic(0, 0, r, r if link else 0, s)
    if r:
        return r << 15 | link << 7 | 0x67
    return EBREAK if link else None


def expand(h):
    """The word for which two bytes stand, or None."""
    return (of_stack, of_constants, of_registers, lambda h: None)[h & 3](h)


# For each word one of the numbers of two bytes that stand for it, where there is one.
SHORT = {word: h for h in range(1 << 16) for word in [expand(h)] if word is not None}
