"""What the operations of terms compute, by the manual of RV64IM."""

MASK = (1 << 64) - 1


def signed(value, bits=64):
    """The number whose lowest bits these are, the highest one its sign."""
    value &= (1 << bits) - 1
    return value - (1 << bits) if value >> (bits - 1) else value


def divide(dividend, divisor, bits, is_signed):
    """Quotient and remainder, rounded towards zero; by zero as the manual says."""
    if is_signed:
        dividend, divisor = signed(dividend, bits), signed(divisor, bits)
    else:
        dividend, divisor = dividend & ((1 << bits) - 1), divisor & ((1 << bits) - 1)
    if divisor == 0:
        return -1, dividend
    quotient = abs(dividend) // abs(divisor)
    if (dividend < 0) != (divisor < 0):
        quotient = -quotient
    return quotient, dividend - quotient * divisor


def low_word(value):
    """The low 32 bits with their sign extended."""
    return signed(value, 32) & MASK


SIMPLE = {
    "add": lambda x, y: x + y,
    "sub": lambda x, y: x - y,
    "sll": lambda x, y: x << (y & 63),
    "slt": lambda x, y: int(signed(x) < signed(y)),
    "sltu": lambda x, y: int(x < y),
    "xor": lambda x, y: x ^ y,
    "srl": lambda x, y: x >> (y & 63),
    "sra": lambda x, y: signed(x) >> (y & 63),
    "or": lambda x, y: x | y,
    "and": lambda x, y: x & y,
    "mul": lambda x, y: x * y,
    "mulh": lambda x, y: (signed(x) * signed(y)) >> 64,
    "mulhsu": lambda x, y: (signed(x) * y) >> 64,
    "mulhu": lambda x, y: (x * y) >> 64,
    "div": lambda x, y: divide(x, y, 64, True)[0],
    "divu": lambda x, y: divide(x, y, 64, False)[0],
    "rem": lambda x, y: divide(x, y, 64, True)[1],
    "remu": lambda x, y: divide(x, y, 64, False)[1],
}

OF_LOW_WORDS = {
    "addw": lambda x, y: x + y,
    "subw": lambda x, y: x - y,
    "sllw": lambda x, y: x << (y & 31),
    "srlw": lambda x, y: (x & 0xFFFFFFFF) >> (y & 31),
    "sraw": lambda x, y: signed(x, 32) >> (y & 31),
    "mulw": lambda x, y: x * y,
    "divw": lambda x, y: divide(x, y, 32, True)[0],
    "divuw": lambda x, y: divide(x, y, 32, False)[0],
    "remw": lambda x, y: divide(x, y, 32, True)[1],
    "remuw": lambda x, y: divide(x, y, 32, False)[1],
}


def masked(function):
    """The function, its result a word."""
    return lambda x, y: function(x, y) & MASK


def extended(function):
    """The function, of its result the low 32 bits with their sign extended."""
    return lambda x, y: low_word(function(x, y))


OPERATIONS = {name: masked(function) for name, function in SIMPLE.items()}
OPERATIONS.update((name, extended(function)) for name, function in OF_LOW_WORDS.items())

EXTENSIONS = {
    "sx1": lambda x: signed(x, 8) & MASK,
    "sx2": lambda x: signed(x, 16) & MASK,
    "sx4": low_word,
}

COMPARISONS = {
    "eq": lambda x, y: x == y,
    "ne": lambda x, y: x != y,
    "lt": lambda x, y: signed(x) < signed(y),
    "ge": lambda x, y: signed(x) >= signed(y),
    "ltu": lambda x, y: x < y,
    "geu": lambda x, y: x >= y,
}
