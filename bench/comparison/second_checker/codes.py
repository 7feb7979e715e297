"""Codes: bytes at addresses, as a tuple of pairs of an address and bytes, which rise and neither
overlap nor touch."""

from bisect import bisect_right

from .tokens import WORDS


def is_formed(code):
    """Whether ranges rise, neither overlap nor touch, and end at 2^64 at most."""
    end = -1
    for start, held in code:
        if start <= end:
            return False
        end = start + len(held)
    return end <= WORDS


def is_within(part, code):
    """Whether each byte of the part stands in the code at the same address."""
    if part is code:
        return True
    starts = [start for start, _ in code]
    for start, held in part:
        place = bisect_right(starts, start) - 1
        if place < 0:
            return False
        offset = start - starts[place]
        if code[place][1][offset:offset + len(held)] != held:
            return False
    return True


def union(first, second):
    """The bytes of both codes, or None where an address has two different ones."""
    if first == second:
        return first
    result = []
    for start, held in sorted(first + second):
        if not result or start > result[-1][0] + len(result[-1][1]):
            result.append((start, held))
            continue
        before, bytes_before = result[-1]
        offset = start - before
        shared = len(bytes_before) - offset
        if bytes_before[offset:offset + len(held)] != held[:shared]:
            return None
        result[-1] = before, bytes_before + held[shared:]
    return tuple(result)
