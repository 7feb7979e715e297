"""Instructions as numbers of four bytes, by the formats of the manual, and as bytes."""
import struct

RETURN = 0x8067


def arithmetic(funct7, funct3, rd, rs1, rs2):
    """An instruction on two registers."""
    return funct7 << 25 | rs2 << 20 | rs1 << 15 | funct3 << 12 | rd << 7 | 0x33


def immediate(funct3, rd, rs1, value):
    """An instruction on a register and an immediate."""
    return value << 20 | rs1 << 15 | funct3 << 12 | rd << 7 | 0x13


def load(funct3, rd, rs1, offset):
    return offset << 20 | rs1 << 15 | funct3 << 12 | rd << 7 | 0x03


def store(funct3, rs2, rs1, offset):
    return offset >> 5 << 25 | rs2 << 20 | rs1 << 15 | funct3 << 12 | (offset & 31) << 7 | 0x23


def branch(funct3, rs1, rs2, offset):
    high, low = (offset >> 12 & 1) << 31 | (offset >> 5 & 0x3F) << 25, (offset >> 1 & 0xF) << 8 | (offset >> 11 & 1) << 7
    return high | rs2 << 20 | rs1 << 15 | funct3 << 12 | low | 0x63


def jump(offset):
    """A jump that writes no register."""
    return (offset >> 20 & 1) << 31 | (offset >> 1 & 0x3FF) << 21 | (offset >> 11 & 1) << 20 | (offset >> 12 & 0xFF) << 12 | 0x6F


def upper(opcode, rd, value):
    return value << 12 | rd << 7 | opcode


def words(code):
    return b"".join(struct.pack("<I", word) for word in code)
