#!/usr/bin/env python3
"""Writes cases of crates/vr_wasm_cases, or their answers: integer instructions at the edges of their operands.

    tests/numbers.py cases      # the lines `NAME: number OPCODE A B` of its file stdin
    tests/numbers.py answers    # the same lines of its file stdout
"""
import sys

TWO = ["add", "sub", "mul", "div_s", "div_u", "rem_s", "rem_u", "and", "or", "xor", "shl", "shr_s", "shr_u", "rotl", "rotr"]
COMPARE = ["eqz", "eq", "ne", "lt_s", "lt_u", "gt_s", "gt_u", "le_s", "le_u", "ge_s", "ge_u"]
DIVIDE_BY_ZERO, OVERFLOW = 2, 3


class Trap(Exception):
    def __init__(self, kind):
        self.kind = kind


def signed(bits, i):
    return i - (1 << bits) if i >> (bits - 1) else i


def quotient(a, b):
    whole = abs(a) // abs(b)
    return whole if (a < 0) == (b < 0) else -whole


def two(name, bits, a, b):
    mask, by = (1 << bits) - 1, b % bits
    if name.startswith(("div", "rem")) and b == 0:
        raise Trap(DIVIDE_BY_ZERO)
    if name == "div_s" and quotient(signed(bits, a), signed(bits, b)) == 1 << (bits - 1):
        raise Trap(OVERFLOW)
    sa, sb = signed(bits, a), signed(bits, b)
    return mask & {
        "add": lambda: a + b,
        "sub": lambda: a - b,
        "mul": lambda: a * b,
        "div_s": lambda: quotient(sa, sb),
        "div_u": lambda: a // b,
        "rem_s": lambda: sa - sb * quotient(sa, sb),
        "rem_u": lambda: a % b,
        "and": lambda: a & b,
        "or": lambda: a | b,
        "xor": lambda: a ^ b,
        "shl": lambda: a << by,
        "shr_s": lambda: sa >> by,
        "shr_u": lambda: a >> by,
        "rotl": lambda: a << by | a >> (bits - by),
        "rotr": lambda: a >> by | a << (bits - by),
    }[name]()


def compare(name, bits, a, b):
    if name.endswith("_s"):
        a, b = signed(bits, a), signed(bits, b)
    return int({"eqz": a == 0, "eq": a == b, "ne": a != b, "lt": a < b, "gt": a > b, "le": a <= b, "ge": a >= b}[name.split("_")[0]])


def one(name, bits, a):
    digits = format(a, "0%db" % bits)
    if name == "clz":
        return (digits + "1").index("1")
    if name == "ctz":
        return (digits[::-1] + "1").index("1")
    if name == "popcnt":
        return digits.count("1")
    return signed(name, a % (1 << name)) % (1 << bits)


def edges(bits):
    half, most = 1 << (bits - 1), (1 << bits) - 1
    return [(0, 0), (1, 0), (half, most), (most, 1), (half, 1), (half - 1, half), (0x1234567, bits), (half | 5, bits - 1),
            (0x89ABCDEF, bits + 1), (most, most), (7, most - 2), (most - 6, 3)]


def told(found):
    """The result in hex, or the kind of the trap."""
    try:
        return "%x" % found()
    except Trap as trap:
        return "trap %d" % trap.kind


def rows():
    """The name, the opcode, the operands and the answer of each case; those that trap after the others on two operands."""
    results, traps = [], []
    for bits, first in ((32, 0x6A), (64, 0x7C)):
        for op, name in enumerate(TWO, first):
            for a, b in edges(bits):
                answer = told(lambda: two(name, bits, a, b))
                (traps if answer.startswith("trap") else results).append(("i%d.%s %x %x" % (bits, name, a, b), op, a, b, answer))
    for bits, first in ((32, 0x45), (64, 0x50)):
        for op, name in enumerate(COMPARE, first):
            for a, b in edges(bits):
                beside = "beside " if name == "eqz" else ""
                results.append(("i%d.%s %x %s%x" % (bits, name, a, beside, b), op, a, b, "%x" % compare(name, bits, a, b)))
    return results + traps + one_operand()


def one_operand():
    cases = []
    for bits, first in ((32, 0x67), (64, 0x79)):
        for op, name in enumerate(["clz", "ctz", "popcnt"], first):
            for a in (0, 1, 1 << (bits - 1), (1 << bits) - 1, 0x00F00F00, 1 << (bits - 2)):
                cases.append(("i%d.%s" % (bits, name), op, a, one(name, bits, a)))
    for bits, first, widths in ((32, 0xC0, (8, 16)), (64, 0xC2, (8, 16, 32))):
        for op, m in enumerate(widths, first):
            for a in (0, (1 << (m - 1)) - 1, 1 << (m - 1), (1 << m) - 1, 1 << m, (1 << bits) - 1, 128):
                cases.append(("i%d.extend%d_s" % (bits, m), op, a, one(m, bits, a)))
    for a in (0, (1 << 31) - 1, 1 << 31, (1 << 32) - 1, 1 << 32, (1 << 64) - 1, 1 << 63):
        low = a % (1 << 32)
        cases += [("i32.wrap_i64", 0xA7, a, low), ("i64.extend_i32_s", 0xAC, low, signed(32, low) % (1 << 64)), ("i64.extend_i32_u", 0xAD, low, low)]
    return [("%s %x" % (name, a), op, a, 0, "%x" % found) for name, op, a, found in cases]


def main():
    for name, op, a, b, answer in rows():
        print("%s: number %02x %x %x" % (name, op, a, b) if sys.argv[1] == "cases" else "%s: %s" % (name, answer))


main()
