#!/usr/bin/env python3
"""Holds the fused step and the rounding to binary32 beside exact fractions, over the library built as crates/exports/out/libexports.a.

usage: steps.py LIBRARY.so [CASES]     (tests/run builds the shared object)
"""
import ctypes, os, random, sys
from fractions import Fraction
from reference import decode, exponent, round32, round_bits, two

VECTORS = os.path.join(os.path.dirname(os.path.abspath(__file__)), "vectors.txt")
ZERO, UNFIT = 1 << 62, 1 << 63
LEAST, GREATEST = -65534, 65535


def value(x):
    return Fraction(0) if x is None else (-1 if x[0] else 1) * x[2] * two(x[1] - 29)


def number(rng, near):
    """A register number: often near another exponent, with few bits, or at the ends."""
    kind = rng.randrange(20)
    if kind == 0:
        return None
    e = near + rng.randrange(-70, 70) if kind < 15 else rng.choice([LEAST, LEAST + 1, GREATEST - 1, GREATEST, 0, rng.randrange(LEAST, GREATEST + 1)])
    s = rng.choice([2**29, 2**30 - 1, 2**29 + 1, 2**29 + 2**rng.randrange(29), rng.randrange(2**29, 2**30)])
    return rng.randrange(2), max(LEAST, min(GREATEST, e)), s


def args(x):
    return (0, 0, 0) if x is None else x


def expected_step(r, minus, p, q, width):
    if width not in (24, 30):
        return 5 << 56
    x = value(r) + (-1 if minus else 1) * value(p) * value(q)
    if x == 0:
        return ZERO
    v = round_bits(x, width)
    e = exponent(v)
    if not LEAST <= e <= GREATEST:
        return 7 << 56
    return int(abs(v) / two(e - 29)) | (e + 2**20) << 32 | (v < 0) << 55


def steps(lib, rng, count):
    for _ in range(count):
        near = rng.choice([0, 0, LEAST // 2, GREATEST // 2, LEAST + 40, GREATEST - 40])
        p, q = number(rng, near), number(rng, 0)
        r = number(rng, (p[1] + q[1]) if p and q else near)
        minus, width = rng.randrange(2), rng.choice([24, 30, 24, 30, 24, 30, 0, 23, 31, 2**32 - 1])
        got = lib.registers_step(*args(r), minus, *args(p), *args(q), width)
        want = expected_step(r, minus, p, q, width)
        if got != want:
            sys.exit(f"step differs: r={r} minus={minus} p={p} q={q} width={width}: {got:#x}, expected {want:#x}")


def pattern(rng, near):
    kind = rng.randrange(10)
    if kind == 0:
        return rng.choice([0, 1, 0x7FFFFF, 0x800000, 0x7F7FFFFF, 0x3F800000]) | rng.randrange(2) << 31
    e = max(0, min(254, near + rng.randrange(-30, 30))) if kind < 8 else rng.randrange(255)
    f = rng.choice([0, 1, 2**23 - 1, 2**rng.randrange(23), rng.randrange(2**23)])
    return rng.randrange(2) << 31 | e << 23 | f


def expected_round(r, minus, p, q, mode):
    x = decode(r) + (-1 if minus else 1) * decode(p) * decode(q)
    if x == 0:
        return ZERO
    bits, inexact, overflow, underflow = round32(x, mode)
    return bits | inexact << 32 | overflow << 33 | underflow << 34


def roundings(lib, rng, count):
    for _ in range(count):
        near = rng.choice([1, 60, 127, 127, 200, 254])
        p, q = pattern(rng, near), pattern(rng, 127)
        r = pattern(rng, max(0, (p >> 23 & 255) + (q >> 23 & 255) - 127))
        minus, mode = rng.randrange(2), rng.randrange(4)
        got = lib.registers_round(r, minus, p, q, mode)
        want = expected_round(r, minus, p, q, mode)
        if got != want:
            sys.exit(f"rounding differs: r={r:08X} minus={minus} p={p:08X} q={q:08X} mode={mode}: {got:#x}, expected {want:#x}")


def vectors(lib, path):
    """The published fused multiply-adds of finite operands whose value is not zero."""
    tried = 0
    for line in open(path):
        call, *words = line.split()
        if call != "fuse":
            continue
        mode, (p, q, r, want) = int(words[0]), [int(w, 16) for w in words[1:5]]
        got = lib.registers_round(r, 0, p, q, mode)
        if got in (ZERO, UNFIT):
            continue
        flags = "--" + "".join(c if got >> k & 1 else "-" for c, k in (("O", 33), ("U", 34), ("X", 32)))
        if (got & 0xFFFFFFFF, flags) != (want, words[5]):
            sys.exit(f"vector differs: {line.strip()}: {got:#x}")
        tried += 1
    return tried


def main():
    lib = ctypes.CDLL(sys.argv[1])
    count = int(sys.argv[2]) if len(sys.argv) > 2 else 20000
    u, i = ctypes.c_uint32, ctypes.c_int32
    lib.registers_step.argtypes = [u, i, u, u, u, i, u, u, i, u, u]
    lib.registers_round.argtypes = [u] * 5
    lib.registers_step.restype = lib.registers_round.restype = ctypes.c_uint64
    rng = random.Random(20261118)
    steps(lib, rng, count)
    roundings(lib, rng, count)
    print(f"{count} fused steps and {count} roundings agree with exact fractions")
    print(f"{vectors(lib, VECTORS)} published vectors agree")


main()
