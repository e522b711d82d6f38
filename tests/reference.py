"""A second implementation in exact fractions, sharing no code with the library.

round32(value, mode) gives the binary32 pattern and the flags of a value other than zero; round_bits(value, width)
rounds to a number of significant bits, to nearest with ties to even.
"""
from fractions import Fraction

NEAREST, DOWN, UP, ZERO = 0, 1, 2, 3


def two(k):
    return Fraction(2) ** k


def exponent(x):
    """The e with 2^e <= |x| < 2^(e+1)."""
    x = abs(x)
    e = x.numerator.bit_length() - x.denominator.bit_length()
    while two(e) > x:
        e -= 1
    while two(e + 1) <= x:
        e += 1
    return e


def to_grid(x, unit, mode):
    """x as a whole multiple of unit, rounded in a mode."""
    q = x / unit
    low = q.numerator // q.denominator
    rest = q - low
    if rest == 0:
        return low
    if mode == DOWN:
        return low
    if mode == UP:
        return low + 1
    if mode == ZERO:
        return low if x > 0 else low + 1
    if rest * 2 != 1:
        return low + (rest * 2 > 1)
    return low + (low % 2)


def round_bits(x, width):
    if x == 0:
        return x
    unit = two(exponent(x) - width + 1)
    return to_grid(x, unit, NEAREST) * unit


def round32(x, mode):
    """(pattern, inexact, overflow, underflow) of a value other than zero."""
    unlimited = two(exponent(x) - 23)
    wide = to_grid(x, unlimited, mode) * unlimited
    unit = max(unlimited, two(-149))
    v = to_grid(x, unit, mode) * unit
    sign = 0x80000000 if x < 0 else 0
    if abs(v) >= two(128):
        outward = mode == NEAREST or (mode == UP and x > 0) or (mode == DOWN and x < 0)
        return sign | (0x7F800000 if outward else 0x7F7FFFFF), True, True, False
    inexact = v != x
    return sign | encode(abs(v)), inexact, False, inexact and abs(wide) < two(-126)


def encode(v):
    if v < two(-126):
        return int(v / two(-149))
    e = exponent(v)
    return (e + 127) * 2**23 + int(v / two(e - 23)) - 2**23


def decode(bits):
    m = bits & 0x7FFFFFFF
    assert m < 0x7F800000
    v = m * two(-149) if m < 2**23 else (2**23 + m % 2**23) * two(m // 2**23 - 150)
    return -v if bits >> 31 else v
