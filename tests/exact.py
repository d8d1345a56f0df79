"""f64 from first principles, for the models and the lists of tests.

A float is its 64 bits. Every operation is formed exactly, as a fraction, and rounded once to the nearest f64, ties to
even; beside it Python's own float does the same operation, and the run breaks off where the two differ in a bit. Any
NaN is 7FF8000000000000.
"""
import struct
from fractions import Fraction

SIGN = 1 << 63
INF = 0x7FF0000000000000
NAN = 0x7FF8000000000000
MAX = 0x7FEFFFFFFFFFFFFF
TINY = 1                      # the smallest subnormal
SUB = 0x000FFFFFFFFFFFFF      # the largest subnormal
NORM = 0x0010000000000000     # the smallest normal
# among them a signalling NaN and one with every bit set
NOT_FINITE = [NAN, INF, SIGN | INF, INF + 1, (1 << 64) - 1]


def bits(x):
    b = struct.unpack(">Q", struct.pack(">d", x))[0]
    return NAN if (b & ~SIGN) > INF else b


def F(x):
    """The pattern of a Python number."""
    return bits(float(x))


ZERO, HALF, ONE, TWO = F(0), F(0.5), F(1), F(2)


def flt(b):
    return struct.unpack(">d", struct.pack(">Q", b))[0]


def is_nan(b):
    return (b & ~SIGN) > INF


def is_finite(b):
    """By the exponent bits (02, request 5)."""
    return (b >> 52) & 0x7FF < 0x7FF


def exact(b):
    """A finite pattern's value."""
    e, m = (b >> 52) & 0x7FF, b & ((1 << 52) - 1)
    v = Fraction(m, 1 << 1074) if e == 0 else Fraction(m + (1 << 52)) * Fraction(2) ** (e - 1075)
    return -v if b & SIGN else v


def rounded(v, zero_sign):
    """The pattern nearest to v, ties to even; zero_sign is the sign bit of a result that is exactly zero."""
    if v == 0:
        return zero_sign
    sign, v = (SIGN, -v) if v < 0 else (0, v)
    units = v * (1 << 1074)
    drop = max(0, (units.numerator // units.denominator).bit_length() - 53)
    scaled = units / (1 << drop)
    q, rest = divmod(scaled.numerator, scaled.denominator)
    twice = 2 * rest
    if twice > scaled.denominator or (twice == scaled.denominator and q % 2 == 1):
        q += 1
    if q == 1 << 53:
        q, drop = 1 << 52, drop + 1
    if q < 1 << 52:
        return sign | q                       # subnormal or zero: only where nothing was dropped
    exponent = drop + 1
    return sign | INF if exponent >= 2047 else sign | (exponent << 52) | (q - (1 << 52))


def checked(b, x):
    assert b == bits(x), (hex(b), hex(bits(x)))
    return b


def add(a, b):
    if is_nan(a) or is_nan(b):
        return NAN
    if not is_finite(a) or not is_finite(b):
        if not is_finite(a) and not is_finite(b):
            r = a if a == b else NAN
        else:
            r = b if is_finite(a) else a
    else:
        r = rounded(exact(a) + exact(b), SIGN if a & SIGN and b & SIGN and exact(a) == 0 == exact(b) else 0)
    return checked(r, flt(a) + flt(b))


def mul(a, b):
    sign = (a ^ b) & SIGN
    if is_nan(a) or is_nan(b):
        return NAN
    if not is_finite(a) or not is_finite(b):
        zero = (is_finite(a) and exact(a) == 0) or (is_finite(b) and exact(b) == 0)
        r = NAN if zero else sign | INF
    else:
        r = rounded(exact(a) * exact(b), sign)
        r = sign | (r & ~SIGN)
    return checked(r, flt(a) * flt(b))


def neg(a):
    return NAN if is_nan(a) else a ^ SIGN


def sub(a, b):
    return add(a, neg(b))


def div(a, b):
    sign = (a ^ b) & SIGN
    if is_nan(a) or is_nan(b) or (not is_finite(a) and not is_finite(b)):
        return NAN
    if not is_finite(a):
        return sign | INF
    if not is_finite(b):
        return sign
    if exact(b) == 0:
        return NAN if exact(a) == 0 else sign | INF
    r = sign | (rounded(exact(a) / exact(b), sign) & ~SIGN)
    return checked(r, flt(a) / flt(b))


def absolute(a):
    return NAN if is_nan(a) else a & ~SIGN


def le(a, b):
    """a <= b, false where a NaN stands."""
    if is_nan(a) or is_nan(b):
        return False
    key = lambda x: -(x & ~SIGN) if x & SIGN else x        # the patterns of one sign are in order
    r = key(a) <= key(b)
    assert r == (flt(a) <= flt(b))
    return r


def lt(a, b):
    return le(a, b) and not le(b, a)


def above(b):
    """The next float up, for finite patterns but the zeros."""
    return b - 1 if b & SIGN else b + 1


def below(b):
    """The next float down, for finite patterns but the zeros."""
    return b + 1 if b & SIGN else b - 1


class Random:
    """A fixed sequence, the same on every machine (Knuth's MMIX constants)."""

    def __init__(self, seed):
        self.s = seed

    def word(self):
        out = 0
        for _ in range(2):
            self.s = (self.s * 6364136223846793005 + 1442695040888963407) % (1 << 64)
            out = out << 32 | self.s >> 32
        return out

    def below(self, n):
        return self.word() % n

    def like(self):
        """A number of either sign and of a size near 1, so that sums and products of such numbers round."""
        return (self.word() & (SIGN | ((1 << 52) - 1))) | (1013 + self.below(20)) << 52
