"""Dot and point, from the rules alone: what refuses, and the value or the buffer.

What refuses is None, or the number, or the number and an index. For 2 the index is the lowest one that is bad in any
supplied vector, or n for a bad alpha alone. For 4 it is the first one whose partial sum or element is not finite.
"""
from itertools import accumulate

from exact import add, is_finite, mul


def bad_indices(v):
    return [i for i, x in enumerate(v) if not is_finite(x)]


def dot(a, b):
    if not 1 <= len(a) <= 256 or len(a) != len(b):
        return (1,), None
    bad = bad_indices(a) + bad_indices(b)
    if bad:
        return (2, min(bad)), None
    sums = list(accumulate(map(mul, a, b), add))
    bad = bad_indices(sums)
    return ((4, min(bad)), None) if bad else (None, sums[-1])


def point(x0, alpha, d, out):
    n = len(x0)
    if not 1 <= n <= 256 or n != len(d) or n != len(out):
        return (1,), out
    bad = bad_indices(x0) + bad_indices(d) + ([] if is_finite(alpha) else [n])
    if bad:
        return (2, min(bad)), out
    new = [add(x, mul(alpha, y)) for x, y in zip(x0, d)]
    bad = bad_indices(new)
    return ((4, min(bad)), out) if bad else (None, new)
