"""Random searches for closing.py, the same for the same seed on every machine.

Bounds have all sizes. In many of the searches the ends are one, two or three floats apart, or come to be so; or they
are of the smallest floats, about a power of two or about EPS. So sums and halves are rounded. Slopes have all signs.
"""
import collections
import itertools

from case_file import growing, hager_zhang, params
from exact import HALF, MAX, NORM, ONE, SIGN, TWO, ZERO, F, Random, absolute, add, bits, flt, mul, sub

THREE, GROWS = "three answers", "growing"
# a search has no more answers
MOST = 24
# the field of the start, gamma and L, and a function: cost and slope of the answer i, at the step x
Drawn = collections.namedtuple("Drawn", "way start gamma level reply")


class Searches:
    """A sequence of searches, the two ways to start in turn."""

    def __init__(self, seed):
        self.r = Random(seed)

    def __iter__(self):
        return (self.search(way) for way in itertools.cycle((THREE, GROWS)))

    def one_of(self, *choices):
        return choices[self.r.below(len(choices))]

    # ---- numbers

    def sized(self, smallest, largest):
        """A number whose power of two is between these."""
        return (1023 + smallest + self.r.below(largest - smallest + 1)) << 52 | self.r.below(1 << 52)

    def gamma(self):
        near_one = ONE - 1 - self.r.below(1 << self.r.below(50))
        return self.one_of(HALF, F(0.25), F(0.75), F(0.66), near_one, self.sized(-4, -1), self.sized(-4, -1),
                           self.sized(-1022, -1), 1 + self.r.below(4))

    def small(self):
        """Bounds whose halves and quarters are exact."""
        low = self.one_of(ZERO, SIGN, ONE, TWO)
        return low, add(low, F(1 << self.r.below(5)))

    def bounds(self):
        kind = self.r.below(8)
        if kind < 2:
            return self.small()
        if kind < 4:
            low, high = sorted((self.one_of(ZERO, self.sized(-60, 20)), self.one_of(MAX, *[self.sized(-60, 60)] * 20)))
            return low or self.one_of(ZERO, SIGN), high + (low == high)
        if kind < 5:
            low = self.one_of(ZERO, SIGN, self.sized(-60, -51))         # about EPS
            return low, add(low, self.sized(-54, -49))
        power = (1 + self.r.below(2045)) << 52
        low = self.one_of(ZERO, SIGN, 1 + self.r.below(8), NORM - self.r.below(4), power, power - 1 - self.r.below(3),
                          ONE, self.sized(-1022, 1000))
        return low, absolute(low) + self.one_of(1, 2, 3, 3, 4 + self.r.below(40))

    # ---- slopes: a function gives that of the answer i, at the step x. `ends` has the answers at the bracket's ends;
    # -1 is s0

    def slope(self, kind):
        size = F(self.r.below(7)), F(1 + self.r.below(7)), self.sized(-4, 4), self.sized(-300, 300)
        return self.one_of(ZERO, SIGN) | size[kind]

    def free(self, ends):
        kind = self.r.below(5)
        drawn = [self.slope(min(kind, 3)) for _ in range(MOST)]
        if kind == 1:                                   # S1 comes to some floats below the high end
            drawn[ends[1]] = F(flt(drawn[ends[1]]) * 2.0 ** -(50 + self.r.below(4)))
        if self.r.below(4):                             # demand 3's premise, mostly
            drawn[ends[0]], drawn[ends[1]] = drawn[ends[0]] | SIGN, absolute(drawn[ends[1]])
        return lambda x, i: drawn[i]

    def halving(self, ends):
        """S1 comes to the exact middle, so that L2's test is often met with equality."""
        drawn = [self.slope(0) for _ in range(MOST)]
        drawn[ends[1]] = F(1 + self.r.below(6))
        drawn[ends[0]] = SIGN | drawn[ends[1]]
        return lambda x, i: drawn[i]

    def valley(self, low, high):
        """Those of a curve with one minimum, so that S4 moves an end."""
        low, high = flt(low), flt(high)
        at, bend = low + (high - low) * (self.r.below(1 << 20) / (1 << 20)), self.r.below(3)
        return lambda x, i: bits((flt(x) - at) * (1 + bend * (abs(flt(x) - at) / (high - low))))

    # ---- searches

    def search(self, way):
        ends, gamma, (low, high) = (-1, 0) if way == GROWS else (0, 1), self.gamma(), self.bounds()
        if way == GROWS and self.r.below(3) == 0:
            high = 1 + self.r.below(8)                  # of the smallest floats
        kind = self.r.below(8)
        if kind == 0:
            gamma, (low, high) = self.one_of(HALF, HALF, F(0.25), F(0.75)), self.small()
            slopes = self.halving(ends)
        else:
            slopes = self.free(ends) if kind < 6 else self.valley(ZERO if way == GROWS else low, high)
        f0, epsilon = self.one_of(ONE, ONE, F(-3.5), ZERO), self.one_of(ZERO, F(1e-6))
        level = add(f0, mul(epsilon, absolute(f0)))
        known = [level] * 5 + [add(level, ONE)] * 2 + [sub(level, ONE)]
        costs = [self.one_of(*known) for _ in range(MOST)]
        numbers = self.one_of(1, 4, 20), 1 + self.r.below(4)            # B and N
        given = dict(delta=F(0.75), epsilon=epsilon, theta=self.one_of(HALF, HALF, self.sized(-3, -1)), gamma=gamma)
        if way == GROWS:
            s0 = SIGN | (absolute(slopes(ZERO, -1)) or TWO)
            start = growing(params(first=high, low=ZERO, high=ZERO, **given), f0, s0, *numbers, 3)
        else:
            s0 = self.one_of(F(-2), F(1e300), F(1e300))                 # no slope is 1e300, so no verdict
            start = hager_zhang(params(low=low, high=high, **given), f0, s0, *numbers)
        return Drawn(way, start, gamma, level, lambda x, i: (costs[i], slopes(x, i)))
