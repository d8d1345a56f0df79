"""What 02's request 14 says of a finished iteration, and whether it does.

w is the former bracket (a, b), v the new one, (A, Z) the one just before L2. A bracket is two points, and a point is
step, cost and slope. The width of a bracket is the difference of its steps, as computed. Nothing of the model is used.
"""
from fractions import Fraction

from exact import TWO, ZERO, F, absolute, add, div, exact, le, lt, mul, sub

EPS = F(2.0 ** -52)
HALF_OF_IT, TWO_THIRDS = Fraction(1, 2), Fraction(2, 3)


class Misfit(Exception):
    """The steps that were asked are not those of an iteration."""


def updated(level, ends, points):
    """01, U0 to U3, over the points that were asked. Takes those that it needs from the front of the list. Which steps
    U3 asks is not looked at."""
    if not points:
        raise Misfit
    (a, b), c = ends, points.pop(0)
    if le(c[0], a[0]) or le(b[0], c[0]):
        return ends
    if le(ZERO, c[2]):
        return a, c
    if le(c[1], level):
        return c, b
    while points:
        d = points.pop(0)
        if le(ZERO, d[2]):
            return a, d
        if le(d[1], level):
            a = d
    raise Misfit


def width(ends):
    return sub(ends[1][0], ends[0][0])


class Iteration:
    """A finished iteration, from w, v and the points that were asked in it. `az` is (A, Z), and `by_l2` has the steps
    that L2 asked, m first."""

    def __init__(self, gamma, level, w, points, v):
        left = list(points)
        c, after_s1 = left[0], updated(level, w, left)
        # 01, S2 to S4, and 02, request 4: an e is given where the trial is near an end that has moved
        near = lambda p: lt(absolute(sub(c[0], p[0])), EPS)
        given = any(near(p) and (lt(p[0], q[0]) or lt(q[0], p[0])) for p, q in zip(after_s1, w))
        self.w, self.v, self.az = w, v, updated(level, after_s1, left) if given else after_s1
        self.moved, self.by_l2 = self.az != after_s1, [x for x, _, _ in left]
        (a, _, _), (z, _, _) = self.az
        self.m, self.most = div(add(a, z), TWO), mul(gamma, width(w))
        self.case = 1 if not lt(self.most, width(self.az)) else 2 if lt(a, self.m) and lt(self.m, z) else 3

    def claims(self):
        """Sentences, and whether they hold."""
        (a, _, _), (z, _, _) = self.az
        (low, _, _), (high, _, _) = self.v
        yield "width(v) <= width(w)", le(width(self.v), width(self.w))
        if self.case != 2:
            yield "v is (A, Z)", self.v == self.az
        if self.case == 1:
            yield "Z.x - A.x <= gamma*width(w)", le(width(self.az), self.most)
            yield "width(v) <= gamma*width(w)", le(width(self.v), self.most)
            yield "L2 asks nothing", not self.by_l2
            return
        yield "L2 asks m", self.by_l2[:1] == [self.m]
        if self.case == 2:
            left, right = le(a, low) and le(high, self.m), le(self.m, low) and le(high, z)
            yield "v lies within A.x to m or within m to Z.x", left or right
            yield "width(v) <= m - A.x", not left or le(width(self.v), sub(self.m, a))
            yield "width(v) <= Z.x - m", not right or le(width(self.v), sub(z, self.m))
            # 02 does not ask for this one and the next: m is rounded, most where the ends are three floats apart
            yield "width(v) is at most 2/3 of Z.x - A.x", self.share() <= TWO_THIRDS
        else:
            yield "A.x and Z.x are neighbouring floats", z - absolute(a) == 1

    def faults(self):
        return [claim for claim, holds in self.claims() if not holds]

    def share(self):
        """Which part of Z.x - A.x is left."""
        return exact(width(self.v)) / exact(width(self.az))

    def entry(self):
        """As the model notes it."""
        return self.w, self.az, self.m, self.case, self.v

    def kinds(self):
        """What it is an example of."""
        yield "case %d" % self.case
        if self.case == 1 and le(self.most, width(self.az)):
            yield "case 1 by equality"
        if self.case == 1 and width(self.v) == width(self.w):
            yield "case 1 as wide as before"
        if self.case == 2 and self.share() > HALF_OF_IT:
            yield "case 2 over half"
        if self.moved:
            yield "S4 moved"
        low = self.az[0][0]
        if absolute(low) == ZERO:
            yield "A.x -0.0" if low else "A.x 0"
