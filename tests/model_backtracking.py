"""The four conditions and the backtracking search, from the rules alone.

A condition is (kind, c or c1, c2); the first two kinds have no c2, and whatever stands there is not read.
"""
from exact import HALF, ONE, ZERO, absolute, add, is_finite, le, lt, mul, sub

KINDS = ARMIJO, GOLDSTEIN, WOLFE, STRONG = 1, 2, 3, 4


def reads_slope(c):
    return c[0] in (WOLFE, STRONG)


def constants(c):
    return [c[1], c[2]] if reads_slope(c) else [c[1]]


def in_range(c):
    if reads_slope(c):
        return lt(ZERO, c[1]) and lt(c[1], c[2]) and lt(c[2], ONE)
    return lt(ZERO, c[1]) and lt(c[1], ONE if c[0] == ARMIJO else HALF)


def holds(c, f0, s0, t, f, s):
    if c[0] == GOLDSTEIN:
        m = mul(t, s0)
        return le(add(f0, mul(sub(ONE, c[1]), m)), f) and le(f, add(f0, mul(c[1], m)))
    cost = le(f, add(f0, mul(mul(c[1], t), s0)))
    if c[0] == WOLFE:
        return cost and le(mul(c[2], s0), s)
    if c[0] == STRONG:
        return cost and le(absolute(s), mul(c[2], absolute(s0)))
    return cost


def refusal(c, rho, alpha, f0, s0, n):
    if not all(map(is_finite, constants(c) + [rho, alpha, f0, s0])):
        return 2
    return 0 if in_range(c) and lt(ZERO, rho) and lt(rho, ONE) and lt(ZERO, alpha) and 1 <= n <= 10000 else 3


class Search:
    """Asks alpha, alpha*rho, ..; the trials behind the first are the iterations. It has no bracket and no best."""

    def __init__(self, c, rho, alpha, f0, s0, n):
        self.c, self.rho, self.f0, self.s0, self.n = c, rho, f0, s0, n
        self.t, self.evaluations, self.iterations, self.held = alpha, 0, 0, None
        refused = refusal(c, rho, alpha, f0, s0, n)
        self.first = ("REFUSED", refused) if refused else ("ASK", alpha)
        self.over = bool(refused)

    def answer(self, f, s):
        if self.over:
            return "REFUSED", 8
        outcome = self.told(f, s)
        self.over = outcome[0] != "ASK"
        return outcome

    def told(self, f, s):
        if not is_finite(f) or (reads_slope(self.c) and not is_finite(s)):
            return "REFUSED", 2
        self.iterations += self.evaluations > 0
        self.evaluations += 1
        if holds(self.c, self.f0, self.s0, self.t, f, s):
            return "STOP met", self.t
        if self.iterations == self.n:
            return "LIMIT", self.t
        self.t = mul(self.t, self.rho)
        return "ASK", self.t
