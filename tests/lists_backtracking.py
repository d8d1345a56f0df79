"""Cases of the conditions and of backtracking: constants, edges, starts, free answers, curves."""
from case_file import answer, backtracks, cuts, played
from exact import (HALF, INF, MAX, NAN, NOT_FINITE, ONE, SIGN, SUB, TINY, ZERO, F, Random, above, add, below, mul,
                   neg)
from model_backtracking import ARMIJO, GOLDSTEIN, KINDS, STRONG, WOLFE
from model_curves import NUMBERS, curve

FINE = [(ARMIJO, F(0.1), NAN), (GOLDSTEIN, F(0.25), INF), (WOLFE, F(0.1), F(0.9)), (STRONG, F(0.1), F(0.9))]
never = lambda x, i: (F(1e30), ZERO)


def start(c, n, rho=HALF, alpha=ONE):
    """Of a search with f0 = 1 and s0 = -2."""
    return backtracks(c, rho, alpha, ONE, F(-2), n)


def constants():
    """The ranges of the constants and their ends, as starts."""
    conditions = []
    for kind, top in ((ARMIJO, ONE), (GOLDSTEIN, HALF)):
        ends = [ZERO, SIGN, TINY, SIGN | TINY, below(top), top, above(top), F(0.25), F(-1)]
        conditions += [(kind, c, NAN) for c in ends + NOT_FINITE]
    third = F(0.3)
    seconds = [ZERO, TINY, below(third), third, above(third), below(ONE), ONE, F(2)]
    for kind in (WOLFE, STRONG):
        for c1 in [ZERO, SIGN, TINY, third, below(below(ONE)), below(ONE), ONE] + NOT_FINITE[:3]:
            conditions += [(kind, c1, c2) for c2 in seconds + NOT_FINITE[:3]]
    return [start(c, 1) for c in conditions]


def tried(c, f0, s0, t, f, s):
    """Whether the step t with cost f and slope s meets the condition: the search stops there, or asks on."""
    return backtracks(c, HALF, t, f0, s0, 1) + answer(f, s)


def marked():
    """The marked sums M10, M11 and M12, and costs and slopes on the very edge."""
    at, cases = (ONE, F(-2), ONE), []
    for f in (0, 0.25, -0.5, 0.5, -0.75, 0.75):
        for s in (ZERO, NAN):
            cases.append(tried((ARMIJO, HALF, ZERO), *at, F(f), s))
            cases.append(tried((GOLDSTEIN, F(0.25), ZERO), *at, F(f), s))
    for kind in (WOLFE, STRONG):
        for f in (0.5, 0.75):
            cases += [tried((kind, F(0.25), HALF), *at, F(f), F(s)) for s in (1.5, 1, -1, -1.5, 0, -0.0, 2)]
    return cases


def rounding(r):
    """Costs on the edge, on the edge that the other grouping of the product gives, which differs for some, and a float
    above."""
    cases = []
    for i in range(80):
        kind, c = KINDS[i % 4], F(0.125) | r.below(1 << 52)     # in [0.125, 0.25)
        f0 = r.like() if i < 40 else ZERO                       # a cost of 0 lets each difference of the products show
        s0, t = r.like() | SIGN, r.like() & ~SIGN
        edge, other = add(f0, mul(mul(c, t), s0)), add(f0, mul(c, mul(t, s0)))
        s = mul(HALF, s0 if i % 3 else neg(s0))
        beside = {above(other if kind == GOLDSTEIN else edge)} if i < 24 else set()
        for f in sorted({edge, other} | beside):
            cases.append(tried((kind, c, HALF), f0, s0, t, f, s))
    return cases


def slopes(r):
    """Slopes of either sign on strong Wolfe's edge c2*|s0| and a float above it: absolute values, from the smallest to
    the largest."""
    cases = []
    for s0 in [ZERO, TINY, SUB, ONE, F(0.1), MAX, r.like() & ~SIGN, r.like() & ~SIGN]:
        edge = mul(F(0.9), s0)
        for sign in (0, SIGN):
            ends = [s | flip for s in (edge, edge + 1) for flip in (0, SIGN)]
            cases += [tried(FINE[3], ZERO, s0 | sign, ONE, SIGN | MAX, s) for s in ends]
    return cases


def starts():
    """Every number not finite in turn, with N in range and out of it, as 2 goes before 3; every range at its ends."""
    cases, reply, ok = [], answer(ONE, ONE), [F(0.9), ONE, ONE, F(-2)]
    for c in FINE:
        for j, bad in enumerate(NOT_FINITE):
            for at in range(4):
                p = ok[:at] + [bad] + ok[at + 1:]
                cases.append(backtracks(c, *p, 5) + reply * (at % 3))
                if j < 3:
                    cases.append(backtracks(c, *p, 0))
            cases += [backtracks((c[0], bad, HALF), *ok, 5), played(backtracks((c[0], F(0.2), bad), *ok, 2), never, 40)]
        ends = [start(c, 2, rho=rho) for rho in (ZERO, SIGN, TINY, ONE, below(ONE), F(-0.5), F(2))]
        ends += [start(c, 2, alpha=alpha) for alpha in (ZERO, SIGN, TINY, F(-1), MAX)]
        cases += [played(end, never, 40) for end in ends]
        cases += [played(start(c, n), never, 3) for n in (0, 1, 2, 10000, 10001, 4294967295)]
        cases.append(backtracks((c[0], ONE, ONE), *ok, 5))
    return cases


def free():
    """A cost or slope that is not finite at the first, a middle and the last trial; and steps that shrink to 0, asked
    like any other."""
    cases = []
    for c in FINE:
        for at in (0, 2, 4):
            for bad in NOT_FINITE[:3]:
                for y in ((bad, ZERO), (F(9), bad)):
                    reply = lambda x, i: y if i == at else (F(9), ZERO)
                    cases.append(played(start(c, 4), reply, 40))
        cases += [played(start(c, 1), never, 40), played(start(c, 4, alpha=TINY), never, 40)]
    return cases


def on_curves():
    cases = []
    for k in NUMBERS:
        for c in FINE:
            for alpha, rho in ((ONE, F(0.9)), (F(8), HALF)):
                cases.append(played(backtracks(c, rho, alpha, *curve(k, ZERO), 4), lambda x, i: curve(k, x), 40, 2))
    return cases


def listed():
    r = Random(19660101)
    curves, loose = on_curves(), free()
    cases = constants() + marked() + rounding(r) + slopes(r) + starts() + loose + curves
    for case in curves[::6] + loose[::8]:
        cases += cuts(case, 10)
    return cases
