"""Cases of Hager-Zhang: starts, every ending, curves, free answers, U3 runs, secants, and the edges of the rules."""
from case_file import answer, cuts, hager_zhang, params, played
from exact import (HALF, MAX, NOT_FINITE, ONE, SIGN, TINY, TWO, ZERO, F, Random, above, absolute, add, below, is_finite,
                   mul, sub)
from model_curves import NUMBERS, curve
from model_hagerzhang import EPS

SMALL = [F(x) for x in (-2, -1, -0.5, -0.0, 0, 0.5, 1, 2, 3)]

# each range at its ends
RANGES = [
    dict(delta=ZERO), dict(delta=TINY, sigma=TINY), dict(delta=ONE, sigma=ONE), dict(delta=F(0.9)),
    dict(delta=above(F(0.9))), dict(delta=HALF), dict(sigma=below(ONE)), dict(sigma=ONE),
    dict(epsilon=ZERO), dict(epsilon=SIGN), dict(epsilon=SIGN | TINY), dict(epsilon=MAX),
    dict(theta=ZERO), dict(theta=ONE), dict(theta=below(ONE)),
    dict(gamma=ZERO), dict(gamma=ONE), dict(gamma=below(ONE)), dict(eta=ZERO), dict(eta=TINY),
    dict(low=SIGN), dict(low=SIGN, high=ZERO), dict(low=SIGN | TINY), dict(low=ONE, high=ONE),
    dict(low=ONE, high=above(ONE)), dict(first=F(-5)), dict(first=F(1e300)),
]
# f0 and epsilon: epsilon_k or L overflows, or does not
LEVELS = [(MAX, ONE), (MAX, ZERO), (SIGN | MAX, ONE), (SIGN | MAX, TWO)]
COUNTS = [(0, 1), (1, 0), (1, 1), (1000, 10000), (1001, 1), (1, 10001), (4294967295, 1), (1, 4294967295), (16777216, 1)]


def starts():
    """Every number not finite in turn, half of them with B out of range too, as 2 goes before 3; every range at its
    ends."""
    cases, reply = [], answer(ONE, ONE)
    for i in range(11):
        for j, bad in enumerate(NOT_FINITE):
            p = params() + [ONE, F(-1)]
            p[i] = bad
            cases.append(hager_zhang(p[:9], p[9], p[10], 100 * (j % 2), 100) + reply * (i % 3))
    ones = lambda x, i: (ONE, ONE)
    cases += [played(hager_zhang(params(**changed), F(3), F(-1), 100, 100), ones, 3) for changed in RANGES]
    cases += [hager_zhang(params(epsilon=epsilon), f0, F(-1), 100, 100) for f0, epsilon in LEVELS]
    return cases + [played(hager_zhang(params(), ONE, F(-1), b, n), ones, 1) for b, n in COUNTS]


def on_curve(k, b=100, n=100, **changed):
    return played(hager_zhang(params(**changed), *curve(k, ZERO), b, n), lambda x, i: curve(k, x), 70, 2)


def endings():
    """Every ending: wolfe, approximate, limit, and refusals 2, 4, 5, 6, 7."""
    return [
        on_curve(1, low=ZERO, high=F(4)),
        on_curve(6, low=F(10), high=F(100), first=F(-1), epsilon=TWO),
        on_curve(8, n=1, low=ZERO, high=F(4)),
        on_curve(5, low=ZERO, high=F(1e80)),
        on_curve(2, epsilon=F(1e308)),
        on_curve(3),
        on_curve(8, b=1, low=F(0.6), high=F(0.9)),
        on_curve(8, low=F(0.6), high=F(0.9)),
    ]


def on_curves():
    cases = [on_curve(7, low=ZERO, high=F(64), first=F(3))]
    for k in NUMBERS:
        cases.append(on_curve(k, low=ZERO, high=F(64), first=F(0.7)))
        cases.append(on_curve(k, b=3, n=4, low=F(0.01), high=F(10), first=F(0.3), theta=F(0.3)))
    return cases


def free(r, count):
    """Answers that are any small numbers, whatever the step; in every third search one is not finite."""
    one_of, cases = lambda *numbers: numbers[r.below(len(numbers))], []
    for i in range(count):
        p = params(low=ZERO, high=F(8), first=one_of(*SMALL), theta=one_of(HALF, F(0.25), F(0.9)),
                   gamma=one_of(F(0.66), F(0.1), F(0.9)), epsilon=one_of(ZERO, F(0.25)),
                   sigma=one_of(F(0.9), F(0.1)))
        broken, bad, which = r.below(14) if i % 3 == 0 else -1, one_of(*NOT_FINITE), r.below(2)

        def reply(x, j):
            y = [one_of(*SMALL), one_of(*SMALL)]
            if j == broken:
                y[which] = bad
            return y

        cases.append(played(hager_zhang(p, ONE, F(-2), 1 + r.below(4), 1 + r.below(3)), reply, 24))
    return cases


def deep():
    """Falling slopes with costs above L: U3 runs to the budget, and in a bracket of a few floats to the stall."""
    first = [(ONE, F(-1)), (F(9), ONE), (F(5), F(-1))]
    reply = lambda x, j: first[j] if j < 3 else (F(9), F(-1))
    thetas = (F(0.1), HALF, F(0.9))
    narrow = [(low, low + floats, theta) for low in (F(1.5), F(1.7)) for floats in (2, 9) for theta in thetas]
    # the next step comes out past the high end
    narrow.append((0x3FFC258A95E70F02, 0x3FFC258A95E70F04, 0x3FD9B5582E5AC89D))
    runs = [(b, ZERO, F(8), HALF) for b in (1, 2, 7, 60)] + [(100, *bounds) for bounds in narrow]
    cases = []
    for b, low, high, theta in runs:
        start = hager_zhang(params(low=low, high=high, theta=theta, first=TWO), ONE, F(-1), b, 5)
        cases.append(played(start, reply, 66))
    return cases


def around_level(r, count):
    """U2 and U3 with costs on L and a float beside it, where f0 and so L have either sign."""
    cases, slopes = [], [F(-1), F(-1), F(-1), SIGN | TINY, SIGN, ZERO, ONE]
    for i in range(count):
        f0 = [ONE, F(-1), F(-3)][i % 3]
        level = add(f0, mul(F(0.25), absolute(f0)))
        costs = [level, above(level), below(level), F(9)]
        first = [(F(9), F(-1)), (F(9), ONE), (F(9), F(-1))]
        reply = lambda x, j: first[j] if j < 3 else (costs[r.below(4)], slopes[r.below(7)])
        p = params(low=ZERO, high=F(8), first=TWO, epsilon=F(0.25))
        cases.append(played(hager_zhang(p, f0, F(-1), 4, 2), reply, 14))
    return cases


def verdicts(r, count):
    """The start step is the best, with cost and slope on the edges of the two verdicts and a float beside them."""
    cases = []
    for _ in range(count):
        delta, x, s0 = F(0.125) | r.below(1 << 52), r.like() & ~SIGN, r.like() | SIGN
        steep, flat, level = mul(HALF, s0), mul(sub(mul(TWO, delta), ONE), s0), F(1.25)
        edge, other = mul(mul(delta, x), s0), mul(delta, mul(x, s0))
        tried = [(ZERO, f, steep) for f in sorted({edge, other, above(edge)})] + [(ZERO, edge, below(steep))]
        tried += [(ONE, level, flat), (ONE, above(level), flat), (ONE, level, above(flat))]
        tried += [(ONE, level, steep), (ONE, level, below(steep))]
        for f0, f, g in tried:
            start = hager_zhang(params(delta=delta, sigma=HALF, epsilon=F(0.25), low=ZERO, first=x), f0, s0, 9, 9)
            cases.append(start + answer(F(1e30), F(-1)) + answer(F(1e30), ONE) + answer(f, g))
    return cases


def secant(p, q, *later, **changed):
    """The fourth question is the secant of p and q, each a step and a slope.

    With f0 = 0 and s0 = -1 a cost of 1 at the bounds and the start step meets neither verdict. An answer to the secant
    within the bounds brings another one (S4): of the high bound and it where its slope is not negative, else of the low
    bound and it.
    """
    start = hager_zhang(params(low=p[0], high=q[0], **changed), ZERO, F(-1), 100, 100)
    replies = [(ONE, p[1]), (ONE, q[1]), (ONE, ONE), *later]
    return start + b"".join(answer(*y) for y in replies)


def secants(r):
    """Secants of small whole numbers, exact where they divide, and 0/0; and of numbers at random, where every operation
    rounds."""
    whole = [((0, -2), (4, 6)), ((0, -1), (1, 1)), ((1, -3), (5, 1)), ((2, 8), (4, 4)), ((1, 1), (3, -3))]
    whole += [((0, 0), (1, 0)), ((1, 0), (2, 0)), ((0, -1), (3, 0)), ((-0.0, 1), (3, 0))]
    cases = [secant(tuple(map(F, p)), tuple(map(F, q))) for p, q in whole]
    finite = lambda: next(w for w in iter(r.word, None) if is_finite(w))
    for i in range(30):
        pick = r.like if i % 3 else finite
        low, high = sorted((pick() & ~SIGN, pick() & ~SIGN))
        # slopes of two signs put the secant between the bounds
        slopes = (pick() | SIGN, pick() & ~SIGN) if i % 2 else (pick(), pick())
        cases.append(secant((low, slopes[0]), (high, slopes[1]), (F(-1), r.like())))
    return cases


def bests():
    """Costs of the three start answers in every order, with ties."""
    start, costs = hager_zhang(params(low=ZERO, high=F(8), first=TWO), ZERO, F(-1), 9, 9), (F(1), F(5), F(9))
    return [start + answer(a, F(-1)) + answer(b, ONE) + answer(c, F(-1)) for a in costs for b in costs for c in costs]


def whole():
    """Steps that are whole numbers of EPS or of 1, with gamma 1/2: S2, S3 and L2 meet their bounds exactly."""
    cases = [secant((ZERO, ONE), (high, TWO), (ONE, ONE)) for high in (EPS, below(EPS), above(EPS))]
    for unit in (EPS, ONE):
        for p, q in ((-5, -1), (1, 5), (-3, 1), (-1, 3), (-1, 1)):
            for later in ([(ONE, F(3)), (ONE, ONE)], [(F(-1), F(-3)), (F(-1), F(-1))]):
                cases.append(secant((ZERO, F(p)), (mul(F(4), unit), F(q)), *later, gamma=HALF))
    return cases


def listed():
    r = Random(20060316)
    curves, loose, runs = endings() + on_curves(), free(r, 70), deep()
    cases = starts() + curves + loose + runs + around_level(r, 18) + verdicts(r, 4) + bests() + secants(r) + whole()
    for case in curves[::3] + loose[:11] + runs[2:3]:
        cases += cuts(case, 10)
    return cases
