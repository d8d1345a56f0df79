"""Cases of the growing start (02, request 3): how it ends, what it refuses, and what follows it; and of 01's start by
the same field."""
from itertools import product

from case_file import answer, cuts, field, growing, params, played, three_answers
from exact import (HALF, INF, MAX, NAN, NOT_FINITE, ONE, SIGN, TINY, TWO, ZERO, F, Random, above, add, below, div, mul,
                   sub)
from lists_hagerzhang import COUNTS, LEVELS, RANGES, SMALL
from lists_hagerzhang import endings as by_three_answers
from model_cases import WHOLE
from model_curves import NUMBERS, curve
from model_hagerzhang import NAMES

# With f0 = 1, s0 = -2 and epsilon 1/4, L is 5/4. At a trial DOWN grows the step, HIGH begins U3 and UP ends the start;
# in U3 DOWN moves the low end, HIGH the high end, and UP ends it. MORE is for what is asked behind the start. None of
# them meets a verdict.
LEVEL = F(1.25)
DOWN, HIGH, UP, MORE = (ONE, F(-2)), (F(9), F(-2)), (F(9), ONE), (F(9), TWO)
MOST = 4294967295


def grows(k=3, f0=ONE, s0=F(-2), b=9, n=9, r=0, **changed):
    """A growing start. Its bounds are zeros where nothing else is said; 01's start refuses such."""
    return growing(params(**{"epsilon": F(0.25), "low": ZERO, "high": ZERO, **changed}), f0, s0, b, n, k, r)


def three(k=0, f0=ONE, s0=F(-2), b=9, n=9, r=0, **changed):
    """01's start by the same field."""
    return three_answers(params(**changed), f0, s0, b, n, k, r)


def answered(start, *replies):
    return start + b"".join(answer(*y) for y in replies)


def endings():
    """Every ending: of the start, and of a search behind it."""
    minimum = (ZERO, ZERO)
    return [
        answered(grows(), DOWN, minimum, UP),                                           # wolfe
        answered(grows(), (LEVEL, F(-1)), UP),                                          # approximate
        answered(grows(n=1, gamma=F(0.9)), DOWN, UP, MORE, MORE, MORE),                 # limit
        answered(grows(), HIGH, DOWN, HIGH, UP, MORE, (NAN, ONE)),                      # 2 behind the start
        answered(grows(), DOWN, DOWN, (ONE, NAN), UP),                                  # 2
        answered(grows(0)),                                                             # 3
        answered(grows(f0=MAX, epsilon=TWO)),                                           # 4
        answered(grows(first=F(1e308)), DOWN, UP),                                      # 5
        answered(grows(b=2), DOWN, HIGH, DOWN, HIGH, UP),                               # 6
        answered(grows(first=TINY), HIGH, UP),                                          # 7
        answered(grows(first=3), UP, HIGH, HIGH, UP),                                   # 7 behind the start
        answered(grows(s0=ZERO), UP),                                                   # 10
        answered(grows(2), DOWN, DOWN, DOWN, UP),                                       # 11
    ]


def trials():
    """The start ended at each trial up to the last one, by a slope, by U3 and by 11; and answers on the edges of the
    three."""
    cases = []
    for k in (1, 2, 3):
        for had in range(k + 1):
            cases += [answered(grows(k), *[DOWN] * had, *end) for end in ((UP, MORE, DOWN), (HIGH, UP, MORE))]
        cases.append(answered(grows(k), *[DOWN] * (k + 1), UP))
    for had, f, g in product((0, 1, 2), (LEVEL, above(LEVEL), below(LEVEL)), (ZERO, SIGN, TINY, SIGN | TINY)):
        cases.append(answered(grows(2), *[DOWN] * had, (f, g), MORE))
    return cases


def steps(r):
    """Steps whose products round, one after the other."""
    for i in range(6):
        yield answered(grows(9, first=r.like() & ~SIGN), *[DOWN] * (4 + i), [UP, HIGH][i % 2], MORE)


def runs():
    """U3 from 0 at each trial; from the last one it would ask other steps. Its ends move in every way, and the budget's
    last answer ends it or does not."""
    thetas = [HALF, F(0.25), F(0.9)]
    for had, moves, b in product((0, 1, 2), product((DOWN, HIGH), repeat=2), (1, 2, 3, 9)):
        yield answered(grows(2, b=b, theta=thetas[had]), *[DOWN] * had, HIGH, *moves, UP, MORE)
    # answers on the edges
    for f, g in product((LEVEL, above(LEVEL)), (ZERO, SIGN, SIGN | TINY)):
        yield answered(grows(), DOWN, HIGH, (f, g), MORE)


def last_growths():
    """The 400th growth; a 400th product that overflows, 5; and a 401st that would, where 11 goes before."""
    yield answered(grows(400, first=TINY), *[DOWN] * 400, UP, MORE)
    yield answered(grows(400, first=F(5e28)), *[DOWN] * 400, UP)
    yield answered(grows(400, first=F(4e28)), *[DOWN] * 401, UP)


def overflows():
    """Products on both sides of the largest float, with growths left and with none."""
    fifth = div(MAX, F(5))
    for first in (below(fifth), fifth, above(fifth), F(1e308), MAX):
        yield from (answered(grows(k, first=first), DOWN, DOWN, UP) for k in (1, 2))
        yield answered(grows(first=first), HIGH, DOWN, UP)
        yield answered(grows(first=first), UP, MORE)
    yield answered(grows(9, first=F(1e306)), DOWN, DOWN, DOWN, DOWN, UP)


def stalls():
    """U3 from 0 to so many of the smallest float, which is a pattern: to the stall or to the budget; 6 goes before
    7."""
    for units, theta, move in product((1, 2, 3, 6), (HALF, F(0.1), F(0.9)), (DOWN, HIGH)):
        for b in (1, 2, 9) if theta == HALF else (9,):
            yield played(grows(b=b, first=units, theta=theta), lambda x, i: move if i else HIGH, 12)
    for move in (DOWN, HIGH):
        yield played(grows(first=TINY), lambda x, i: [DOWN, HIGH][i] if i < 2 else move, 12)
    yield played(grows(first=TWO, theta=F(2.0 ** -60)), lambda x, i: HIGH, 12)


def not_finite():
    """A cost or a slope that is not finite, at the first trial, a later one and the last; at U3's first and last
    answer; and behind the start."""
    for before in ([], [DOWN], [DOWN] * 3, [HIGH], [DOWN, HIGH, HIGH], [UP], [DOWN, UP]):
        for bad in NOT_FINITE[:3]:
            yield from (answered(grows(b=2), *before, y, MORE) for y in ((bad, ONE), (ONE, bad)))


def starts():
    """Every number not finite in turn, most of them beside a fault that 2 goes before; every range at its ends; the
    bounds, which 01's start alone reads; K, which it does not read; R."""
    cases = []
    for name in NAMES + ["f0", "s0"]:
        for bad, beside in zip(NOT_FINITE, ({}, {"k": 0}, {"r": 1}, {"s0": ZERO}, {"first": SIGN})):
            cases.append(answered(grows(**{**beside, name: bad}), UP))
        cases += [three(**{"r": r, name: bad}) for bad, r in zip(NOT_FINITE[:3], (0, 0, 1))]
    ones = lambda x, i: (ONE, ONE)
    cases += [played(growing(params(**changed), F(3), F(-1), 9, 9, 3), ones, 2) for changed in RANGES]
    ends = [ZERO, SIGN, TINY, SIGN | TINY, ONE, F(-1), MAX, SIGN | MAX]
    cases += [played(grows(first=first), ones, 2) for first in ends]
    cases += [played(grows(s0=s0), ones, 2) for s0 in ends]
    for low, high in ((NAN, NAN), (F(-1), NAN), (SIGN | INF, INF), (F(4), ONE), (ZERO, F(4))):
        cases += [answered(start(low=low, high=high), DOWN, UP, MORE) for start in (grows, three)]
    counts = [0, 1, 2, 5, 6, 256, 400, 401, 65537, 16777216, MOST]
    cases += [answered(grows(k), DOWN, DOWN, DOWN) for k in counts] + [answered(grows(r=r), DOWN) for r in counts]
    cases += [answered(three(k, r=r), DOWN) for k in (0, 400, 401, MOST) for r in (0, 1, MOST)]
    return cases + [answered(grows(b=b, n=n), HIGH, HIGH) for b, n in COUNTS]


def orders():
    """Refusals that compete: 2, 3, 10 and 4 each there or not, and 3 for each number that is new. 01's start has no
    10."""
    thirds = [{}, {"k": 0}, {"first": SIGN}, {"r": 1}, {"delta": ONE}]
    fourths = [{"f0": f0, "epsilon": epsilon} for f0, epsilon in LEVELS]
    for second, third, tenth, fourth in product(({}, {"gamma": NAN}), thirds, ({}, {"s0": SIGN}), ({}, fourths[0])):
        yield answered(grows(**second, **third, **tenth, **fourth), UP)
        yield answered(three(**second, **third, **tenth, **fourth), UP)
    for fourth in fourths:
        yield from (answered(grows(s0=s0, **fourth), UP) for s0 in (F(-2), ZERO, ONE))


def bests():
    """Costs in every order with ties, where the first trial is the high end, the low end and neither; and behind U3."""
    low, costs = (HALF, ONE), (HALF, ONE, F(9))
    yield from (answered(grows(), (f, F(g))) for f in costs for g in (0.0, 3))
    yield from (answered(grows(), (c, F(-2)), (b, F(3))) for c in low for b in costs)
    for c, a, b in product(low, low, costs):
        yield answered(grows(), (c, F(-2)), (a, F(-2)), (b, F(3)))
    for c, d, e in product(low, costs, costs):
        yield answered(grows(), (c, F(-2)), HIGH, (d, F(-2)), (e, F(3)), UP)
    # zeros of both signs are equal
    for f0, c in product((ZERO, SIGN), repeat=2):
        yield answered(grows(f0=f0), (c, F(3)))
        yield answered(grows(), (f0, F(-2)), (c, F(-2)), (f0, F(3)))


def verdicts(r):
    """Costs and slopes on the edges of the two verdicts and a float beside them, right behind the start; and a slope s0
    so small that the point at 0 is a stop."""
    for _ in range(2):
        delta, x, s0 = F(0.125) | r.below(1 << 52), r.like() & ~SIGN, r.like() | SIGN
        steep, flat = mul(HALF, s0), mul(sub(mul(TWO, delta), ONE), s0)
        edge, other = mul(mul(delta, x), s0), mul(delta, mul(x, s0))
        start = lambda f0: grows(f0=f0, s0=s0, delta=delta, sigma=HALF, first=x)
        firsts = [(ZERO, f, steep) for f in sorted({edge, other, above(edge)})] + [(ZERO, edge, below(steep))]
        firsts += [(ONE, f, g) for f in (LEVEL, above(LEVEL)) for g in (steep, below(steep))]
        yield from (answered(start(f0), (f, g), (F(1e30), ONE)) for f0, f, g in firsts)
        for f, g in product((LEVEL, below(LEVEL)), (flat, above(flat))):
            yield answered(start(ONE), (LEVEL, below(steep)), (f, g))
        yield from (answered(start(ZERO), (f, ZERO)) for f in (edge, above(edge)))
    for s0 in (TINY, 2, 6):
        yield answered(grows(s0=SIGN | s0), UP, UP)


def polynomial(coefficients, x):
    """Cost and slope."""
    cost = slope = ZERO
    for a in reversed(coefficients):
        slope = add(mul(slope, x), cost)
        cost = add(mul(cost, x), F(a))
    return cost, slope


def on_plant(plant, most, k=9, **changed):
    return played(grows(k, *plant(ZERO), **changed), lambda x, i: plant(x), most)


def on_curves():
    for k, first in product(NUMBERS, (1e-3, 0.7, 3)):
        yield on_plant(lambda x: curve(k, x), 40, first=F(first), epsilon=F(1e-6))
    for k, first in ((5, 1e80), (7, 1e-30), (6, 1e103)):
        yield on_plant(lambda x: curve(k, x), 60, 50, first=F(first))


def polynomials(r):
    """Half of them at random. The others fall to a, rise to 4a, and fall to 5a, where they are above the cost at 0: a
    trial between these two begins U3."""
    for i in range(32):
        narrow = dict(delta=F(0.03125), sigma=F(0.03125)) if i % 4 else {}
        chosen = dict(theta=[HALF, F(0.1), F(0.9)][i % 3], epsilon=[ZERO, F(1e-6), HALF][r.below(3)], b=1 + r.below(30))
        if i % 2:
            c = [r.below(9) - 4, -1 - r.below(4), r.below(13) - 4, 2 - r.below(9), r.below(3), 0.0625 * (i % 3)]
            first = 0.0625 * (1 + r.below(40))
        else:
            a = 0.25 * (1 + r.below(20))
            c = [r.below(9) - 4, -20 * a ** 3, 14.5 * a ** 2, -10 * a / 3, 0.25]
            first = (4.1 + 0.1 * r.below(9)) * a / 5 ** r.below(3)
        k, n = 1 + r.below(8), 1 + r.below(5)
        yield on_plant(lambda x: polynomial(c, x), 30, k, n=n, first=F(first), **chosen, **narrow)


def free(r, count):
    """Answers that are any small numbers, whatever the step, falling more often than not; in every fourth search one is
    not finite."""
    one_of = lambda *numbers: numbers[r.below(len(numbers))]
    falling = [F(x) for x in (-2, -2, -1, -0.5)]
    for i in range(count):
        start = grows(
            1 + r.below(6), b=1 + r.below(4), n=1 + r.below(3), first=one_of(HALF, ONE, F(3), r.like() & ~SIGN),
            theta=one_of(HALF, F(0.25), F(0.9)), gamma=one_of(F(0.66), F(0.1), F(0.9)), epsilon=one_of(ZERO, F(0.25)),
            sigma=one_of(F(0.9), F(0.1)), low=one_of(ZERO, NAN), high=one_of(ZERO, F(4)))
        broken, bad, which = r.below(10) if i % 4 == 0 else -1, one_of(*NOT_FINITE), r.below(2)

        def reply(x, j):
            y = [one_of(*SMALL, F(9), F(9), F(9)), one_of(*SMALL, *falling)]
            if j == broken:
                y[which] = bad
            return y

        yield played(start, reply, 24)


def as_whole(case, k):
    """A case that begins with a field 32, with the same start in a field 16."""
    return field(WHOLE, case[3:99] + bytes([0]) + k.to_bytes(4, "big") + bytes(4)) + case[99:]


def listed():
    r = Random(20060317)
    ends, inner, plants, loose = endings(), list(runs()), list(on_curves()) + list(polynomials(r)), list(free(r, 64))
    cases = ends + trials() + list(steps(r)) + inner + list(last_growths()) + list(overflows()) + list(stalls())
    cases += list(not_finite()) + starts() + list(orders()) + list(bests()) + list(verdicts(r)) + plants + loose
    for case in ends + inner[::11] + plants[::9] + loose[:5]:
        cases += cuts(case, 8)
    # a start of three answers tells the same by either field, whatever K is
    return cases + [as_whole(case, (0, 1, 401, MOST)[i % 4]) for i, case in enumerate(by_three_answers())]
