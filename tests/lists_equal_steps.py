"""Cases of 02's request 4, "Zero slope at an end": S2 and S3 give no e for equal steps, and the search goes on."""
from itertools import product

from case_file import growing, hager_zhang, params, played
from exact import HALF, ONE, SIGN, TINY, TWO, ZERO, F, Random, above, add, below, div, mul
from model_cases import floats, parsed, search_of
from model_hagerzhang import EPS

# With f0 = 1, s0 = -2 and epsilon 0, L is 1. DOWN and FALL move the low end, HIGH begins U3 or moves its high end, UP
# and the FLAT ones are high ends. None of them meets a verdict.
DOWN, FALL, HIGH, UP = (ONE, F(-2)), (ONE, F(-3)), (F(9), F(-2)), (F(9), TWO)
FLAT, FLAT_BELOW = (F(9), ZERO), (F(9), SIGN)
MOST = 20
QUARTER, FOUR = F(0.25), F(4)


def three(low, high, n=3, **changed):
    """The start of three answers."""
    return hager_zhang(params(epsilon=ZERO, low=low, high=high, **changed), ONE, F(-2), 4, n)


def grows(first, n=3, s0=F(-2), **changed):
    return growing(params(epsilon=ZERO, low=ZERO, high=ZERO, first=first, **changed), ONE, s0, 4, n, 3)


def onward(start, *replies):
    """A search to its end. Where the replies have run out the last one is given again."""
    return played(start, lambda x, i: replies[min(i, len(replies) - 1)], MOST, onward=True)


def high_ends():
    """A zero slope of either sign at max, at the first trial, at a later one, at S1's and at one of U3, with every kind
    of answer to L2."""
    for flat, then in product((FLAT, FLAT_BELOW), (DOWN, HIGH, UP, FLAT, FLAT_BELOW)):
        yield onward(three(ZERO, FOUR), DOWN, flat, DOWN, UP, then)
        yield onward(grows(ONE), flat, UP, then)
    for flat in (FLAT, FLAT_BELOW):
        yield onward(grows(QUARTER), DOWN, DOWN, flat, DOWN, HIGH, UP)
        yield onward(grows(TWO), HIGH, HIGH, flat, DOWN, UP)
        yield onward(three(ZERO, FOUR, gamma=F(0.9)), DOWN, UP, DOWN, flat, UP, DOWN, UP)


def low_ends():
    """A zero slope of either sign at min, alone and with one at max; and a low end that S1 comes to by rounding."""
    for flat, low in product((FLAT, FLAT_BELOW), (ZERO, SIGN, ONE, F(0.3))):
        yield onward(three(low, FOUR), flat, UP, DOWN, UP, DOWN)
    yield from (onward(three(ONE, FOUR), flat, FLAT, DOWN) for flat in (FLAT, FLAT_BELOW))
    steep = (F(9), F(1e300))
    yield onward(three(ONE, FOUR), DOWN, steep, DOWN, UP, HIGH, DOWN, UP)
    yield onward(grows(ONE), DOWN, steep, UP, DOWN, UP)
    yield onward(grows(ONE, s0=SIGN | TINY), UP, UP, DOWN, UP)


def minima():
    """(x - 1)^2, whose minimum is an end or comes to be one; delta is so large that it meets no verdict at once."""
    valley = lambda x, i: (mul(add(x, F(-1)), add(x, F(-1))), mul(TWO, add(x, F(-1))))
    strict = dict(delta=F(0.75), sigma=F(0.9))
    for low, high in ((ZERO, ONE), (ONE, F(3)), (HALF, ONE)):
        yield played(three(low, high, first=QUARTER, **strict), valley, MOST, onward=True)
    for first in (ONE, F(0.2), F(0.04)):
        yield played(grows(first, **strict), valley, MOST, onward=True)


def close_ends():
    """Ends within EPS of each other or near it: both of S2 and S3, one of them or none gives an e. Among the smallest
    floats no L2 follows."""
    widths = [div(EPS, TWO), EPS, mul(EPS, F(1.5)), TINY, 5]
    low, high = (ONE, F(-20)), (F(9), F(20))
    for width, (b, then), gamma in product(widths, ((high, UP), (high, DOWN), (high, HIGH), (FLAT, UP)), (0.1, 0.9)):
        yield onward(three(ZERO, width, n=2, gamma=F(gamma)), low, b, DOWN, then)
    for width, (b, then) in product(widths, ((UP, UP), (UP, FALL), (FLAT, UP))):
        yield onward(grows(width, n=2, gamma=F(0.9)), b, then, UP)


def at_eps():
    """Ends that U3 brings to a distance of EPS from S1's trial, and of a float less and more. An end that has not moved
    gives no e, near or not."""
    high = (F(9), F(6))
    for unit, then in product((EPS, below(EPS), above(EPS)), ([HIGH, UP], [HIGH, FALL, UP])):
        yield onward(three(ZERO, mul(F(8), unit), n=1), DOWN, high, DOWN, *then)
        yield onward(grows(mul(F(8), unit), n=1), high, *then)


def silent(case):
    """Where a Hager-Zhang search comes to equal steps, by the model."""
    (tag, body), *answers = parsed(case)[0][0]
    s = search_of(tag, body)
    for _, reply in answers:
        s.answer(*floats(reply))
    return s.silent


def free(r, tries, most):
    """Of so many searches with few costs and slopes, zeros among them, those that come to equal steps in a new way."""
    one_of = lambda *numbers: numbers[r.below(len(numbers))]
    widths = [ONE, TWO, FOUR, div(EPS, TWO), EPS, mul(EPS, TWO), TINY, 3]
    ways = set()
    for i in range(tries):
        chosen = dict(gamma=one_of(F(0.1), HALF, F(0.9)), theta=one_of(HALF, QUARTER), n=1 + r.below(3))
        start = grows(one_of(*widths), **chosen) if i % 2 else three(one_of(ZERO, SIGN), one_of(*widths), **chosen)
        replies = [(one_of(ONE, ONE, F(9)), one_of(ZERO, SIGN, F(-2), F(-3), TWO, F(5))) for _ in range(MOST)]
        case = played(start, lambda x, i: replies[i], MOST, 0, onward=True)
        way = i % 2, *silent(case)
        if len(way) > 1 and way not in ways and len(ways) < most:
            ways.add(way)
            yield case


def listed():
    return [*high_ends(), *low_ends(), *minima(), *close_ends(), *at_eps(), *free(Random(20060318), 250, 36)]
