"""Cases of dot and point: lengths, numbers that are not finite, overflow, zeros, subnormals, and numbers at random."""
from case_file import dot, point
from exact import HALF, INF, MAX, NAN, NORM, NOT_FINITE, ONE, SIGN, SUB, TINY, TWO, F, Random

ZEROS = [0, SIGN]


def lengths(r):
    """Equal and differing lengths around the ends of what is taken; the longest that a case file can hold."""
    some = lambda n: [r.like() for _ in range(n)]
    same = (0, 1, 2, 7, 256, 257, 511)
    two = [(n, n) for n in (*same, 255)] + [(0, 1), (1, 0), (1, 2), (2, 1), (3, 0), (0, 3)]
    two += [(255, 256), (257, 256), (1, 511)]
    three = [(n, n, n) for n in same] + [(0, 0, 3), (3, 3, 3), (3, 3, 2), (3, 2, 3), (2, 3, 3), (5, 5, 0), (2, 2, 511)]
    for n, m in ((0, 1), (1, 0), (1, 2), (2, 1)):
        three += [(n, m, n), (n, m, m), (n, n, m)]
    three += [(256, 256, 255), (256, 256, 257)]
    return [dot(some(n), some(m)) for n, m in two] + [point(some(n), r.like(), some(m), k) for n, m, k in three]


def with_(n, at, b):
    return [b if i == at else ONE for i in range(n)]


def places(n):
    return sorted({0, n // 2, n - 1})


def not_finite():
    """At the first, a middle and the last place of each vector, of vectors of some lengths."""
    cases = []
    for n, kinds in (1, NOT_FINITE), (2, NOT_FINITE), (3, NOT_FINITE), (40, NOT_FINITE[:2]), (256, NOT_FINITE[:1]):
        twos = [TWO] * n
        for bad in kinds:
            for at in places(n):
                broken = with_(n, at, bad)
                cases += [dot(broken, twos), dot(twos, broken)]
                cases += [point(broken, HALF, twos, n), point(twos, HALF, broken, n)]
    ones = [ONE] * 256
    first, middle, last = [with_(256, at, bad) for at, bad in zip(places(256), NOT_FINITE)]
    cases += [dot(ones, first), dot(middle, ones), dot(last, ones), dot(ones, last)]
    return cases + [point(ones, HALF, middle, 256), point(last, HALF, ones, 256)]


def at_once():
    """Both vectors bad, at the same place and at two, the lower one in either; and alpha, alone and beside them."""
    cases = []
    for n in (1, 2, 3, 40):
        good = [ONE] * n
        for alpha in NOT_FINITE:
            cases += [point(good, alpha, [TWO] * n, n), point(good, alpha, [0] * n, n)]
        for i in places(n):
            a = with_(n, i, NAN)
            cases += [point(a, INF, good, n), point(good, SIGN | INF, a, n)]
            for j in places(n):
                b = with_(n, j, INF)
                cases += [dot(a, b), dot(b, a), point(a, HALF, b, n), point(a, NAN, b, n)]
        cases += [dot([NAN] * n, [INF] * n), point([INF] * n, NAN, [NAN] * n, n)]
    first, last, good = with_(256, 0, INF), with_(256, 255, NAN), [ONE] * 256
    cases += [dot(first, last), dot(last, first), point(last, NAN, last, 256), point(good, NAN, good, 256)]
    return cases


def order():
    """The order of the refusals: lengths before what is supplied before what comes out."""
    return [
        dot([NAN], [ONE, ONE]),
        dot([INF] * 257, [ONE] * 257),
        dot([MAX, NAN], [MAX, ONE]),
        dot([MAX, ONE], [MAX, INF]),
        point([NAN], ONE, [ONE, ONE], 1),
        point([NAN], ONE, [ONE], 2),
        point([], NAN, [], 0),
        point([MAX, ONE], NAN, [MAX, ONE], 2),
        point([MAX, NAN], MAX, [MAX, ONE], 2),
        point([MAX, ONE], MAX, [MAX, INF], 2),
    ]


def overflow():
    """At the first, a middle and the last partial sum or element; and some that a later product would undo."""
    cases = []
    for n in (1, 2, 3):
        for at in places(n):
            for s in ZEROS:
                big = with_(n, at, s | MAX)
                cases += [dot(big, [TWO] * n), point(big, ONE, big, n), point([ONE] * n, TWO, big, n)]
    first, last, ones = with_(256, 0, MAX), with_(256, 255, SIGN | MAX), [ONE] * 256
    cases += [dot(first, [TWO] * 256), dot(last, [TWO] * 256), point(ones, TWO, last, 256)]
    return cases + [
        dot([MAX, MAX, SIGN | MAX, SIGN | MAX], [ONE] * 4),
        dot([MAX, SIGN | MAX], [TWO, TWO]),
        dot([MAX, SIGN | MAX, ONE], [ONE] * 3),
        dot([MAX, F(2.0 ** 969)], [ONE, ONE]),                      # below half a unit of the last place: rounds back
        dot([MAX, F(2.0 ** 970)], [ONE, ONE]),                      # half a unit: rounds to infinity
    ]


def overflow_at_each_place():
    """The partial sum at each place, by that product and by the sum; the element at each place, and at a later one too.
    The products or elements behind it are finite, and would bring an exact sum back."""
    cases = []
    for n, at in [(n, i) for n in (2, 3, 40) for i in range(n)] + [(256, i) for i in places(256)]:
        back = [SIGN | MAX if i == at + 1 else ONE for i in range(n)]
        product = [MAX if i == at else back[i] for i in range(n)]
        cases.append(dot(product, [TWO if i == at else ONE for i in range(n)]))
        total = [MAX if i in (0, at) else back[i] for i in range(n)]
        cases.append(dot(total, [TWO if at == 0 else ONE] + [ONE] * (n - 1)))
        cases.append(point([ONE] * n, TWO, with_(n, at, MAX), n))
        cases.append(point([ONE] * n, TWO, [MAX if i in (at, n - 1) else ONE for i in range(n)], n))
    return cases


def zeros():
    """The first product keeps its sign."""
    cases = []
    for x in ZEROS:
        for y in (ONE, SIGN | ONE, *ZEROS):
            cases += [dot([x], [y]), dot([y], [x]), dot([x, x], [y, y]), dot([x, SIGN ^ x], [y, y])]
            for z in ZEROS:
                cases += [point([z], x, [y], 1), point([z], y, [x], 1)]
    return cases


def subnormals():
    cases = []
    for x in (TINY, SUB, NORM, SIGN | TINY, SIGN | SUB):
        for y in (ONE, HALF, TWO, F(0.1), F(1e300), TINY, SIGN | HALF):
            cases += [dot([x], [y]), dot([x] * 3, [y, SIGN ^ y, HALF])]
            cases += [point([x], y, [NORM], 1), point([SUB, x], y, [x, TINY], 2)]
    return cases


def patterns(r):
    """Which patterns are finite: 1 times each is itself, or refused. Corners, any at random, and the first and last
    exponents."""
    corners = ZEROS + [TINY, SIGN | TINY, SUB, NORM, NORM + 1, ONE, SIGN | ONE, F(0.1), MAX, SIGN | MAX] + NOT_FINITE
    corners += [SIGN | (INF + 1), SIGN | NAN, INF | (1 << 51)]
    loose = [r.word() for _ in range(100)]
    ends = [(r.word() & ~(0x7FF << 52)) | (e << 52) for e in (0, 1, 2045, 2046, 2047) for _ in range(10)]
    return [dot([b], [ONE]) for b in corners + loose + ends]


def at_random(r):
    """Numbers of like size, which round at each step; and any patterns."""
    cases = []
    for pick, most in ((r.like, 5), (r.word, 3)):
        for _ in range(40):
            n = 1 + r.below(most)
            a, b = [pick() for _ in range(n)], [pick() for _ in range(n)]
            cases += [dot(a, b), point(a, pick(), b, n)]
    return cases


def listed():
    r = Random(20060101)
    faults = not_finite() + at_once() + order() + overflow() + overflow_at_each_place()
    return lengths(r) + faults + zeros() + subnormals() + patterns(r) + at_random(r)
