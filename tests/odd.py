#!/usr/bin/env python3
"""Odd cases for the program `cases`: zeros of both signs, ties, overflow on the way, refusals that compete, ends that
fall together.

usage: odd.py CASES EXPECTED     writes the case file, and the text that `cases` has to write for it.

The expected lines were worked out by hand from the rules (01, 02); nothing here computes them. In them `|` parts lines,
and a float is written by its first hexadecimal digits and a dot, which stands for zeros up to 16 digits: 3FF. is 1.0,
4. is 2.0, C. is -2.0 and 8. is -0.0. A case is its name, the words of 01 or 02 that decide it, its first field, the
answers, the lines for these, and the closing lines.

Where nothing else is said: delta 0.25, sigma 0.5, epsilon 0, theta 0.5, gamma 0.5, bounds 0 and 4, start step 1,
f0 = 1, s0 = -2. So L = 1, "wolfe" is f - 1 <= (0.25*x)*-2 with g >= -1, and "approximate" is 1 >= g >= -1 with f <= 1.
START answers the first three asks: a = (0, 1, -2), b = (4, 9, 6), c = (1, 1, -2). Then c is best, no verdict holds by
its slope, and S1 asks secant(a, b) = 8/8 = 1. A growing start has K = 2, and both bounds are 0.
"""
import sys

import case_file
from exact import F
from model_backtracking import ARMIJO, GOLDSTEIN, STRONG, WOLFE
from model_lines import printed

INF = float("inf")
NAN = float("nan")
EPS = 2.0 ** -52
HUGE = 2.0 ** 1023
TINY = 2.0 ** -1074
START = [(1, -2), (9, 6), (1, -2)]
NONE = "BRACKET none | BEST none | COUNTS evaluations 0 iterations 0"


def floats(*xs):
    return [F(x) for x in xs]


def numbers(delta=0.25, sigma=0.5, epsilon=0.0, theta=0.5, gamma=0.5, eta=0.01, low=0.0, high=4.0, start=1.0,
            f0=1.0, s0=-2.0, B=100, N=100):
    """Those of a Hager-Zhang start, in the order of its field."""
    return floats(delta, sigma, epsilon, theta, gamma, eta, low, high, start), *floats(f0, s0), B, N


def hz(**named):
    return case_file.hager_zhang(*numbers(**named))


def grow(K=2, R=0, **named):
    return case_file.growing(*numbers(**{"low": 0.0, "high": 0.0, **named}), K, R)


def three(K=0, R=0, **named):
    """01's start in a field 16."""
    return case_file.three_answers(*numbers(**named), K, R)


def bt(condition, c1, c2=0.0, rho=0.5, alpha=1.0, f0=1.0, s0=-2.0, N=100):
    return case_file.backtracks((condition, *floats(c1, c2)), *floats(rho, alpha, f0, s0), N)


def dot(a, b):
    return case_file.dot(floats(*a), floats(*b))


def point(x0, alpha, d, room):
    return case_file.point(floats(*x0), *floats(alpha), floats(*d), room)


CASES = [
    # both zeros
    ("minus-zero-slope-is-U1", "U1: c.g >= 0 (minus zero too): (a, c).", hz(), START + [(0.5, -0.0), (7, 7)],
     "CASE 1 | ASK 0. | ASK 401. | ASK 3FF. | ASK 3FF. | ASK 3FF. | STOP wolfe 3FF. evaluations 5 iterations 1",
     "BRACKET 0. 3FF. C. 3FF. 3FE. 8. | BEST 3FF. 3FE. 8. | COUNTS evaluations 5 iterations 1"),
    ("minus-zero-slope-ends-U3", "If d.g >= 0: (h, d).", hz(), START + [(3, -1), (5, -0.0)],
     "CASE 2 | ASK 0. | ASK 401. | ASK 3FF. | ASK 3FF. | ASK 3FE. | ASK 3FE.",
     "BRACKET 0. 3FF. C. 3FE. 4014. 8. | BEST 3FF. 3FF. C. | COUNTS evaluations 5 iterations 1"),
    ("minus-zero-min", "0 <= min < max; ask a = min", hz(low=-0.0), [(0.5, 0), (9, 6), (1, -2)],
     "CASE 3 | ASK 8. | ASK 401. | ASK 3FF. | STOP wolfe 8. evaluations 3 iterations 0",
     "BRACKET 8. 3FE. 0. 401. 4022. 4018. | BEST 8. 3FE. 0. | COUNTS evaluations 3 iterations 0"),
    ("bounds-both-zero", "0 <= min < max", hz(low=-0.0, high=0.0), [(1, -2)],
     "CASE 4 | REFUSED 3 | REFUSED 8", NONE),
    ("minus-zero-epsilon-f0-below-0", "epsilon 1e-6: >= 0; L = f0 + epsilon_k; U2: c.f <= L",
     hz(epsilon=-0.0, f0=-3.0), [(-3, -2), (9, 6), (-3, -2), (-3, -1)],
     "CASE 5 | ASK 0. | ASK 401. | ASK 3FF. | ASK 3FF. | ASK 4.",
     "BRACKET 0. C008. C. 401. 4022. 4018. | BEST 3FF. C008. C. | COUNTS evaluations 4 iterations 0"),
    ("minus-zero-epsilon-f0-above-0", "epsilon 1e-6: >= 0; L = f0 + epsilon_k; U2: c.f <= L",
     hz(epsilon=-0.0), START + [(1, -1)],
     "CASE 6 | ASK 0. | ASK 401. | ASK 3FF. | ASK 3FF. | ASK 4.",
     "BRACKET 0. 3FF. C. 401. 4022. 4018. | BEST 3FF. 3FF. C. | COUNTS evaluations 4 iterations 0"),
    ("flat-start-is-approximate", "(2*delta - 1)*s0 >= best.g, best.g >= sigma*s0 and best.f <= L",
     hz(epsilon=0.5, s0=0.0), [(9, -2), (9, 6), (1.5, -0.0)],
     "CASE 7 | ASK 0. | ASK 401. | ASK 3FF. | STOP approximate 3FF. evaluations 3 iterations 0",
     "BRACKET 0. 4022. C. 401. 4022. 4018. | BEST 3FF. 3FF8. 8. | COUNTS evaluations 3 iterations 0"),
    ("delta-equals-sigma", "delta <= sigma < 1; (2*delta - 1)*s0 >= best.g",
     hz(delta=0.5), [(9, -2), (9, 6), (1, -0.0)],
     "CASE 8 | ASK 0. | ASK 401. | ASK 3FF. | STOP approximate 3FF. evaluations 3 iterations 0",
     "BRACKET 0. 4022. C. 401. 4022. 4018. | BEST 3FF. 3FF. 8. | COUNTS evaluations 3 iterations 0"),
    # equal costs
    ("three-equal-costs", "then c, overriding", hz(), [(2, -2), (2, 6), (2, -2)],
     "CASE 9 | ASK 0. | ASK 401. | ASK 3FF. | ASK 3FF.",
     "BRACKET 0. 4. C. 401. 4. 4018. | BEST 3FF. 4. C. | COUNTS evaluations 3 iterations 0"),
    ("a-and-b-equal-below-c", "then b by the same test, overriding", hz(), [(2, -2), (2, 6), (3, -2)],
     "CASE 10 | ASK 0. | ASK 401. | ASK 3FF. | ASK 3FF.",
     "BRACKET 0. 4. C. 401. 4. 4018. | BEST 401. 4. 4018. | COUNTS evaluations 3 iterations 0"),
    ("a-lowest-alone", "if a.f <= b.f and a.f <= c.f take a", hz(), [(2, -2), (3, 6), (3, -2)],
     "CASE 11 | ASK 0. | ASK 401. | ASK 3FF. | ASK 3FF.",
     "BRACKET 0. 4. C. 401. 4008. 4018. | BEST 0. 4. C. | COUNTS evaluations 3 iterations 0"),
    ("costs-are-zeros-of-both-signs", "a.f <= b.f; then c, overriding", hz(), [(-0.0, -2), (-0.0, 6), (0.0, -2)],
     "CASE 12 | ASK 0. | ASK 401. | ASK 3FF. | ASK 3FF.",
     "BRACKET 0. 8. C. 401. 8. 4018. | BEST 3FF. 0. C. | COUNTS evaluations 3 iterations 0"),
    # S2 and S3
    ("S3-overwrites-S2", "S3: if |c.x - A.x| < EPS, e = secant(a, A), overwriting S2's.", hz(high=EPS / 2),
     [(1, -5), (9, 5), (1, -2), (3, -1), (0.5, -1), (0, 0.5), (0.25, -1)],
     "CASE 13 | ASK 0. | ASK 3CA. | ASK 3FF. | ASK 3C9. | ASK 3C8. | ASK 3C88. | ASK 3C84."
     " | STOP wolfe 3C88. evaluations 7 iterations 1",
     "BRACKET 3C84. 3FD. BFF. 3C88. 0. 3FE. | BEST 3C88. 0. 3FE. | COUNTS evaluations 7 iterations 1"),
    ("S2's-stays-where-S3-gives-none", "02: S3 none when a and A have [equal steps]. An earlier e then stays.",
     hz(high=EPS / 2), START + [(5, 1)],
     "CASE 14 | ASK 0. | ASK 3CA. | ASK 3FF. | ASK 3C8. | ASK 3C6999999999999A",
     "BRACKET 0. 3FF. C. 3CA. 4022. 4018. | BEST 3FF. 3FF. C. | COUNTS evaluations 4 iterations 0"),
    ("S3-gives-one-where-S2-gives-none", "02: S2 gives no e when b and Z have equal steps; S3: e = secant(a, A)",
     hz(high=EPS / 2), START + [(0, -1)],
     "CASE 15 | ASK 0. | ASK 3CA. | ASK 3FF. | ASK 3C8. | ASK 3C9.",
     "BRACKET 0. 3FF. C. 3CA. 4022. 4018. | BEST 3FF. 3FF. C. | COUNTS evaluations 4 iterations 0"),
    ("a-distance-of-EPS-is-not-below-it", "S3: if |c.x - A.x| < EPS", hz(high=4 * EPS), START + [(5, 2), (9, 9)],
     "CASE 16 | ASK 0. | ASK 3CD. | ASK 3FF. | ASK 3CB. | ASK BCA. | ASK 3CA.",
     "BRACKET 0. 3FF. C. 3CB. 4014. 4. | BEST 3FF. 3FF. C. | COUNTS evaluations 5 iterations 1"),
    ("zero-slope-at-the-high-end", "02: S2 gives no e when b and Z have equal steps. S4 runs only if some e was given.",
     hz(high=1.0, start=0.5), [(1, -2), (9, 0), (1, -2), (1, 1)],
     "CASE 17 | ASK 0. | ASK 3FF. | ASK 3FE. | ASK 3FF. | ASK 3FE.",
     "BRACKET 0. 3FF. C. 3FF. 4022. 0. | BEST 3FE. 3FF. C. | COUNTS evaluations 4 iterations 0"),
    # the budget B
    ("B-th-answer-ends-U3", "6: one U3 run has had B answers and the last did not end it",
     hz(B=2), START + [(3, -1), (0.5, -1), (0, 0.5)],
     "CASE 18 | ASK 0. | ASK 401. | ASK 3FF. | ASK 3FF. | ASK 3FE. | ASK 3FE8."
     " | STOP wolfe 3FE8. evaluations 6 iterations 1",
     "BRACKET 3FE. 3FE. BFF. 3FE8. 0. 3FE. | BEST 3FE8. 0. 3FE. | COUNTS evaluations 6 iterations 1"),
    ("B-th-answer-does-not-end-U3", "6: .. the last did not end it; 8 before all; state unchanged",
     hz(B=2), START + [(3, -1), (0.5, -1), (1.5, -1), (NAN, 0), (0, 0)],
     "CASE 19 | ASK 0. | ASK 401. | ASK 3FF. | ASK 3FF. | ASK 3FE. | ASK 3FE8. | REFUSED 6 | REFUSED 8 | REFUSED 8",
     "BRACKET 0. 3FF. C. 401. 4022. 4018. | BEST 3FF. 3FF. C. | COUNTS evaluations 6 iterations 0"),
    ("B-th-answer-is-NaN", "A non-finite B-th answer is 2.", hz(B=2), START + [(3, -1), (0.5, -1), (NAN, 1)],
     "CASE 20 | ASK 0. | ASK 401. | ASK 3FF. | ASK 3FF. | ASK 3FE. | ASK 3FE8. | REFUSED 2",
     "BRACKET 0. 3FF. C. 401. 4022. 4018. | BEST 3FF. 3FF. C. | COUNTS evaluations 5 iterations 0"),
    ("B-is-for-one-U3-run", "6: one U3 run has had B answers",
     hz(gamma=0.0625, B=1), START + [(3, -1), (5, 1), (3, -1), (5, 2)],
     "CASE 21 | ASK 0. | ASK 401. | ASK 3FF. | ASK 3FF. | ASK 3FE. | ASK 3FD. | ASK 3FC. | ASK 3FB.",
     "BRACKET 0. 3FF. C. 3FC. 4014. 4. | BEST 3FF. 3FF. C. | COUNTS evaluations 7 iterations 1"),
    ("6-before-7", "After a finite B-th answer, 6 comes before 5 and 7",
     hz(low=1.0, high=1 + 4 * EPS, start=5.0, B=1), [(1, -1), (9, 1), (1, -2), (3, -1), (3, -1)],
     "CASE 22 | ASK 3FF. | ASK 3FF0000000000004 | ASK 4014. | ASK 3FF0000000000002 | ASK 3FF0000000000001 | REFUSED 6",
     "BRACKET 3FF. 3FF. BFF. 3FF0000000000004 4022. 3FF. | BEST 4014. 3FF. C. | COUNTS evaluations 5 iterations 0"),
    ("B-th-answer-ends-U3-then-5", "ask (A.x + Z.x)/2; 5: the next trial step comes out not finite",
     hz(low=HUGE, high=1.5 * HUGE, gamma=0.125, B=1), [(9, -0.25), (9, 0.25), (1, -2), (9, -0.125), (9, 0.25)],
     "CASE 23 | ASK 7FE. | ASK 7FE8. | ASK 3FF. | ASK 7FE4. | ASK 7FE2. | REFUSED 5",
     "BRACKET 7FE. 4022. BFD. 7FE8. 4022. 3FD. | BEST 3FF. 3FF. C. | COUNTS evaluations 5 iterations 0"),
    # refusal 7
    ("U3-step-rounds-onto-h", "7: U3's next step is not strictly between its two ends; nothing is asked",
     hz(low=1.0, high=1 + 4 * EPS, start=5.0, B=2),
     [(1, -1), (9, 1), (1, -2), (3, -1), (3, -1)],
     "CASE 24 | ASK 3FF. | ASK 3FF0000000000004 | ASK 4014. | ASK 3FF0000000000002 | ASK 3FF0000000000001 | REFUSED 7",
     "BRACKET 3FF. 3FF. BFF. 3FF0000000000004 4022. 3FF. | BEST 4014. 3FF. C. | COUNTS evaluations 5 iterations 0"),
    ("U3-step-rounds-onto-k", "7: U3's next step is not strictly between its two ends; nothing is asked",
     hz(low=1.0, high=1 + 4 * EPS, start=5.0, B=2),
     [(1, -1), (9, 1), (1, -2), (3, -1), (0.5, -1)],
     "CASE 25 | ASK 3FF. | ASK 3FF0000000000004 | ASK 4014. | ASK 3FF0000000000002 | ASK 3FF0000000000001 | REFUSED 7",
     "BRACKET 3FF. 3FF. BFF. 3FF0000000000004 4022. 3FF. | BEST 4014. 3FF. C. | COUNTS evaluations 5 iterations 0"),
    ("theta-too-small-to-move", "Ask d.x = (1-theta)*h.x + theta*k; 7: not strictly between",
     hz(theta=2.0 ** -60, low=1.0), [(1, -2), (9, 1), (1, -2), (3, -1)],
     "CASE 26 | ASK 3FF. | ASK 401. | ASK 3FF. | ASK 4008. | REFUSED 7",
     "BRACKET 3FF. 3FF. C. 401. 4022. 3FF. | BEST 3FF. 3FF. C. | COUNTS evaluations 4 iterations 0"),
    # the limit N
    ("verdict-before-limit", "After an iteration the verdict is tested first, then the limit",
     hz(N=1), START + [(0, 0), (7, 7)],
     "CASE 27 | ASK 0. | ASK 401. | ASK 3FF. | ASK 3FF. | ASK 3FF. | STOP wolfe 3FF. evaluations 5 iterations 1",
     "BRACKET 0. 3FF. C. 3FF. 0. 0. | BEST 3FF. 0. 0. | COUNTS evaluations 5 iterations 1"),
    ("limit-with-best-step", "the outcome limit, with bracket and best of the N-th iteration",
     hz(N=1), START + [(5, 2), (0, 0)],
     "CASE 28 | ASK 0. | ASK 401. | ASK 3FF. | ASK 3FF. | ASK BFE. | LIMIT 3FF. evaluations 5 iterations 1",
     "BRACKET 0. 3FF. C. 3FF. 4014. 4. | BEST 3FF. 3FF. C. | COUNTS evaluations 5 iterations 1"),
    ("limit-before-the-next-step", "then the limit; only then is the next step worked out",
     hz(N=1), [(1, -2), (9, -1.5), (1, -2), (7, 7), (0.5, -1.5)],
     "CASE 29 | ASK 0. | ASK 401. | ASK 3FF. | ASK 403. | ASK 4. | LIMIT 4. evaluations 5 iterations 1",
     "BRACKET 4. 3FE. BFF8. 401. 4022. BFF8. | BEST 4. 3FE. BFF8. | COUNTS evaluations 5 iterations 1"),
    ("5-belongs-to-the-next-iteration", "so refusal 5 there belongs to the next iteration",
     hz(N=2), [(1, -2), (9, -1.5), (1, -2), (7, 7), (0.5, -1.5)],
     "CASE 30 | ASK 0. | ASK 401. | ASK 3FF. | ASK 403. | ASK 4. | REFUSED 5",
     "BRACKET 4. 3FE. BFF8. 401. 4022. BFF8. | BEST 4. 3FE. BFF8. | COUNTS evaluations 5 iterations 1"),
    # overflow and underflow on the way
    ("secant-by-zero-after-the-start", "Secant(p, q) = (p.x*q.g - q.x*p.g)/(q.g - p.g); 5",
     hz(), [(1, -2), (9, -2), (1, -2)],
     "CASE 31 | ASK 0. | ASK 401. | ASK 3FF. | REFUSED 5",
     "BRACKET 0. 3FF. C. 401. 4022. C. | BEST 3FF. 3FF. C. | COUNTS evaluations 3 iterations 0"),
    ("secant-overflows-above", "every operation rounded once, grouped as written; 5",
     hz(high=2.0 ** 1000), [(1, -2.0 ** 1000), (9, 2.0 ** 1000), (1, -2)],
     "CASE 32 | ASK 0. | ASK 7E7. | ASK 3FF. | REFUSED 5",
     "BRACKET 0. 3FF. FE7. 7E7. 4022. 7E7. | BEST 3FF. 3FF. C. | COUNTS evaluations 3 iterations 0"),
    ("secant-overflows-below-to-0", "every operation rounded once; 02: S3 none when a and A have [equal steps]",
     hz(high=0.5), [(1, -HUGE), (9, HUGE), (1, -2), (5, 1)],
     "CASE 33 | ASK 0. | ASK 3FE. | ASK 3FF. | ASK 0. | ASK 3FD.",
     "BRACKET 0. 3FF. FFE. 3FE. 4022. 7FE. | BEST 3FF. 3FF. C. | COUNTS evaluations 4 iterations 0"),
    ("drop-in-cost-is-minus-infinite", "wolfe if best.f - f0 <= (delta*best.x)*s0 and best.g >= sigma*s0",
     hz(f0=HUGE), [(1, -2), (9, 6), (-HUGE, -1)],
     "CASE 34 | ASK 0. | ASK 401. | ASK 3FF. | STOP wolfe 3FF. evaluations 3 iterations 0",
     "BRACKET 0. 3FF. C. 401. 4022. 4018. | BEST 3FF. FFE. BFF. | COUNTS evaluations 3 iterations 0"),
    ("rise-in-cost-is-infinite", "wolfe if best.f - f0 <= (delta*best.x)*s0",
     hz(f0=-HUGE), [(HUGE, -2), (HUGE, 6), (HUGE, 0)],
     "CASE 35 | ASK 0. | ASK 401. | ASK 3FF. | ASK 3FF.",
     "BRACKET 0. 7FE. C. 401. 7FE. 4018. | BEST 3FF. 7FE. 0. | COUNTS evaluations 3 iterations 0"),
    ("wolfe-bound-is-infinite", "The sign of s0 is not checked; best.f - f0 <= (delta*best.x)*s0",
     hz(start=2.0 ** 1000, s0=2.0 ** 1000), [(9, -2), (9, 6), (1, 2.0 ** 1000)],
     "CASE 36 | ASK 0. | ASK 401. | ASK 7E7. | STOP wolfe 7E7. evaluations 3 iterations 0",
     "BRACKET 0. 4022. C. 401. 4022. 4018. | BEST 7E7. 3FF. 7E7. | COUNTS evaluations 3 iterations 0"),
    ("L2-among-the-smallest-floats", "L2: if Z.x - A.x > gamma*(b.x - a.x); every operation rounded once",
     hz(gamma=0.6, high=3 * TINY), [(1, -2), (9, 4), (1, -2), (0.5, -1.5), (7, 7)],
     "CASE 37 | ASK 0. | ASK 0000000000000003 | ASK 3FF. | ASK 0000000000000001 | ASK 0000000000000004"
     " | ASK 0000000000000001",
     "BRACKET 0000000000000001 3FE. BFF8. 0000000000000003 4022. 401. | BEST 0000000000000001 3FE. BFF8."
     " | COUNTS evaluations 5 iterations 1"),
    ("L-is-rounded", "L = f0 + epsilon_k; U2: c.f <= L", hz(epsilon=0.75 * EPS), START + [(1 + EPS, -1)],
     "CASE 38 | ASK 0. | ASK 401. | ASK 3FF. | ASK 3FF. | ASK 4.",
     "BRACKET 0. 3FF. C. 401. 4022. 4018. | BEST 3FF. 3FF. C. | COUNTS evaluations 4 iterations 0"),
    # the start step
    ("start-outside-stays-best", "This c is always the start step, never a later trial.",
     hz(start=-7.0, N=2), [(1, -2), (9, 6), (-5, -3), (5, 2), (0, 0), (5, 1), (-9, 0)],
     "CASE 39 | ASK 0. | ASK 401. | ASK C01C. | ASK 3FF. | ASK BFE. | ASK 3FE. | ASK 8."
     " | LIMIT C01C. evaluations 7 iterations 2",
     "BRACKET 0. 3FF. C. 3FE. 4014. 3FF. | BEST C01C. C014. C008. | COUNTS evaluations 7 iterations 2"),
    ("start-outside-stops-then-8-twice", "any finite number, also outside the bounds; 8: state unchanged",
     hz(start=7.0), [(1, -2), (9, 6), (-5, -1), (0, 0), (INF, NAN)],
     "CASE 40 | ASK 0. | ASK 401. | ASK 401C. | STOP wolfe 401C. evaluations 3 iterations 0 | REFUSED 8 | REFUSED 8",
     "BRACKET 0. 3FF. C. 401. 4022. 4018. | BEST 401C. C014. BFF. | COUNTS evaluations 3 iterations 0"),
    # what a refusal keeps
    ("refused-in-the-second-iteration", "keeps bracket, best and iteration count from before that iteration",
     hz(), START + [(5, 2), (0, 0), (5, 1), (0, -INF)],
     "CASE 41 | ASK 0. | ASK 401. | ASK 3FF. | ASK 3FF. | ASK BFE. | ASK 3FE. | ASK 8. | REFUSED 2",
     "BRACKET 0. 3FF. C. 3FF. 4014. 4. | BEST 3FF. 3FF. C. | COUNTS evaluations 6 iterations 1"),
    ("refused-in-the-start", "During the first three answers there is no bracket and no best",
     hz(), [(1, -2), (INF, 6), (1, 1)],
     "CASE 42 | ASK 0. | ASK 401. | REFUSED 2 | REFUSED 8",
     "BRACKET none | BEST none | COUNTS evaluations 1 iterations 0"),
    # backtracking
    ("armijo-ignores-a-NaN-slope", "the slope supplied is ignored, NaN included",
     bt(ARMIJO, 0.5, c2=NAN), [(0.25, NAN), (0.5, NAN)],
     "CASE 43 | ASK 3FF. | ASK 3FE. | STOP met 3FE. evaluations 2 iterations 1",
     "BRACKET none | BEST none | COUNTS evaluations 2 iterations 1"),
    ("goldstein-ignores-the-slope", "the slope supplied is ignored, NaN included",
     bt(GOLDSTEIN, 0.25, c2=INF), [(-0.75, INF), (0.25, NAN)],
     "CASE 44 | ASK 3FF. | ASK 3FE. | STOP met 3FE. evaluations 2 iterations 1",
     "BRACKET none | BEST none | COUNTS evaluations 2 iterations 1"),
    ("wolfe-refuses-a-NaN-slope", "Only the Wolfe pair needs a slope at t.",
     bt(WOLFE, 0.25, c2=0.5), [(9, NAN), (0, 0)],
     "CASE 45 | ASK 3FF. | REFUSED 2 | REFUSED 8", NONE),
    ("later-trial-refused", "after a refusal it keeps the iteration count from before that trial",
     bt(STRONG, 0.25, c2=0.5), [(0.5, 1.5), (0.75, -1.5), (0, NAN), (0, 0)],
     "CASE 46 | ASK 3FF. | ASK 3FE. | ASK 3FD. | REFUSED 2 | REFUSED 8",
     "BRACKET none | BEST none | COUNTS evaluations 2 iterations 1"),
    ("alpha-shrunk-to-0", "An alpha that has shrunk to 0 is asked like any other.",
     bt(ARMIJO, 0.5, alpha=TINY), [(2, 0), (2, 0), (1, 0)],
     "CASE 47 | ASK 0000000000000001 | ASK 0. | ASK 0. | STOP met 0. evaluations 3 iterations 2",
     "BRACKET none | BEST none | COUNTS evaluations 3 iterations 2"),
    ("alpha-that-shrinks-no-more", "then alpha*rho, and so on; its limit has the last step tested",
     bt(ARMIJO, 0.5, rho=0.75, alpha=TINY, N=2), [(2, 0), (2, 0), (2, 0)],
     "CASE 48 | ASK 0000000000000001 | ASK 0000000000000001 | ASK 0000000000000001"
     " | LIMIT 0000000000000001 evaluations 3 iterations 2",
     "BRACKET none | BEST none | COUNTS evaluations 3 iterations 2"),
    ("limit-after-two-answers", "each later trial is one iteration", bt(ARMIJO, 0.5, N=1), [(2, 0), (2, 0)],
     "CASE 49 | ASK 3FF. | ASK 3FE. | LIMIT 3FE. evaluations 2 iterations 1",
     "BRACKET none | BEST none | COUNTS evaluations 2 iterations 1"),
    ("armijo-groups-to-the-left", "Armijo: f <= f0 + (c*t)*s0.",
     bt(ARMIJO, 0.125, alpha=8.0, f0=0.0, s0=-HUGE), [(-HUGE, 0)],
     "CASE 50 | ASK 402. | STOP met 402. evaluations 1 iterations 0",
     "BRACKET none | BEST none | COUNTS evaluations 1 iterations 0"),
    ("goldstein-groups-by-m", "Goldstein: with m = t*s0, f0 + (1-c)*m <= f and f <= f0 + c*m.",
     bt(GOLDSTEIN, 0.125, alpha=8.0, f0=0.0, s0=-HUGE), [(-HUGE, 0), (-HUGE, 0), (-HUGE, 0), (-HUGE / 2, 0)],
     "CASE 51 | ASK 402. | ASK 401. | ASK 4. | ASK 3FF. | STOP met 3FF. evaluations 4 iterations 3",
     "BRACKET none | BEST none | COUNTS evaluations 4 iterations 3"),
    # vectors
    ("dot-keeps-minus-zero", "Dot adds products from the left, starting with the first product.",
     dot([-0.0], [1.0]), [], "CASE 52 | VALUE 8.", ""),
    ("dot-from-the-left", "Dot adds products from the left",
     dot([2.0 ** 53, 1, -2.0 ** 53], [1, 1, 1]), [], "CASE 53 | VALUE 0.", ""),
    ("dot-overflows-on-the-way", "4: a dot .. comes out not finite",
     dot([HUGE, HUGE, -HUGE], [1, 1, 1]), [], "CASE 54 | REFUSED 4 at 1", ""),
    ("dot-of-256", "Vectors have n elements, 1 <= n <= 256.",
     dot([1.0] * 256, [1.0] * 256), [], "CASE 55 | VALUE 407.", ""),
    ("dot-of-257", "1: n is 0, above 256; then 1, 9, 2", dot([NAN] * 257, [1.0] * 257), [], "CASE 56 | REFUSED 1", ""),
    ("dot-of-0", "1: n is 0", dot([], []), [], "CASE 57 | REFUSED 1", ""),
    ("point-last-element-overflows", "A scaled point checks all elements before it writes any.",
     point([1, 2, HUGE], HUGE, [1, 1, 1], 3), [],
     "CASE 58 | REFUSED 4 at 2 | OUT 7FF. 7FF. 7FF.", ""),
    ("point-keeps-minus-zero", "A point is x0[i] + alpha*d[i].",
     point([-0.0, 1], -0.0, [1, 5], 2), [], "CASE 59 | POINT | OUT 8. 3FF.", ""),
    ("point-lengths-before-NaN", "1: lengths differ; then 1, 9, 2",
     point([NAN], 1.0, [1, 2], 1), [], "CASE 60 | REFUSED 1 | OUT 7FF.", ""),
    ("point-of-0", "1: n is 0", point([], 1.0, [], 0), [], "CASE 61 | REFUSED 1 | OUT", ""),
    # the order of refusals
    ("NaN-bound-and-B-0", "then 1, 9, 2, 3, 4 in that order", hz(high=NAN, B=0), [], "CASE 62 | REFUSED 2", NONE),
    ("theta-1-and-L-overflows", "then 1, 9, 2, 3, 4 in that order",
     hz(theta=1.0, epsilon=1.0, f0=HUGE), [], "CASE 63 | REFUSED 3", NONE),
    ("L-overflows", "4: .. epsilon_k or L comes out not finite",
     hz(epsilon=1.0, f0=HUGE), [(1, 1)], "CASE 64 | REFUSED 4 | REFUSED 8", NONE),
    ("epsilon_k-overflows", "4: .. epsilon_k or L comes out not finite",
     hz(epsilon=4.0, f0=-HUGE), [], "CASE 65 | REFUSED 4", NONE),
    ("backtracking-NaN-rho-and-N-0", "then 1, 9, 2, 3, 4 in that order",
     bt(ARMIJO, 0.5, rho=NAN, N=0), [(0, 0)], "CASE 66 | REFUSED 2 | REFUSED 8", NONE),
    ("B-and-N-above-their-ranges", "U3 budget B is 1 to 1,000; iteration limit N is 1 to 10,000",
     hz(B=1001, N=10001), [], "CASE 67 | REFUSED 3", NONE),
    # where the fault is (02, request 1)
    ("dead-sensor-39-of-40", "for 2, the lowest index bad in any supplied vector",
     point([1.0] * 39 + [NAN], 0.5, [1.0] * 40, 40), [], "CASE 68 | REFUSED 2 at 39 | OUT" + " 7FF." * 40, ""),
    ("lower-in-the-second-vector", "for 2, the lowest index bad in any supplied vector",
     dot([1, 1, NAN], [1, INF, 1]), [], "CASE 69 | REFUSED 2 at 1", ""),
    ("bad-in-both-at-one-index", "If several vectors are bad at that index, no vector is named.",
     dot([1, NAN], [1, INF]), [], "CASE 70 | REFUSED 2 at 1", ""),
    ("alpha-alone", "A bad alpha alone gives index n.",
     point([1, 2, 3], NAN, [1, 2, 3], 3), [], "CASE 71 | REFUSED 2 at 3 | OUT 7FF. 7FF. 7FF.", ""),
    ("alpha-and-an-element", "A bad alpha alone gives index n.",
     point([1, 2, 3], INF, [1, NAN, 3], 3), [], "CASE 72 | REFUSED 2 at 1 | OUT 7FF. 7FF. 7FF.", ""),
    ("first-product-overflows", "for 4, the first index whose partial sum or element is not finite",
     dot([HUGE, -HUGE, 1], [2, 2, 1]), [], "CASE 73 | REFUSED 4 at 0", ""),
    ("NaN-behind-an-overflow", "then 1, 9, 2, 3, 4 in that order",
     dot([HUGE, HUGE, NAN], [1, 1, 1]), [], "CASE 74 | REFUSED 2 at 2", ""),
    ("first-element-of-two-that-overflow", "for 4, the first index whose partial sum or element is not finite",
     point([1, HUGE, HUGE], 1.0, [1, HUGE, HUGE], 3), [], "CASE 75 | REFUSED 4 at 1 | OUT 7FF. 7FF. 7FF.", ""),
    # the growing start (02, request 3): how it ends
    ("minus-zero-slope-at-the-first-trial", "slope >= 0: the bracket runs from .. 0 to it; The bounds are not read.",
     grow(low=NAN, high=-INF), [(3, -0.0)],
     "CASE 76 | ASK 3FF. | ASK 3FF.",
     "BRACKET 0. 3FF. C. 3FF. 4008. 8. | BEST 0. 3FF. C. | COUNTS evaluations 1 iterations 0"),
    ("c-is-neither-end", "cost > L; from the last earlier trial .. to it; The best's c is the first trial.",
     grow(), [(0.5, -2), (1, -2), (9, 6)],
     "CASE 77 | ASK 3FF. | ASK 4014. | ASK 4039. | ASK 4024.",
     "BRACKET 4014. 3FF. C. 4039. 4022. 4018. | BEST 3FF. 3FE. C. | COUNTS evaluations 3 iterations 0"),
    ("the-last-trial-ends-it", "multiply the step by 5 and ask again, at most K times", grow(K=1), [(1, -2), (0.5, 0)],
     "CASE 78 | ASK 3FF. | ASK 4014. | STOP approximate 4014. evaluations 2 iterations 0",
     "BRACKET 3FF. 3FF. C. 4014. 3FE. 0. | BEST 4014. 3FE. 0. | COUNTS evaluations 2 iterations 0"),
    ("U3-from-0-behind-a-growth", "If its slope < 0 and its cost > L, run U3 from 0 to it.",
     grow(), [(1, -2), (3, -1), (0.5, -2), (2, 2)],
     "CASE 79 | ASK 3FF. | ASK 4014. | ASK 4004. | ASK 400E. | ASK 4009.",
     "BRACKET 4004. 3FE. C. 400E. 4. 4. | BEST 4004. 3FE. C. | COUNTS evaluations 4 iterations 0"),
    ("B-th-answer-ends-the-start", "run U3 from 0 to it; 6: .. the last did not end it",
     grow(start=2.0, B=1), [(3, -1), (0, 0)],
     "CASE 80 | ASK 4. | ASK 3FF. | STOP wolfe 3FF. evaluations 2 iterations 0",
     "BRACKET 0. 3FF. C. 3FF. 0. 0. | BEST 3FF. 0. 0. | COUNTS evaluations 2 iterations 0"),
    ("stop-at-0", "the low end is step 0 with f0 and s0; wolfe if best.f - f0 <= (delta*best.x)*s0 and best.g >="
     " sigma*s0, every operation rounded once", grow(sigma=0.75, s0=-TINY), [(3, 5)],
     "CASE 81 | ASK 3FF. | STOP wolfe 0. evaluations 1 iterations 0",
     "BRACKET 0. 3FF. 8000000000000001 3FF. 4008. 4014. | BEST 0. 3FF. 8000000000000001"
     " | COUNTS evaluations 1 iterations 0"),
    ("first-trial-stays-c", "The best's c is the first trial; never a later trial",
     grow(N=1), [(0.5, -2), (9, 6), (1, -1), (9, 6)],
     "CASE 82 | ASK 3FF. | ASK 4014. | ASK 4. | ASK 4008. | LIMIT 3FF. evaluations 4 iterations 1",
     "BRACKET 4. 3FF. BFF. 4008. 4022. 4018. | BEST 3FF. 3FE. C. | COUNTS evaluations 4 iterations 1"),
    # what ends a search within it
    ("11-before-5", "11, before 5, if K growths are used up; no bracket and no best",
     grow(K=1, start=HUGE / 8), [(1, -2), (1, -2), (1, 1)],
     "CASE 83 | ASK 7FB. | ASK 7FD4. | REFUSED 11 | REFUSED 8",
     "BRACKET none | BEST none | COUNTS evaluations 2 iterations 0"),
    ("5-with-a-growth-left", "5: the next trial step comes out not finite; nothing is asked",
     grow(start=HUGE / 8), [(1, -2), (1, -2)],
     "CASE 84 | ASK 7FB. | ASK 7FD4. | REFUSED 5",
     "BRACKET none | BEST none | COUNTS evaluations 2 iterations 0"),
    ("nothing-between-0-and-the-trial", "7: U3's next step is not strictly between its two ends; nothing is asked",
     grow(start=TINY), [(3, -1), (1, 1)],
     "CASE 85 | ASK 0000000000000001 | REFUSED 7 | REFUSED 8",
     "BRACKET none | BEST none | COUNTS evaluations 1 iterations 0"),
    ("6-before-7-in-the-start", "After a finite B-th answer, 6 comes before 5 and 7",
     grow(start=2 * TINY, B=1), [(3, -1), (3, -1)],
     "CASE 86 | ASK 0000000000000002 | ASK 0000000000000001 | REFUSED 6",
     "BRACKET none | BEST none | COUNTS evaluations 2 iterations 0"),
    ("NaN-at-the-second-trial", "A search ended within this start has no bracket and no best.",
     grow(), [(1, -2), (NAN, 1)],
     "CASE 87 | ASK 3FF. | ASK 4014. | REFUSED 2",
     "BRACKET none | BEST none | COUNTS evaluations 1 iterations 0"),
    # what it refuses, and in what order
    ("minus-zero-s0-and-L-overflows", "10, after 3 and before 4, if s0 >= 0",
     grow(s0=-0.0, epsilon=1.0, f0=HUGE), [(1, 1)], "CASE 88 | REFUSED 10 | REFUSED 8", NONE),
    ("K-0-and-s0-0", "3 for a bad K; 10, after 3", grow(K=0, s0=0.0), [], "CASE 89 | REFUSED 3", NONE),
    ("start-step-minus-zero", "3 for .. a start step not above 0", grow(start=-0.0), [], "CASE 90 | REFUSED 3", NONE),
    ("K-401-and-NaN-theta", "then 1, 9, 2, 3, 4 in that order",
     grow(K=401, theta=NAN), [], "CASE 91 | REFUSED 2", NONE),
    ("s0-just-below-0", "10 .. if s0 >= 0; K from 1 to 400", grow(K=400, s0=-TINY), [], "CASE 92 | ASK 3FF.", NONE),
    ("three-answers-by-a-field-16", "The sign of s0 is not checked; the field's K is not read here (docs/FORMATS.md)",
     three(K=401, s0=0.0), [], "CASE 93 | ASK 0.", NONE),
    ("three-answers-with-R-1", "3: .. outside its range, for any R but 0 (docs/FORMATS.md); 3 before 4",
     three(R=1, epsilon=1.0, f0=HUGE), [], "CASE 94 | REFUSED 3", NONE),
    # equal steps at an end (02, request 4): no e. With delta and sigma 0.75 a cost of 0 at the step 1 meets no verdict
    ("M8-minimum-at-the-high-end", "02: M8 goes on to L2 and asks 0.5.",
     hz(delta=0.75, sigma=0.75, high=1.0, start=0.25), [(1, -2), (0, 0), (0.5625, -1.5), (0, 0), (0.25, -1)],
     "CASE 95 | ASK 0. | ASK 3FF. | ASK 3FD. | ASK 3FF. | ASK 3FE. | ASK 3FF.",
     "BRACKET 3FE. 3FD. BFF. 3FF. 0. 0. | BEST 3FF. 0. 0. | COUNTS evaluations 5 iterations 1"),
    ("minimum-at-the-low-end", "02: S3 none when a and A have [equal steps]; S4 runs only if some e was given; then L2",
     hz(delta=0.75, sigma=0.75, low=1.0, high=3.0, start=2.0), [(0, 0), (4, 4), (1, 2), (0, 0), (1, 2)],
     "CASE 96 | ASK 3FF. | ASK 4008. | ASK 4. | ASK 3FF. | ASK 4. | ASK 3FF.",
     "BRACKET 3FF. 0. 0. 4. 3FF. 4. | BEST 3FF. 0. 0. | COUNTS evaluations 5 iterations 1"),
    ("equal-steps-at-both-ends", "02: S2 gives no e when b and Z have equal steps, and S3 none when a and A have.",
     hz(high=EPS / 2), [(1, -2), (9, 0), (1, -2), (9, 0), (0.5, -1.5)],
     "CASE 97 | ASK 0. | ASK 3CA. | ASK 3FF. | ASK 3CA. | ASK 3C9. | ASK 3CA.",
     "BRACKET 3C9. 3FE. BFF8. 3CA. 4022. 0. | BEST 3C9. 3FE. BFF8. | COUNTS evaluations 5 iterations 1"),
    ("no-e-and-no-L2", "02: S4 runs only if some e was given; L2: if Z.x - A.x > gamma*(b.x - a.x), rounded once",
     hz(gamma=0.75, high=TINY, N=2), [(1, -2), (9, 0), (1, -2), (9, 0), (9, 0)],
     "CASE 98 | ASK 0. | ASK 0000000000000001 | ASK 3FF. | ASK 0000000000000001 | ASK 0000000000000001"
     " | LIMIT 3FF. evaluations 5 iterations 2",
     "BRACKET 0. 3FF. C. 0000000000000001 4022. 0. | BEST 3FF. 3FF. C. | COUNTS evaluations 5 iterations 2"),
    ("trial-beyond-the-high-end", "U0; S2: if |c.x - Z.x| < EPS; 02: no e when b and Z have equal steps",
     hz(high=EPS / 4), [(1, -2), (9, -1.5), (1, -2), (5, 1)],
     "CASE 99 | ASK 0. | ASK 3C9. | ASK 3FF. | ASK 3CB. | ASK 3C8.",
     "BRACKET 0. 3FF. C. 3C9. 4022. BFF8. | BEST 3FF. 3FF. C. | COUNTS evaluations 4 iterations 0"),
    ("minus-zero-asked-at-a-low-end-0", "S3: if |c.x - A.x| < EPS; 02: S3 none when a and A have [equal steps]",
     hz(), [(9, -0.0), (9, -6), (1, -2), (5, 1)],
     "CASE 100 | ASK 0. | ASK 401. | ASK 3FF. | ASK 8. | ASK 4.",
     "BRACKET 0. 4022. 8. 401. 4022. C018. | BEST 3FF. 3FF. C. | COUNTS evaluations 4 iterations 0"),
    ("0-asked-at-a-low-end-minus-zero", "S3: if |c.x - A.x| < EPS; 02: S3 none when a and A have [equal steps]",
     hz(low=-0.0), [(9, -0.0), (9, 6), (1, -2), (5, 1)],
     "CASE 101 | ASK 8. | ASK 401. | ASK 3FF. | ASK 0. | ASK 4.",
     "BRACKET 8. 4022. 8. 401. 4022. 4018. | BEST 3FF. 3FF. C. | COUNTS evaluations 4 iterations 0"),
    ("no-e-and-L2-overflows", "02: S4 runs only if some e was given; 5: the next trial step comes out not finite",
     hz(low=HUGE, high=1.5 * HUGE), [(9, -0.25), (9, 0), (1, -2), (9, 0)],
     "CASE 102 | ASK 7FE. | ASK 7FE8. | ASK 3FF. | ASK 7FE8. | REFUSED 5",
     "BRACKET 7FE. 4022. BFD. 7FE8. 4022. 0. | BEST 3FF. 3FF. C. | COUNTS evaluations 4 iterations 0"),
    # one of the two gives an e
    ("S2's-stays-then-L2", "02: S3 none when a and A have [equal steps]. An earlier e then stays.",
     hz(gamma=0.125, high=EPS / 2), START + [(5, 2), (0, 0), (5, 2)],
     "CASE 103 | ASK 0. | ASK 3CA. | ASK 3FF. | ASK 3C8. | ASK BC7. | ASK 3C7. | ASK 3C6.",
     "BRACKET 0. 3FF. C. 3C7. 4014. 4. | BEST 3FF. 3FF. C. | COUNTS evaluations 6 iterations 1"),
    ("S2's-stays-then-no-L2", "02: An earlier e then stays; S4: .. ask e and update (A, Z) with it",
     hz(high=EPS / 2), [(1, -7), (9, 9), (1, -2), (5, 1), (0.5, -2)],
     "CASE 104 | ASK 0. | ASK 3CA. | ASK 3FF. | ASK 3C8C. | ASK 3C878. | ASK 3C8A8.",
     "BRACKET 3C878. 3FE. C. 3C8C. 4014. 3FF. | BEST 3C878. 3FE. C. | COUNTS evaluations 5 iterations 1"),
    ("S2's-stays-behind-U3", "U3: If d.g >= 0: (h, d); 02: S3 none when a and A have [equal steps]",
     hz(high=EPS / 2), START + [(3, -1), (5, 2)],
     "CASE 105 | ASK 0. | ASK 3CA. | ASK 3FF. | ASK 3C8. | ASK 3C7. | ASK BC84.",
     "BRACKET 0. 3FF. C. 3CA. 4022. 4018. | BEST 3FF. 3FF. C. | COUNTS evaluations 5 iterations 0"),
    ("S2's-stays-and-is-not-finite", "02: An earlier e then stays; only the final e is tested for refusal 5",
     hz(high=EPS / 2), START + [(5, 6)],
     "CASE 106 | ASK 0. | ASK 3CA. | ASK 3FF. | ASK 3C8. | REFUSED 5",
     "BRACKET 0. 3FF. C. 3CA. 4022. 4018. | BEST 3FF. 3FF. C. | COUNTS evaluations 4 iterations 0"),
    ("S3's-then-L2", "02: S2 gives no e when b and Z have equal steps; S3: e = secant(a, A)",
     hz(gamma=0.25, high=EPS / 2), START + [(0, -1), (0.25, -2), (5, 2)],
     "CASE 107 | ASK 0. | ASK 3CA. | ASK 3FF. | ASK 3C8. | ASK 3C9. | ASK 3C98. | ASK 3C94.",
     "BRACKET 3C9. 3FD. C. 3C98. 4014. 4. | BEST 3C9. 3FD. C. | COUNTS evaluations 6 iterations 1"),
    ("S3's-then-no-L2", "02: S2 gives no e when b and Z have equal steps; L2: if Z.x - A.x > gamma*(b.x - a.x)",
     hz(high=EPS / 2), START + [(0, -1), (0.25, -2)],
     "CASE 108 | ASK 0. | ASK 3CA. | ASK 3FF. | ASK 3C8. | ASK 3C9. | ASK 3C94.",
     "BRACKET 3C9. 3FD. C. 3CA. 4022. 4018. | BEST 3C9. 3FD. C. | COUNTS evaluations 5 iterations 1"),
    # both give one, or none is near
    ("S3-finite-over-not-finite-S2", "In S2 and S3 only the final e is tested for refusal 5.",
     hz(high=EPS / 2), [(1, -5), (9, 5), (1, -2), (3, -1), (0.5, -1), (2, 5)],
     "CASE 109 | ASK 0. | ASK 3CA. | ASK 3FF. | ASK 3C9. | ASK 3C8. | ASK 3C88. | ASK 3C84.",
     "BRACKET 0. 3FF. C014. 3CA. 4022. 4014. | BEST 3FF. 3FF. C. | COUNTS evaluations 6 iterations 0"),
    ("S3-not-finite-over-finite-S2", "In S2 and S3 only the final e is tested for refusal 5.",
     hz(high=EPS / 2), [(1, -5), (9, 5), (1, -2), (3, -1), (0.5, -5), (2, 0.5)],
     "CASE 110 | ASK 0. | ASK 3CA. | ASK 3FF. | ASK 3C9. | ASK 3C8. | ASK 3C88. | REFUSED 5",
     "BRACKET 0. 3FF. C014. 3CA. 4022. 4014. | BEST 3FF. 3FF. C. | COUNTS evaluations 6 iterations 0"),
    ("A-comes-to-EPS-from-the-trial", "S3: if |c.x - A.x| < EPS", hz(high=8 * EPS),
     START + [(3, -1), (0.5, -1), (5, 2)],
     "CASE 111 | ASK 0. | ASK 3CE. | ASK 3FF. | ASK 3CC. | ASK 3CB. | ASK 3CB8. | ASK BCBC.",
     "BRACKET 0. 3FF. C. 3CE. 4022. 4018. | BEST 3FF. 3FF. C. | COUNTS evaluations 6 iterations 0"),
    ("Z-comes-to-EPS-from-the-trial", "S2: if |c.x - Z.x| < EPS", hz(high=8 * EPS), START + [(3, -1), (5, 2)],
     "CASE 112 | ASK 0. | ASK 3CE. | ASK 3FF. | ASK 3CC. | ASK 3CB. | ASK 3CA.",
     "BRACKET 0. 3FF. C. 3CB. 4014. 4. | BEST 3FF. 3FF. C. | COUNTS evaluations 5 iterations 1"),
    # steps alone are compared
    ("high-end's-cost-and-slope-elsewhere", "02: .. when b and Z have equal steps; S2: e = secant(b, Z); 5",
     hz(), START + [(9, 6)],
     "CASE 113 | ASK 0. | ASK 401. | ASK 3FF. | ASK 3FF. | REFUSED 5",
     "BRACKET 0. 3FF. C. 401. 4022. 4018. | BEST 3FF. 3FF. C. | COUNTS evaluations 4 iterations 0"),
    ("low-end's-cost-and-slope-elsewhere", "02: .. none when a and A have [equal steps]; S3: e = secant(a, A); 5",
     hz(), START + [(1, -2)],
     "CASE 114 | ASK 0. | ASK 401. | ASK 3FF. | ASK 3FF. | REFUSED 5",
     "BRACKET 0. 3FF. C. 401. 4022. 4018. | BEST 3FF. 3FF. C. | COUNTS evaluations 4 iterations 0"),
    # behind the growing start
    ("minimum-at-the-first-trial", "slope >= 0: the bracket runs from .. 0 to it; M8 goes on to L2 and asks 0.5.",
     grow(delta=0.75, sigma=0.75), [(0, 0), (0, 0), (0.25, -1)],
     "CASE 115 | ASK 3FF. | ASK 3FF. | ASK 3FE. | ASK 3FF.",
     "BRACKET 3FE. 3FD. BFF. 3FF. 0. 0. | BEST 3FF. 0. 0. | COUNTS evaluations 3 iterations 1"),
    ("S1-comes-to-the-last-earlier-trial", "from the last earlier trial; 02: S3 none when a and A have [equal steps]",
     grow(), [(1, -2), (9, HUGE), (5, 1)],
     "CASE 116 | ASK 3FF. | ASK 4014. | ASK 3FF. | ASK 4008.",
     "BRACKET 3FF. 3FF. C. 4014. 4022. 7FE. | BEST 3FF. 3FF. C. | COUNTS evaluations 3 iterations 0"),
    ("first-trial-near-0", "02: S2 gives no e when b and Z have equal steps, and S3 none when a and A have.",
     grow(start=EPS / 2), [(9, -0.0), (9, 0)],
     "CASE 117 | ASK 3CA. | ASK 3CA. | ASK 3C9.",
     "BRACKET 0. 3FF. C. 3CA. 4022. 8. | BEST 0. 3FF. C. | COUNTS evaluations 2 iterations 0"),
]


def written(lines):
    """The lines as they are printed: a float's zeros filled in."""
    filled = lambda word: word[:-1].ljust(16, "0") if word.endswith(".") else word
    whole = [" ".join(map(filled, line.split())) for line in lines.split("|") if line.strip()]
    return printed(whole)


def main(cases, expected):
    with open(cases, "wb") as cases, open(expected, "wb") as expected:
        for name, reason, first, answers, lines, closing in CASES:
            cases.write(first + b"".join(case_file.answer(*floats(*y)) for y in answers))
            expected.write(written(lines) + written(closing))


if __name__ == "__main__":
    if len(sys.argv) != 3:
        sys.exit(__doc__)
    main(*sys.argv[1:])
