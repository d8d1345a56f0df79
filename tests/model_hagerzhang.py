"""The Hager-Zhang search, from the rules alone, as one piece of code (a generator) with no state machine."""
from exact import HALF, ONE, TWO, ZERO, F, absolute, add, div, is_finite, le, lt, mul, sub

EPS = 0x3CB0000000000000
FIVE = F(5)
NAMES = "delta sigma epsilon theta gamma eta low high first".split()
# 01's; of high 02, request 2: "The default becomes 64."
DEFAULTS = [F(0.1), F(0.9), F(1e-6), HALF, F(0.66), F(0.01), EPS, F(64), ONE]


def near(p, q):
    return lt(absolute(sub(p[0], q[0])), EPS)


def equal_steps(p, q):
    """As numbers, so the two zeros are equal."""
    return le(p[0], q[0]) and le(q[0], p[0])


def secant(p, q):
    return div(sub(mul(p[0], q[2]), mul(q[0], p[2])), sub(q[2], p[2]))


def refusal(params, f0, s0, b, n, growths, retries):
    delta, sigma, epsilon, theta, gamma, eta, low, high, first = params
    growing = growths is not None
    bounds = [] if growing else [low, high]         # "The bounds are not read."
    if not all(map(is_finite, params[:6] + bounds + [first, f0, s0])):
        return 2
    inside = lambda x: lt(ZERO, x) and lt(x, ONE)
    ok = inside(delta) and le(delta, sigma) and lt(sigma, ONE) and le(ZERO, epsilon) and inside(theta) and inside(gamma)
    ok = ok and lt(ZERO, eta) and 1 <= b <= 1000 and 1 <= n <= 10000 and retries == 0
    ok = ok and (lt(ZERO, first) and 1 <= growths <= 400 if growing else le(ZERO, low) and lt(low, high))
    if not ok:
        return 3
    if growing and le(ZERO, s0):
        return 10
    e = mul(epsilon, absolute(f0))
    return 0 if is_finite(e) and is_finite(add(f0, e)) else 4


class Refused(Exception):
    pass


class Search:
    """`first` is the start's outcome, and `held` the bracket's two points and the best, or None before the start is
    in. `growths` is K for the growing start (02, request 3), and None for 01's start of three answers. `retries` is R,
    which must be 0 until request 7. `silent` has an entry for each iteration in which S2 or S3 gave no e for equal
    steps: which of them, "e" where the other one gave it, and "L2" where that followed. `closing` has an entry for each
    finished iteration: the former bracket, (A, Z) just before L2, m, which of request 14's three it is, and the new
    bracket."""

    def __init__(self, params, f0, s0, b, n, growths=None, retries=0):
        self.delta, self.sigma, self.epsilon, self.theta, self.gamma, _, self.low, self.high, self.start = params
        self.f0, self.s0, self.b, self.n, self.growths = f0, s0, b, n, growths
        self.held, self.evaluations, self.iterations, self.silent, self.closing = None, 0, 0, [], []
        refused = refusal(params, f0, s0, b, n, growths, retries)
        self.ended, self.steps = ("REFUSED", refused) if refused else None, self.run()
        self.first = self.ended or ("ASK", next(self.steps))

    def answer(self, f, g):
        if self.ended:
            return "REFUSED", 8
        try:
            return "ASK", self.steps.send((f, g))
        except StopIteration:
            return self.ended

    def run(self):
        """The whole search: yields each step, and is sent cost and slope there."""
        self.level = add(self.f0, mul(self.epsilon, absolute(self.f0)))
        try:
            a, b, c = yield from (self.three_answers() if self.growths is None else self.growing())
            self.ended = self.settle(a, b, c)
            while self.ended is None:
                a, b = yield from self.iteration(a, b)
                self.iterations += 1
                self.ended = self.settle(a, b, c)
        except Refused as r:
            self.ended = "REFUSED", r.args[0]

    def three_answers(self):
        a = yield from self.ask(self.low)
        b = yield from self.ask(self.high)
        c = yield from self.ask(self.start)
        return a, b, c

    def growing(self):
        """The bracket that the growing start comes to, and the first trial, "the best's c"."""
        zero = last = ZERO, self.f0, self.s0
        first = this = yield from self.ask(self.start)
        had = 0
        while lt(this[2], ZERO) and le(this[1], self.level):
            if had == self.growths:
                raise Refused(11)
            last = this
            this = yield from self.trial(mul(last[0], FIVE))
            had += 1
        if le(ZERO, this[2]):
            return last, this, first
        a, b = yield from self.u3(zero, this[0])
        return a, b, first

    def ask(self, x):
        f, g = yield x
        if not (is_finite(f) and is_finite(g)):
            raise Refused(2)
        self.evaluations += 1
        return x, f, g

    def trial(self, x):
        if not is_finite(x):
            raise Refused(5)
        return (yield from self.ask(x))

    def update(self, a, b, c):
        if le(c[0], a[0]) or le(b[0], c[0]):
            return a, b
        if le(ZERO, c[2]):
            return a, c
        if le(c[1], self.level):
            return c, b
        return (yield from self.u3(a, c[0]))

    def u3(self, h, k):
        had = 0
        while True:
            if had == self.b:
                raise Refused(6)
            x = add(mul(sub(ONE, self.theta), h[0]), mul(self.theta, k))
            if not is_finite(x):
                raise Refused(5)
            if not (lt(h[0], x) and lt(x, k)):
                raise Refused(7)
            d = yield from self.ask(x)
            had += 1
            if le(ZERO, d[2]):
                return h, d
            if le(d[1], self.level):
                h = d
            else:
                k = d[0]

    def iteration(self, a, b):
        c = yield from self.trial(secant(a, b))
        lo, hi = yield from self.update(a, b, c)
        # 02, request 4: "From now on S2 gives no e when b and Z have equal steps, and S3 none when a and A have. An
        # earlier e then stays. S4 runs only if some e was given."
        e, silent = None, []
        if near(c, hi):
            if equal_steps(b, hi):
                silent.append("S2")
            else:
                e = secant(b, hi)
        if near(c, lo):
            if equal_steps(a, lo):
                silent.append("S3")
            else:
                e = secant(a, lo)
        if silent:
            self.silent.append(" ".join(silent + ["e"] * (e is not None)))
        if e is not None:
            d = yield from self.trial(e)
            lo, hi = yield from self.update(lo, hi, d)
        # 02, request 14: "with A and Z the bracket just before L2: either Z.x - A.x <= gamma*(b.x - a.x) and (A, Z) is
        # kept; or the new bracket lies within A.x to m or within m to Z.x, m being (A.x + Z.x)/2 as computed; or m is
        # not strictly inside and (A, Z) is kept."
        before, m, case = (lo, hi), div(add(lo[0], hi[0]), TWO), 1
        if lt(mul(self.gamma, sub(b[0], a[0])), sub(hi[0], lo[0])):
            if silent:
                self.silent[-1] += " L2"
            case = 2 if lt(lo[0], m) and lt(m, hi[0]) else 3
            d = yield from self.trial(m)
            lo, hi = yield from self.update(lo, hi, d)
        self.closing.append(((a, b), before, m, case, (lo, hi)))
        return lo, hi

    def settle(self, a, b, c):
        """Best and verdict after the start or an iteration; None where the search goes on."""
        best = None
        if le(a[1], b[1]) and le(a[1], c[1]):
            best = a
        if le(b[1], a[1]) and le(b[1], c[1]):
            best = b
        if le(c[1], a[1]) and le(c[1], b[1]):
            best = c
        self.held = a, b, best
        steep = mul(self.sigma, self.s0)
        if le(sub(best[1], self.f0), mul(mul(self.delta, best[0]), self.s0)) and le(steep, best[2]):
            return "STOP wolfe", best[0]
        if le(best[2], mul(sub(mul(TWO, self.delta), ONE), self.s0)) and le(steep, best[2]) and le(best[1], self.level):
            return "STOP approximate", best[0]
        return ("LIMIT", best[0]) if self.iterations == self.n else None
