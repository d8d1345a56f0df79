#!/usr/bin/env python3
"""Runs random jobs through `search`, and compares what it writes with the model, line by line.

usage: random_jobs.py [PROGRAM] [--count N] [--seed N]

PROGRAM is bin/search where none is given. The jobs are the same for the same seed on every machine. They have every
curve; bounds, start steps and epsilons of all sizes, and near the places where a curve turns or comes back to its cost
at 0; fields that are absent, so that a default shows; and pairs at an edge of the rules: two jobs that differ in the
last bit of one number, and are told differently. A wrong default, coefficient or grouping moves such an edge; slips.py
says which of them how many of the jobs would show.

Prints how many jobs there were and how often each ending came. Ends with status 1 at the first job that is answered
otherwise than the model says, and keeps that job in a file.
"""
# first, since it says where Python is too old for the rest
from harness import Wrong, command, options, programs

import collections
import concurrent.futures
import itertools
import subprocess
import sys
import tempfile

from exact import MAX, NOT_FINITE, SIGN, TINY, ZERO, F, Random, flt
from make_jobs import job
from model_curves import COEFFICIENTS
from model_jobs import lines_of
from model_lines import printed
from native import over_native

COUNT, SEED = 2000, 1
AT_A_TIME = 2
LIMIT_SECONDS = 60
# a job with as many lines gets a lower iteration limit, but for a few that have the default one
LINES = 40
# where a curve has its lowest cost, or its cost at 0 once more, or a verdict's edge
SPOTS = [F(x) for x in (0.1, 0.5, 1, 1.2599210498948732, 1.324717957244746, 1.7320508075688772, 1.8, 2, 3, 5.4, 6, 10)]
# a job with no more lines than this ends with its start
STARTED = 4
FLOATS = "low", "high", "first", "epsilon"

native_jobs, = over_native("model_jobs")


class Jobs:
    """A sequence of jobs. Each is drawn as a dict, of the names that make_jobs.job takes."""

    def __init__(self, seed):
        self.r = Random(seed)

    def one_of(self, *choices):
        return choices[self.r.below(len(choices))]

    def often(self, n, of):
        return self.r.below(of) < n

    # ---- numbers

    def sized(self, smallest, largest):
        """A number whose power of two is between these."""
        return (1023 + smallest + self.r.below(largest - smallest + 1)) << 52 | self.r.below(1 << 52)

    def near(self, x):
        """A number some floats up or down from x, from none to a quarter of x."""
        return max(0, x + self.one_of(-1, 1) * self.r.below(1 << self.r.below(51)))

    def step(self):
        kind = self.r.below(8)
        if kind < 3:
            return self.near(self.one_of(*SPOTS))
        if kind < 6:
            return self.sized(-6, 5)
        return self.sized(-60, 20) if kind < 7 else self.one_of(ZERO, F(1), F(2), F(4))

    def bounds(self):
        low = self.one_of(ZERO, SIGN, self.step(), self.step(), self.step(), self.sized(-60, -40))
        if self.often(1, 8):
            return low & ~SIGN, (low & ~SIGN) + 1 + self.r.below(1 << self.r.below(40))
        high = self.step()
        if self.often(1, 3):
            high = self.sized(3, 20)
        low, high = sorted((low & ~SIGN, high))
        return low, high + (low == high)

    def start(self, low, high):
        kind = self.r.below(8)
        if kind < 5:
            return self.step() | self.one_of(0, 0, 0, SIGN)
        return self.one_of(low, high) if kind < 6 else self.near(self.one_of(low, high) or F(1))

    def epsilon(self):
        return self.one_of(ZERO, SIGN, self.sized(-40, 3), self.sized(-3, 3), self.near(F(1e-6)), self.near(F(1)))

    # ---- jobs

    def plain(self):
        drawn = {"k": 1 + self.r.below(8)}
        if self.often(4, 5):
            drawn["low"], drawn["high"] = self.bounds()
        if self.often(2, 3):
            drawn["first"] = self.start(drawn.get("low", ZERO), drawn.get("high", F(4)))
        if self.often(1, 3):
            drawn["epsilon"] = self.epsilon()
        if self.often(1, 3):
            drawn["b"] = self.one_of(1 + self.r.below(8), 40 + self.r.below(20), 1 + self.r.below(1000), 1000)
        if self.often(1, 2):
            drawn["n"] = self.one_of(1 + self.r.below(4), 1 + self.r.below(20), 10000)
        return drawn

    def narrowing(self):
        """On curve 8 between 1/2 and 1 costs fall and lie above L: U3 runs until its budget or the stall."""
        low, high = sorted((self.near(F(0.5)) | F(0.5), F(0.5) | self.r.below(1 << 52)))
        drawn = {"k": 8, "low": low, "high": high + (low == high) + self.r.below(2) * (1 << 50)}
        if self.often(1, 2):
            drawn["b"] = self.one_of(1 + self.r.below(8), 30 + self.r.below(30), 1000)
        if self.often(1, 2):
            drawn["first"] = self.start(low, high)
        return drawn

    def refused(self):
        """Numbers that are not finite or out of their range."""
        drawn, kind = self.plain(), self.r.below(5)
        low, high, bad = drawn.get("low", ZERO), drawn.get("high", F(4)), self.one_of(*NOT_FINITE)
        if kind == 0:
            drawn[self.one_of("first", "epsilon")] = bad
        elif kind == 1:
            drawn["low"], drawn["high"] = self.one_of((bad, high), (low, bad))
        elif kind == 2:
            drawn["low"], drawn["high"] = self.one_of((high, low), (high, high), (SIGN | TINY, high), (SIGN, ZERO))
        elif kind == 3:
            drawn.update(self.one_of({"k": 0}, {"k": 9}, {"b": 0}, {"b": 1001}, {"n": 0}, {"n": 10001}))
        else:
            drawn["epsilon"] = SIGN | self.sized(-40, 3)
        return drawn

    def large(self):
        """An epsilon with which epsilon*|f0| is nearly the largest number or just above it, or a step so large that a
        cost or a slope may overflow."""
        drawn = self.plain()
        if self.often(1, 2):
            f0 = abs(COEFFICIENTS[drawn["k"] - 1][0])
            drawn["epsilon"] = min(MAX, self.near(F(flt(MAX) / max(1, f0 + self.one_of(-0.5, 0, 0.5)))))
        elif self.often(1, 2):
            drawn["first"] = self.one_of(0, SIGN) | self.one_of(MAX, self.sized(240, 1023))
        else:
            drawn["low"], drawn["high"] = drawn.get("low", ZERO), self.one_of(MAX, self.sized(240, 1023))
        return drawn

    def edge(self):
        """Two jobs at an edge of any rule, of four iterations at most."""
        drawn = self.narrowing() if self.often(1, 8) else self.plain()
        drawn.setdefault("first", self.start(drawn.get("low", ZERO), drawn.get("high", F(4))))
        if drawn.get("n", 100) > 4:
            drawn["n"] = 1 + self.r.below(4)
        name = self.one_of(*[f for f in FLOATS if f in drawn])
        other = self.step() | drawn[name] & SIGN
        pair = shape(drawn), shape(dict(drawn, **{name: other}))
        return [] if min(pair)[0] <= STARTED else straddling(drawn, name, other)

    def verdict(self):
        """Two jobs of which one ends with its start, by a verdict, and the other does not."""
        drawn = {"k": self.one_of(1, 1, 2, 5, 5, 5, 6, 7), "first": self.one_of(*SPOTS), "n": 1}
        if self.often(1, 2):
            drawn["low"], drawn["high"] = self.one_of(ZERO, self.sized(-20, -4)), self.sized(3, 20)
        return straddling(drawn, "first", self.near(self.sized(-6, 3)))

    def tie(self):
        """A curve comes back to its cost at 0 at the low bound, and the start step is next to 0: which of the two is
        the best hangs on what of the cost is lost."""
        k, low = self.one_of((1, F(2)), (2, F(6)), (5, F(2)), (6, F(1.7320508075688772)), (7, F(2)), (8, F(1)))
        first = self.one_of(0, SIGN) | self.sized(-70, -30)
        return {"k": k, "low": low, "high": self.sized(4, 20), "first": first, "n": 1 + self.r.below(4)}

    def drawn(self):
        while True:
            kind = self.r.below(32)
            if kind < 12:
                drawn = self.plain()
                if shape(drawn)[0] > STARTED or self.often(1, 8):
                    yield drawn
            elif kind < 13:
                yield self.narrowing()
            elif kind < 14:
                yield self.refused()
            elif kind < 16:
                yield self.large()
            elif kind < 17:
                yield self.tie()
            elif kind < 20:
                yield from self.verdict()
            else:
                yield from self.edge()

    def jobs(self):
        """The jobs as bytes, none twice."""
        seen = set()
        for drawn in self.drawn():
            if shape(drawn)[0] == LINES and ("n" in drawn or self.often(7, 8)):
                drawn["n"] = 1 + self.r.below(LINES // 3)
            data = job(**drawn)
            if data not in seen:
                seen.add(data)
                yield data


def told(data, most):
    """The first lines of a job."""
    return list(itertools.islice(native_jobs.lines_of(data), most))


def shape(drawn):
    """What two jobs are told apart by: the number of lines, the last line's words, and which of the job's own steps
    its step is."""
    lines = told(job(**drawn), LINES)
    words = lines[-1].split()
    at = [h for h in words if len(h) == 16]
    own = ["%016X" % drawn[name] in at for name in FLOATS if name in drawn]
    return len(lines), [w for w in words if w not in at], own


def straddling(drawn, name, other):
    """Two jobs that differ in the last bit of the number `name` alone, and are told differently: one has the shape of
    the job that is given, the other has not. None where the job with the other number has that shape too."""
    one, here = drawn[name], shape(drawn)
    if shape(dict(drawn, **{name: other})) == here:
        return []
    while abs(one - other) > 1:
        middle = (one + other) // 2
        if shape(dict(drawn, **{name: middle})) == here:
            one = middle
        else:
            other = middle
    return [dict(drawn, **{name: one}), dict(drawn, **{name: other})]


def ending(line):
    words = line.split()
    return words[0] if words[0] == "LIMIT" else " ".join(words[:2])


# ---- running

def answered(program, data):
    """What the program writes for a job, to both outputs, and its status."""
    try:
        r = subprocess.run([program], input=data, stdout=subprocess.PIPE, stderr=subprocess.STDOUT,
                           timeout=LIMIT_SECONDS)
    except subprocess.TimeoutExpired:
        return b"no end within %d seconds\n" % LIMIT_SECONDS, 1
    return r.stdout, r.returncode


def disagreement(program, data, out, status, expected):
    """Keeps the job, and gives the first line that differs."""
    with tempfile.NamedTemporaryFile(prefix="random-", suffix=".job", delete=False) as f:
        f.write(data)
    written, right = out.split(b"\n"), printed(expected).split(b"\n")
    at = next((i for i, (a, b) in enumerate(zip(written, right)) if a != b), min(len(written), len(right)))
    line = lambda lines: repr(lines[at].decode("ascii", "replace")) if at < len(lines) else "nothing"
    return "\n".join((
        "%s does not answer as the model says; its status is %d" % (program, status),
        "the job, %d bytes, is kept in %s" % (len(data), f.name),
        "line %d of the program: %s" % (at + 1, line(written)),
        "line %d of the model:   %s" % (at + 1, line(right)),
    ))


def main(given):
    rest, values, _ = options(given, {"--count": COUNT, "--seed": SEED}) or ([], None, None)
    if values is None or len(rest) > 1:
        sys.exit("usage: random_jobs.py [PROGRAM] [--count N] [--seed N]")
    program, = programs(rest, "search")
    count, seed = values["--count"], values["--seed"]
    endings, lines, beyond = collections.Counter(), 0, 0
    jobs, due = itertools.islice(Jobs(seed).jobs(), count), collections.deque()
    with concurrent.futures.ThreadPoolExecutor(AT_A_TIME) as pool:
        while True:
            # the model works while the program runs
            for data in itertools.islice(jobs, AT_A_TIME + 1 - len(due)):
                due.append((data, pool.submit(answered, program, data)))
            if not due:
                break
            data, running = due.popleft()
            expected = list(lines_of(data))
            out, status = running.result()
            if status != 0 or out != printed(expected):
                raise Wrong(disagreement(program, data, out, status, expected))
            endings[ending(expected[-1])] += 1
            lines += len(expected)
            beyond += len(expected) > STARTED
    print("random_jobs: seed %d, %d jobs, %d of them beyond the start, %d lines, 0 disagreements; %s" % (
        seed, count, beyond, lines, ", ".join("%s %d" % e for e in sorted(endings.items()))))


if __name__ == "__main__":
    command("random_jobs", main)
