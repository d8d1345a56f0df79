#!/usr/bin/env python3
"""Says how many of the random jobs would show a slip of the pen: a wrong default, coefficient or grouping.

usage: slips.py [--count N] [--seed N] [--quick]

Each slip is made in a copy of the model, and the jobs of random_jobs.py are told by it and by the model as it is. No
program is run. Prints the counts, and ends with status 1 where no job shows a slip that one can show. Quick, it tries
each slip until a first job shows it, and prints no counts.
"""
# first, since it says where Python is too old for the rest
from harness import Wrong, command, options

import itertools
import sys

from exact import F, bits, flt
from model_hagerzhang import NAMES
from native import over_native
from random_jobs import COUNT, SEED, Jobs

# What no job shows, whatever it is. No rule reads eta. Where f0 is 0, L is 0 for every epsilon; on the other curves no
# trial between bounds from 0 on has a falling slope and a cost above f0, and no best step a cost near f0 and a slope
# that a verdict takes. Curves 3 and 4 have one slope: costs that are all 1 more or less change no decision there. A U3
# run has at most 52 answers: it goes on only on curve 8 between 1/2 and 1.
UNSEEN = {"epsilon", "eta", "c0 of curve 3", "c0 of curve 4", "B 53", "B 99", "B 101"}
FACTORS = 0.9, 0.999, 1 - 1e-9, 1 + 1e-9, 1.001, 1.1


def default(i, factor):
    def slip(jobs, curves):
        jobs.DEFAULTS[i] = F(flt(jobs.DEFAULTS[i]) * factor)
    return slip


def old_bound(jobs, curves):
    """The default of max before 02's request 2."""
    jobs.DEFAULTS[NAMES.index("high")] = F(1e5)


def count_default(tag, value):
    def slip(jobs, curves):
        right = jobs.parameters

        def wrong(fields, defaults):
            params, b, n = right(fields, defaults)
            if tag in fields:
                return params, b, n
            return (params, value, n) if tag == jobs.BUDGET else (params, b, value)

        jobs.parameters = wrong
    return slip


def coefficient(k, i, more):
    def slip(jobs, curves):
        row = list(curves.COEFFICIENTS[k])
        row[i] += more
        curves.COEFFICIENTS[k] = tuple(row)
    return slip


def regrouped(cost=None, slope=None):
    """Another order of a curve's operations."""
    def slip(jobs, curves):
        right = curves.curve

        def wrong(k, x):
            c, y = list(map(float, curves.COEFFICIENTS[k - 1])), flt(x)
            f, g = right(k, x)
            return bits(cost(c, y)) if cost else f, bits(slope(c, y)) if slope else g

        jobs.curve = wrong
    return slip


def slips():
    """The name and the changes of each kind of slip."""
    for i, name in enumerate(NAMES):
        yield name, [default(i, factor) for factor in FACTORS]
    yield "the old high", [old_bound]
    for value in 10, 50, 51, 52, 53, 99, 101:
        yield "B %d" % value, [count_default(5, value)]
    yield "N", [count_default(6, value) for value in (50, 99, 101, 1000)]
    for k in range(8):
        for i in range(5):
            yield "c%d of curve %d" % (i, k + 1), [coefficient(k, i, more) for more in (-1, 1)]
    yield "cost by powers", [
        regrouped(cost=lambda c, x: c[0] + c[1] * x + c[2] * (x * x) + c[3] * (x * x * x) + c[4] * (x * x * x * x)),
        regrouped(cost=lambda c, x: c[4] * (x * x * x * x) + c[3] * (x * x * x) + c[2] * (x * x) + c[1] * x + c[0]),
    ]
    yield "cost by x*x", [
        regrouped(cost=lambda c, x: ((x * x) * c[4] + x * c[3] + c[2]) * (x * x) + (x * c[1] + c[0])),
        regrouped(cost=lambda c, x: (c[4] * x + c[3]) * (x * x) * x + (c[2] * x + c[1]) * x + c[0]),
        regrouped(cost=lambda c, x: ((c[4] * x + c[3]) * x + c[2]) * x * x + (c[1] * x + c[0])),
    ]
    yield "slope by powers", [
        regrouped(slope=lambda c, x: c[1] + 2 * c[2] * x + 3 * c[3] * (x * x) + 4 * c[4] * (x * x * x)),
    ]
    yield "slope by x*x", [
        regrouped(slope=lambda c, x: (4 * c[4] * x + 3 * c[3]) * (x * x) + (2 * c[2] * x + c[1])),
    ]


def main(given):
    rest, values, named = options(given, {"--count": COUNT, "--seed": SEED}, {"--quick"}) or ([None], None, None)
    if rest:
        sys.exit("usage: slips.py [--count N] [--seed N] [--quick]")
    model, = over_native("model_jobs")
    told = [(data, list(model.lines_of(data))) for data in
            itertools.islice(Jobs(values["--seed"]).jobs(), values["--count"])]
    most, missed, wrongly, tried = 1 if "--quick" in named else None, [], [], 0
    for name, changes in slips():
        if name in UNSEEN and most:
            continue
        counts = []
        for slip in changes:
            jobs, curves = over_native("model_jobs", "model_curves")
            slip(jobs, curves)
            shown = (data for data, lines in told
                     if list(itertools.islice(jobs.lines_of(data), len(lines) + 1)) != lines)
            counts.append(sum(1 for _ in itertools.islice(shown, most)))
        tried += len(changes)
        if name not in UNSEEN and 0 in counts:
            missed.append(name)
        if name in UNSEEN and any(counts):
            wrongly.append(name)
        if not most:
            print("%-16s %s" % (name, " ".join("%5d" % n for n in counts)), flush=True)
    if missed:
        raise Wrong("no job shows a slip of %s" % ", ".join(missed))
    if wrongly:
        raise Wrong("a job shows a slip of %s, which none can" % ", ".join(wrongly))
    print("slips: seed %d, %d jobs, %d slips; each that a job can show is shown" % (
        values["--seed"], values["--count"], tried))


if __name__ == "__main__":
    command("slips", main)
