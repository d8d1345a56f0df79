#!/usr/bin/env python3
"""Makes what the example programs must print: crates/example_plant/stdout and crates/example_backtracking/stdout.

usage: make_examples.py FOLDER

FOLDER gets example_plant and example_backtracking. The plants are written down here once more, and searched by the
models on the floats of exact.py. Nothing of the programs under test is used.
"""
import os
import sys

from exact import HALF, NAN, ONE, TWO, ZERO, F, add, div, lt, mul, sub
from model_backtracking import ARMIJO, GOLDSTEIN, STRONG, WOLFE
from model_backtracking import Search as Backtracking
from model_hagerzhang import DEFAULTS, NAMES, Search
from model_lines import line, printed


def played(search, reply):
    """The lines of a search whose questions are answered by a reply to each step."""
    outcome = search.first
    lines = [line(outcome, search)]
    while outcome[0] == "ASK":
        outcome = search.answer(*reply(outcome[1]))
        lines.append(line(outcome, search))
    return lines


def plant(chiller, pump, dead_above):
    """chiller/(x + 0.5) + pump*x^3 and its slope; the cost is a NaN where the sensor is dead."""

    def reply(x):
        flow = add(x, HALF)
        power = add(div(chiller, flow), mul(pump, mul(mul(x, x), x)))
        slope = sub(mul(mul(F(3), pump), mul(x, x)), div(chiller, mul(flow, flow)))
        return NAN if lt(dead_above, x) else power, slope

    return reply


def plant_lines():
    params = dict(zip(NAMES, DEFAULTS), low=ZERO, high=TWO, first=ZERO)
    lines = []
    for dead_above in F(100), F(0.75):
        reply = plant(TWO, ONE, dead_above)
        lines += played(Search([params[name] for name in NAMES], *reply(ZERO), 100, 100), reply)
    return lines


def fan(x):
    """1 - 2x + 4x^2 and its slope."""
    power = add(sub(ONE, mul(TWO, x)), mul(F(4), mul(x, x)))
    return power, sub(mul(F(8), x), TWO)


def backtracking_lines():
    lines = []
    for kind, c1, c2 in (
        (ARMIJO, F(1e-4), ZERO),
        (GOLDSTEIN, F(0.25), ZERO),
        (WOLFE, F(1e-4), F(0.9)),
        (STRONG, F(1e-4), F(0.1)),
        (WOLFE, F(0.9), F(0.1)),
        (ARMIJO, NAN, ZERO),
    ):
        lines += played(Backtracking((kind, c1, c2), F(0.9), ONE, *fan(ZERO), 100), fan)
    return lines


def main():
    folder = sys.argv[1]
    for name, lines in (("example_plant", plant_lines()), ("example_backtracking", backtracking_lines())):
        with open(os.path.join(folder, name), "wb") as out:
            out.write(printed(lines))


if __name__ == "__main__":
    main()
