#!/usr/bin/env python3
"""Makes what the program `defaults` must print, crates/defaults/stdout.

usage: make_defaults.py FILE

The defaults stand here in the decimals of 01 and 02. Each is formed exactly, as a fraction, and rounded once
(exact.py). Nothing of the program under test is used.
"""
import sys
from fractions import Fraction

import model_hagerzhang
from exact import rounded
from model_lines import number, printed

# 01, "Parameters"
HAGER_ZHANG = {
    "delta": "0.1",
    "sigma": "0.9",
    "epsilon": "1e-6",
    "theta": "0.5",
    "gamma": "0.66",
    "eta": "0.01",
    "min": Fraction(1, 2**52),
    # 02, request 2: "The default becomes 64."
    "max": "64",
    "start": "1",
}
BACKTRACKING = {"rho": "0.9", "alpha": "1"}
# "U3 budget B is 1 to 1,000 (default 100); iteration limit N is 1 to 10,000 (default 100)."
COUNTS = {"hagerzhang": {"B": 100, "N": 100}, "backtracking": {"N": 100}}


def lines():
    out = []
    for search, floats in (("hagerzhang", HAGER_ZHANG), ("backtracking", BACKTRACKING)):
        out += ["%s %s %s" % (search, name, number(rounded(Fraction(x), 0))) for name, x in floats.items()]
        out += ["%s %s %d" % (search, name, n) for name, n in COUNTS[search].items()]
    return out


def main(path):
    # the model of the searches has the same ones
    assert [rounded(Fraction(x), 0) for x in HAGER_ZHANG.values()] == model_hagerzhang.DEFAULTS
    with open(path, "wb") as f:
        f.write(printed(lines()))


if __name__ == "__main__":
    if len(sys.argv) != 2:
        sys.exit(__doc__)
    main(sys.argv[1])
