#!/usr/bin/env python3
"""Makes the case file that crates/cases is run on, and what the program must print.

usage: make_cases.py STDIN STDOUT

What must be printed is worked out from the rules alone, by the models on the floats of exact.py. Nothing of the program
under test is used.
"""
import sys

import lists_backtracking
import lists_equal_steps
import lists_growing
import lists_hagerzhang
import lists_vectors
from case_file import answer, dot
from exact import F
from model_cases import GROWING, HAGER_ZHANG, WHOLE, case_lines, expected, parsed

SHOWN = ["ASK", "STOP wolfe", "STOP approximate", "STOP met", "LIMIT",
         *("REFUSED %d" % n for n in (1, 2, 3, 4, 5, 6, 7, 8, 10, 11)),
         "REFUSED 2 at 0", "REFUSED 2 at 256", "REFUSED 4 at 0", "REFUSED 4 at 255", "VALUE", "POINT", "OUT",
         "BRACKET none", "BEST none", "COUNTS", "MALFORMED"]
# the last line of a growing search that is no REFUSED 8: without a bracket, and with one
SHOWN_GROWING = {True: ["ASK", *("REFUSED %d" % n for n in (2, 3, 4, 5, 6, 7, 10, 11))],
                 False: ["ASK", "STOP wolfe", "STOP approximate", "LIMIT", *("REFUSED %d" % n for n in (2, 5, 6, 7))]}
# how a search of either way to start comes to equal steps (02, request 4), as the model notes it. S2 or S3 alone, with
# no e, is always followed by L2
SHOWN_SILENT = {"S2 L2", "S3 L2", "S2 S3", "S2 S3 L2", "S2 e", "S2 e L2", "S3 e", "S3 e L2"}


def listed():
    """The cases, each once."""
    lists = lists_hagerzhang, lists_backtracking, lists_vectors, lists_growing, lists_equal_steps
    return list(dict.fromkeys(case for made in lists for case in made.listed()))


def begins(line, words):
    return (line + " ").startswith(words + " ")


def check_growing(cases):
    """Every ending of the growing start, and of a search behind it, is there."""
    seen = {True: [], False: []}
    for case in cases:
        if case[0] == WHOLE and case[3 + 96] == GROWING:
            *told, bracket, _, _ = case_lines(parsed(case)[0][0])
            seen[bracket == "BRACKET none"].append([line for line in told if line != "REFUSED 8"][-1])
    for none, wanted in SHOWN_GROWING.items():
        for words in wanted:
            assert any(begins(line, words) for line in seen[none]), (none, words)


def check_equal_steps(cases):
    """Equal steps at the high end, at the low end and at both, with an e and without, with L2 and without."""
    for tag in (HAGER_ZHANG, WHOLE):
        seen = {way for case in cases if case[0] == tag for way in lists_equal_steps.silent(case)}
        assert seen == SHOWN_SILENT, (tag, seen)


def main(stdin, stdout):
    cases = listed() + [dot([F(1)], [F(1)])]
    data = b"".join(cases) + answer(0, 0)                           # an answer to no search: malformed
    out = expected(data)
    lines = out.decode().split("\n")[:-1]
    for wanted in SHOWN:
        assert any(begins(line, wanted) for line in lines), wanted
    check_growing(cases)
    check_equal_steps(cases)
    for path, what in ((stdin, data), (stdout, out)):
        with open(path, "wb") as f:
            f.write(what)
    print("%d cases in %d bytes, %d lines in %d bytes" % (len(cases), len(data), len(lines), len(out)))


if __name__ == "__main__":
    if len(sys.argv) != 3:
        sys.exit(__doc__)
    main(*sys.argv[1:])
