#!/usr/bin/env python3
"""Checks how fast the bracket closes (02, request 14), on what `cases` holds after each finished iteration.

usage: closing.py [PROGRAM] [--count N] [--seed N] [--slips | --table | --worked]

PROGRAM is bin/cases where none is given. Random searches are left behind the start and behind each finished iteration,
so that the program prints the bracket that it holds there. The former and the new bracket and the steps asked are the
program's; closing_claim.py works A, Z and m out of them, and says what must hold. The model must have noted the same.

Then slips are made in a copy of the model, and each must break the claim in some iteration. Then the worked iterations
are run, and docs/CLOSING.md must show them as they come out.

Prints how many iterations there were of each kind. Ends with status 1 where a claim fails, where a kind has no
iteration, and where a slip breaks nothing.

--slips only counts the iterations that show each slip. --table only prints the worked iterations as the page has them,
and --worked their bytes, lines and numbers.
"""
# first, since it says where Python is too old for the rest
from harness import ROOT, Wrong, command, options, programs

import collections
import itertools
import os
import re
import subprocess
import sys
import tempfile
from fractions import Fraction

from case_file import answer, hager_zhang, params
from closing_claim import Iteration, Misfit, width
from closing_searches import GROWS, MOST, THREE, Searches
from exact import HALF, ONE, ZERO, F, exact, flt
from model_lines import number
from native import over_native

COUNT, SEED = 1500, 1
AT_ONCE = 100
LIMIT_SECONDS = 60
KINDS = ["case 1", "case 1 by equality", "case 1 as wide as before", "case 2", "case 2 over half", "case 3", "S4 moved",
         "A.x 0"]
# what must be among the iterations of each way to start
WANTED = {THREE: KINDS + ["A.x -0.0"], GROWS: KINDS}
NO_ITERATION = ["the steps are those of an iteration"]
PAGE = os.path.join(ROOT, "docs", "CLOSING.md")


# ---- running

def teller(program):
    """A function: what the program prints for a case file."""
    def tell(data):
        try:
            r = subprocess.run([program], input=data, stdout=subprocess.PIPE, stderr=subprocess.STDOUT,
                               timeout=LIMIT_SECONDS)
        except subprocess.TimeoutExpired:
            raise Wrong("%s did not end within %d seconds" % (program, LIMIT_SECONDS))
        if r.returncode != 0:
            raise Wrong("%s ended with status %d" % (program, r.returncode))
        return r.stdout
    return tell


def told(tell, cases):
    """The lines of each case."""
    parts = tell(b"".join(cases)).decode("ascii", "replace").split("CASE ")[1:]
    if len(parts) != len(cases):
        raise Wrong("%d cases were given, and %d have lines" % (len(cases), len(parts)))
    return [part.split("\n")[1:-1] for part in parts]


def kept(case):
    with tempfile.NamedTemporaryFile(prefix="closing-", suffix=".cases", delete=False) as f:
        f.write(case)
    return "the case is kept in %s" % f.name


def played(model, drawn):
    """The answers to a search; behind how many of them its start and each iteration is finished; what the model notes
    of each iteration."""
    s = model.search_of(drawn.start[0], drawn.start[3:])
    answers, ends, outcome = [], [], s.first
    while outcome[0] == "ASK" and len(answers) < MOST:
        answers.append(drawn.reply(outcome[1], len(answers)))
        outcome = s.answer(*answers[-1])
        if s.held and s.iterations == len(ends):
            ends.append(len(answers))
    return answers, ends, s.closing


def is_finished(lines, answered, iterations):
    """Whether these are the lines of a search that has so many answers and has just finished so many iterations."""
    counts = "COUNTS evaluations %d iterations %d" % (answered, iterations)
    asked, rest = lines[:answered], lines[answered + 1:]
    return (all(line.startswith("ASK ") for line in asked) and len(rest) == 3 and rest[2] == counts
            and rest[0].startswith("BRACKET ") and len(rest[0].split()) == 7)


def iteration(gamma, level, answers, ends, earlier, lines):
    """The finished iteration between two numbers of answers, from the lines of the search left there and there."""
    held = lambda told: [int(word, 16) for word in told[-3].split()[1:]]
    bracket = lambda x: (tuple(x[:3]), tuple(x[3:]))
    points = [(int(lines[i].split()[1], 16), *answers[i]) for i in range(*ends)]
    return Iteration(gamma, level, bracket(held(earlier)), points, bracket(held(lines)))


def looked_at(searches, tell, model):
    """Each finished iteration of the searches: the search, the case that shows it, the iteration, or None where the
    steps are not those of one, and what the model noted."""
    while True:
        some = [(drawn, *played(model, drawn)) for drawn in itertools.islice(searches, AT_ONCE)]
        if not some:
            return
        cut = [[drawn.start + b"".join(answer(*y) for y in answers[:n]) for n in ends]
               for drawn, answers, ends, _ in some]
        lines = iter(told(tell, [case for cases in cut for case in cases]))
        for (drawn, answers, ends, noted), cases in zip(some, cut):
            held = list(itertools.islice(lines, len(cases)))
            for i, case in enumerate(cases):
                if not is_finished(held[i], ends[i], i):
                    raise Wrong("the program has not just finished iteration %d, but the model; %s" % (i, kept(case)))
                if i == 0:
                    continue
                if held[i][:ends[i - 1] + 1] != held[i - 1][:-3]:
                    raise Wrong("with more answers the first lines are others; %s" % kept(case))
                try:
                    found = iteration(drawn.gamma, drawn.level, answers, ends[i - 1:i + 1], held[i - 1], held[i])
                except Misfit:
                    found = None
                yield drawn, case, found, noted[i - 1]


def check(tell, count, seed):
    native, = over_native("model_cases")
    seen, most = {way: collections.Counter() for way in WANTED}, Fraction(0)
    for drawn, case, found, noted in looked_at(itertools.islice(Searches(seed), count), tell, native):
        faults = found.faults() if found else NO_ITERATION
        if faults:
            raise Wrong("it does not hold that %s; %s" % (", nor that ".join(faults), kept(case)))
        if found.entry() != noted:
            raise Wrong("the model noted another A, Z, m or case; %s" % kept(case))
        seen[drawn.way].update(["all", *found.kinds()])
        if found.case == 2:
            most = max(most, found.share())
    print("closing: seed %d, %d searches, %d finished iterations, all as 02 says; case 2 left up to %s of Z.x - A.x" % (
        seed, count, sum(n["all"] for n in seen.values()), most))
    for way, kinds in WANTED.items():
        print("closing: %s, %d: %s" % (way, seen[way]["all"], ", ".join("%s: %d" % (k, seen[way][k]) for k in kinds)))
    missed = ["%s, %s" % (way, kind) for way, kinds in WANTED.items() for kind in kinds if not seen[way][kind]]
    if missed:
        raise Wrong("no iteration is of the kind: %s" % "; ".join(missed))


# ---- slips

HALVED, UPDATED = "div(add(lo[0], hi[0]), TWO), 1", "\n            lo, hi = yield from self.update(lo, hi, d)"
TEST = "if lt(mul(self.gamma, sub(b[0], a[0])), sub(hi[0], lo[0])):"
S4, L2 = "d = yield from self.trial(e)" + UPDATED, "d = yield from self.trial(m)" + UPDATED
# texts of model_hagerzhang.py, and what a copy has in their place
SLIPS = {
    "a quarter in place of the half": [(HALVED, "add(lo[0], div(sub(hi[0], lo[0]), F(4))), 1")],
    "A.x/2 + Z.x/2 in place of m": [(HALVED, "add(div(lo[0], TWO), div(hi[0], TWO)), 1")],
    ">= in place of > in L2": [(TEST, TEST.replace("lt(", "le("))],
    "gamma left out of L2": [(TEST, TEST.replace("mul(self.gamma, sub(b[0], a[0]))", "sub(b[0], a[0])"))],
    "gamma*(Z.x - A.x) in L2": [(TEST, TEST.replace("sub(b[0], a[0])", "sub(hi[0], lo[0])"))],
    "the width after S1 in L2": [("if e is not None:", "s1 = sub(hi[0], lo[0])\n        if e is not None:"),
                                 (TEST, TEST.replace("sub(hi[0], lo[0])", "s1"))],
    "S4's update left out": [(S4, "yield from self.trial(e)")],
    "L2's update left out": [(L2, "yield from self.trial(m)")],
    "L2 updates (a, b)": [(L2, L2.replace("update(lo, hi, d)", "update(a, b, d)"))],
    "U0 with < and >": [("if le(c[0], a[0]) or le(b[0], c[0]):", "if lt(c[0], a[0]) or lt(b[0], c[0]):")],
}


def slipped(changes):
    """The model of `cases`, with these slips in that of Hager-Zhang."""
    model, search = over_native("model_cases", "model_hagerzhang")
    with open(search.__file__, encoding="utf-8") as f:
        text = "".join(line for line in f if not line.startswith("from exact "))
    for old, new in changes:
        if text.count(old) != 1:
            raise Wrong("model_hagerzhang.py does not have this once: %s" % old)
        text = text.replace(old, new)
    exec(text, vars(search))
    return model


def shown_by(changes, count, seed):
    """The faults of each finished iteration of a program that has these slips."""
    model = slipped(changes)
    for _, _, found, _ in looked_at(itertools.islice(Searches(seed), count), model.expected, model):
        yield found.faults() if found else NO_ITERATION


def check_slips(count, seed):
    missed = [name for name, changes in SLIPS.items() if not any(shown_by(changes, count, seed))]
    if missed:
        raise Wrong("no iteration shows a slip: %s" % ", ".join(missed))
    print("closing: %d slips, each is shown" % len(SLIPS))


def count_slips(count, seed):
    for name, changes in SLIPS.items():
        shown = list(shown_by(changes, count, seed))
        print("%s: %d of %d iterations show it" % (name, sum(map(bool, shown)), len(shown)))
        for claim, n in collections.Counter(itertools.chain(*shown)).most_common():
            print("%8d times not: %s" % (n, claim), flush=True)


# ---- worked iterations

# f0 is 1, s0 is -2 and epsilon is 0, so L is 1; gamma is 0.5 and N is 1. Each has its case, the points that are asked
# and answered, and its row, all worked out by hand. The first three points are the start: min, max and the start step,
# which is the best to the end.
U = 2.0 ** -52
WORKED = [
    ("1", [(0, 1, -2), (4, 9, 6), (3, 0, -2), (1, 1, -1), (2, 3, 1)],
     "0, 4 | 2 | 1, 2 | 1 | 1.5 | nothing | 1, 2 | 4 | 1"),
    ("2", [(0, 1, -2), (4, 9, 6), (3, 0, -2), (1, 1, -1.5), (4, 9, 6), (2.5, 3, 1)],
     "0, 4 | 2 | 1, 4 | 3 | 2.5 | 2.5 | 1, 2.5 | 4 | 1.5"),
    ("3", [(1, 1, -2), (1 + U, 9, 0), (3, 0, -2), (1 + U, 9, 0), (1, 1, -2)],
     "1, 1+u | 0.5u | 1, 1+u | u | 1 | 1 | 1, 1+u | u | u"),
    ("2, rounded", [(1, 1, -2), (1 + 3 * U, 9, 0), (3, 0, -2), (1 + 3 * U, 9, 0), (1 + 2 * U, 3, 1)],
     "1, 1+3u | 1.5u | 1, 1+3u | 3u | 1+2u | 1+2u | 1, 1+2u | 3u | 2u"),
]
HEAD = "case | a.x, b.x | gamma*(b.x - a.x) | A.x, Z.x | Z.x - A.x | m | L2 asks | new ends | width before | after"


def shown(w):
    """A number in few characters and in full: as a decimal, or by u, which is 2^-52, or its bits."""
    for unit, more, text in (1, 0, "%s"), (Fraction(U), 0, "%su"), (Fraction(U), 1, "1+%su"):
        k = (exact(w) - more) / unit
        if Fraction("%g" % k) == k:
            return text % ("" if k == 1 and unit != 1 else "%g" % k)
    return number(w)


def row(found):
    steps = lambda ends: "%s, %s" % tuple(shown(x) for x, _, _ in ends)
    asked = ", ".join(map(shown, found.by_l2)) or "nothing"
    return " | ".join((steps(found.w), shown(found.most), steps(found.az), shown(width(found.az)), shown(found.m),
                       asked, steps(found.v), shown(width(found.w)), shown(width(found.v))))


def worked(tell):
    """Of each worked iteration: its case, the fields of the case file that shows it, the lines, and the iteration."""
    for case, points, wanted in WORKED:
        steps, answers = [F(x) for x, _, _ in points], [(F(f), F(g)) for _, f, g in points]
        low, high, first = steps[:3]
        given = params(epsilon=ZERO, gamma=HALF, low=low, high=high, first=first)
        fields = [hager_zhang(given, ONE, F(-2), 100, 1), *(answer(*y) for y in answers)]
        earlier, lines = told(tell, [b"".join(fields[:4]), b"".join(fields)])
        if not is_finished(earlier, 3, 0) or not is_finished(lines, len(points), 1):
            raise Wrong("worked iteration %s: the lines are %s" % (case, lines))
        found = iteration(HALF, ONE, answers, (3, len(points)), earlier, lines)
        if (lines[:len(points)], row(found)) != (["ASK " + number(x) for x in steps], wanted):
            raise Wrong("worked iteration %s: the lines are %s, the row is %s" % (case, lines, row(found)))
        if found.faults() or not case.startswith(str(found.case)):
            raise Wrong("worked iteration %s: it is case %d, and it does not hold that %s" % (
                case, found.case, ", nor that ".join(found.faults())))
        yield case, fields, lines, found


def table(tell):
    rows = ["%s | %s" % (case, row(found)) for case, _, _, found in worked(tell)]
    line = "|%s\n" % ("---|" * (HEAD.count("|") + 1))
    return "| %s |\n" % HEAD + line + "".join("| %s |\n" % r for r in rows)


def check_worked(tell):
    text = table(tell)
    if os.path.exists(PAGE):
        with open(PAGE, encoding="utf-8") as f:
            parts = re.split("^<!-- (?:end of )?table -->\n", f.read(), flags=re.M)
        if len(parts) != 3 or parts[1].strip("\n") != text.strip("\n"):
            raise Wrong("docs/CLOSING.md does not have this table, which --table prints:\n" + text)
    print("closing: %d worked iterations, as they were worked out" % len(WORKED))


def print_worked(tell):
    for case, fields, lines, found in worked(tell):
        print("case %s\n" % case)
        print("\n".join([field.hex() for field in fields] + [""] + lines + [""]))
        points = zip(("a", "b", "A", "Z", "new low", "new high"), (*found.w, *found.az, *found.v))
        numbers = [("%s.%s" % (at, of), x) for at, point in points for of, x in zip("xfg", point)]
        numbers += [("gamma*(b.x - a.x)", found.most), ("Z.x - A.x", width(found.az)), ("m", found.m),
                    ("width before", width(found.w)), ("width after", width(found.v))]
        for what, x in numbers:
            print("%-18s %s %-22r %s" % (what, number(x), flt(x), shown(x)))
        print()


def main(given):
    words = "--slips", "--table", "--worked"
    rest, values, named = options(given, {"--count": COUNT, "--seed": SEED}, words) or ([], None, ())
    if values is None or len(rest) > 1 or len(named) > 1:
        sys.exit("usage: closing.py [PROGRAM] [--count N] [--seed N] [--slips | --table | --worked]")
    drawn = values["--count"], values["--seed"]
    if "--slips" in named:
        count_slips(*drawn)
        return
    tell = teller(*programs(rest, "cases"))
    if "--table" in named:
        print(table(tell), end="")
    elif "--worked" in named:
        print_worked(tell)
    else:
        check(tell, *drawn)
        check_slips(*drawn)
        check_worked(tell)


if __name__ == "__main__":
    command("closing", main)
