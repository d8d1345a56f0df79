#!/usr/bin/env python3
"""Runs random tables of searches through `cases`, and holds what it writes to 02's request 6 and to the model.

usage: random_tables.py [PROGRAM | --model] [--count N] [--seed N]

PROGRAM is bin/cases where none is given. With --model the model is asked in its place: so the model itself is held to
the request. The tables are drawn by lists_tables.py from a seed. Each is told, and then told otherwise:

- apart: the answers of each list one at a time, a scan each;
- joined: all the lists that were taken as one;
- reordered: the answers of each list in another order, which keeps that of each search;
- without: all answers to one of the searches left out;
- alone: each search as a case of its own, answered by fields 17.

What the searches tell behind each list, and what they hold at the end, must be the same in all of them: but for the
search that is left out, which tells and holds what it did at its start. A list that was refused is in none of them. So
it also shows that such a list changes nothing. Ends with status 1 at the first table that is told otherwise, and keeps
it in a file.
"""
# first, since it says where Python is too old for the rest
from harness import Wrong, command, options, programs

import collections
import itertools
import sys
import tempfile

from case_file import answer
from closing import teller, told
from exact import Random, flt
from lists_tables import LONG, Drawn, tabled
from model_cases import expected
from native import over_native

COUNT, SEED = 400, 1
AT_ONCE = 25
# so many tables are told by the exact model too
EXACT = 20
# at most so many starts, in turn
MOST = 6, 3, 6, 32
WANTED = {"SCAN", "ASK", "STOP met", "STOP wolfe", "STOP approximate", "LIMIT",
          *("REFUSED %d" % n for n in (1, 2, 3, 5, 6, 7, 8, 10, 11))}


class Table:
    """A table with its lists, and the lines that it is told: of the starts, of each list, and of each search when it is
    left."""

    def __init__(self, starts, lists):
        self.starts, self.lists, self.case = starts, lists, tabled(starts, *lists)

    def read(self, lines):
        at = len(self.starts)
        self.first, self.told = lines[:at], []
        self.size = sum(line.startswith("ASK ") for line in self.first)
        for _ in self.lists:
            more = 1 + self.size * (lines[at:at + 1] == ["SCAN"])
            self.told.append(lines[at:at + more])
            at += more
        self.held = [lines[i:i + 4] for i in range(at, len(lines), 4)]
        if [block[:1] for block in self.held] != [["SEARCH %d" % i] for i in range(self.size)]:
            self.wrong("has %d searches, and closing lines %s" % (self.size, self.held))
        return self

    def taken(self):
        """The lists that were taken, each with what was told behind it."""
        return [(answers, lines) for answers, lines in zip(self.lists, self.told) if lines[0] == "SCAN"]

    def wrong(self, why):
        with tempfile.NamedTemporaryFile(prefix="random-", suffix=".cases", delete=False) as f:
            f.write(self.case)
        raise Wrong("a table %s; it is kept in %s" % (why, f.name))


def number(y):
    """The search that an answer of a taken list is to."""
    return int(flt(y[0]))


def reordered(r, answers, size):
    """Another order that keeps that of each search."""
    queues = [[y for y in answers if number(y) == i] for i in range(size)]
    order = []
    while any(queues):
        queue = queues[r.below(size)]
        if queue:
            order.append(queue.pop(0))
    return order


class Variants:
    """The tables and searches in which the answers of a table are given otherwise; and what must be told then."""

    def __init__(self, r, drawn):
        self.drawn, self.lists = drawn, drawn.taken()
        self.blocks = [lines for _, lines in self.lists]
        self.left_out = r.below(drawn.size) if drawn.size else None
        new = lambda lists: Table(drawn.starts, lists)
        answers = [y for given, _ in self.lists for y in given]
        self.tables = {
            "apart": new([[]] + [[y] for y in answers]),            # the empty list shows what is told before the first
            "reordered": new([reordered(r, given, drawn.size) for given, _ in self.lists]),
            "without": new([[y for y in given if number(y) != self.left_out] for given, _ in self.lists]),
        }
        if len(answers) <= LONG:
            self.tables["joined"] = new([answers])
        seated = [start for start, line in zip(drawn.starts, drawn.first) if line.startswith("ASK ")]
        self.alone = [start + b"".join(answer(*y[1:]) for y in answers if number(y) == i)
                      for i, start in enumerate(seated)]

    def cases(self):
        return [table.case for table in self.tables.values()] + self.alone

    def same(self, name, table, blocks, held):
        if table.first != self.drawn.first or table.told != blocks or table.held != held:
            self.drawn.wrong("is told otherwise where its answers are given %s" % name)

    def check(self, lines):
        """`lines` has those of each case."""
        lines = iter(lines)
        apart, again, without, *joined = [table.read(next(lines)) for table in self.tables.values()]
        ends = [0, *itertools.accumulate(len(given) for given, _ in self.lists)][1:]
        for end, block in zip(ends, self.blocks):
            if apart.told[end] != block:
                self.drawn.wrong("is told otherwise where its answers are given apart")
        self.same("apart", apart, apart.told, self.drawn.held)
        self.same("reordered", again, self.blocks, self.drawn.held)
        for table in joined:
            self.same("joined", table, self.blocks[-1:] or table.told, self.drawn.held)
        # the one that is left out stays as it was
        i = self.left_out
        first = [line for line in self.drawn.first if line.startswith("ASK ")]
        blocks = [[first[i] if at == i + 1 else line for at, line in enumerate(block)] if first else block
                  for block in self.blocks]
        none = ["BRACKET none", "BEST none", "COUNTS evaluations 0 iterations 0"]
        held = [block[:1] + none if at == i else block for at, block in enumerate(self.drawn.held)]
        self.same("without search %s" % i, without, blocks, held)
        for i, own in enumerate(lines):
            self.check_alone(i, own, ends)

    def check_alone(self, i, lines, ends):
        """`lines` are those of search i by itself: its start, its answers, and what it holds."""
        *outcomes, bracket, best, counts = lines
        names = [number(y) for given, _ in self.lists for y in given]
        for end, block in zip(ends, self.blocks):
            if block[1 + i] != outcomes[names[:end].count(i)]:
                self.drawn.wrong("is told otherwise than its search %d alone" % i)
        if self.drawn.held[i][1:] != [bracket, best, counts]:
            self.drawn.wrong("holds something else than its search %d alone" % i)


def words(line):
    return " ".join(line.split()[:1 if line[:3] in ("ASK", "LIM") else 2])


def main(given):
    rest, values, named = options(given, {"--count": COUNT, "--seed": SEED}, {"--model"}) or ([], None, ())
    if values is None or len(rest) + len(named) > 1:
        sys.exit("usage: random_tables.py [PROGRAM | --model] [--count N] [--seed N]")
    native, = over_native("model_cases")
    tell = native.expected if named else teller(*programs(rest, "cases"))
    count, seed = values["--count"], values["--seed"]
    r = Random(seed)
    drawn, seen, lines, searches = Drawn(r), collections.Counter(), 0, 0
    for at in range(0, count, AT_ONCE):
        tables = [Table(*drawn.table(MOST[i % len(MOST)])) for i in range(at, min(at + AT_ONCE, count))]
        for table, came in zip(tables, told(tell, [table.case for table in tables])):
            table.read(came)
            if came != native.expected(table.case).decode().split("\n")[1:-1]:
                table.wrong("is not told as the model says")
            seen.update(map(words, itertools.chain(table.first, *table.told)))
            lines += len(came)
            searches += table.size
        if at < EXACT:
            for table in tables[:EXACT - at]:
                if expected(table.case) != native.expected(table.case):
                    table.wrong("is told otherwise by the exact model")
        variants = [Variants(r, table) for table in tables]
        came = iter(told(tell, [case for v in variants for case in v.cases()]))
        for v in variants:
            v.check(list(itertools.islice(came, len(v.cases()))))
    if not WANTED <= set(seen):
        raise Wrong("no table is told %s" % ", ".join(sorted(WANTED - set(seen))))
    print("random_tables: seed %d, %d tables, %d searches, %d lines; the same apart, joined, reordered, without one and"
          " alone; %s" % (seed, count, searches, lines, ", ".join("%s %d" % e for e in sorted(seen.items()))))


if __name__ == "__main__":
    command("random_tables", main)
