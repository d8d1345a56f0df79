#!/usr/bin/env python3
"""Feeds damaged input to a program: every prefix, every change of one byte and many random edits of valid files.

usage: damaged.py cases|search|keep_bounds PROGRAM [--quick|--few]

PROGRAM is built first where it is this project's bin/NAME or target/bin/NAME; any other one is taken as it is.
Quick, it tries four other values of each byte instead of all 255, and fewer edits. Few, it tries every fifth of those;
that is for an emulator, under which a start of the program costs more than its run.

Each input must be answered within the time limit, with exit status 0 and, but for keep_bounds, output whose every line
is of the known kinds. It is also compared with what the independent models say must be printed: for cases
model_cases.py, for search (jobs) model_jobs.py, which is stopped after some hundred steps, for keep_bounds (jobs)
model_stored.py. Prints how many inputs there were, and ends with status 1 at the first that is not answered so.
"""
# first, since it says where Python is too old for the rest
from programs import ready, started

import functools
import itertools
import re
import struct
import subprocess
import sys
import tempfile
import time

import lists_growing
import make_cases
import make_jobs
from case_file import answer, dot, field, hager_zhang, params, played, point, words
from exact import NAN, F, Random
from lists_backtracking import FINE, start
from lists_hagerzhang import endings
from model_cases import case_lines, expected
from model_curves import curve
from model_jobs import lines_of
from model_lines import printed
from model_stored import kept

LIMIT_SECONDS = 10
MODEL_STEPS = 300

NUMBER = "[0-9A-F]{16}"
COUNTS = "evaluations [0-9]{1,10} iterations [0-9]{1,10}"
OUTCOME = "ASK {n}|STOP (?:wolfe|approximate|met) {n} {c}|LIMIT {n} {c}|REFUSED [1-9]".format(n=NUMBER, c=COUNTS)
CASE_LINE = "|".join((
    "CASE [1-9][0-9]*", "{o}", "BRACKET (?:none|{n}(?: {n}){{5}})", "BEST (?:none|{n} {n} {n})", "COUNTS {c}",
    "REFUSED 1[01]", "VALUE {n}", "POINT", "REFUSED [24] at [0-9]{{1,3}}", "OUT(?: {n}){{0,511}}",
    "MALFORMED at [0-9]+",
)).format(o=OUTCOME, n=NUMBER, c=COUNTS)


# ---- the files that are damaged

def jobs():
    """The sample, a job for every ending and refusal, and some without tag 2, as they were stored before too."""
    stored, before = make_jobs.stored(), make_jobs.before()
    ends = "wolfe_sample wolfe_every_field approximate limit 2_answer 6 7 default_every_other_field default_start"
    return [stored[name] for name in ends.split()] + [before[name] for name in ("4_epsilon_k", "5", "3_curve_9")]


def relying():
    """Jobs without tag 2, with every choice of the other fields; and three with it."""
    fields = {"first": F(7), "epsilon": F(0), "b": 1000, "n": 3}
    chosen = [dict(c) for n in range(len(fields) + 1) for c in itertools.combinations(fields.items(), n)]
    return [make_jobs.job(2, **c) for c in chosen] + jobs()[:3]


def cases():
    """A few short cases with every kind of field and line. Of the growing searches one stops, one runs U3 and is
    refused behind it, and one is refused by 11; a damaged s0 brings 10."""
    grown = lists_growing.endings()
    return [
        endings()[0],
        endings()[2],
        hager_zhang(params(), F(1), NAN, 1, 1) + answer(0, 0),
        dot([F(1), F(2)], [F(3), F(4)]),
        played(start(FINE[2], 4, alpha=F(8)), lambda x, i: curve(1, x), 9, 2),
        point([F(1)], F(2), [F(3)], 1),
        point([], F(2), [F(3)], 2),
        lists_growing.as_whole(endings()[0][:99], 2),
        grown[0], grown[3], grown[-1],
    ]


def malformed():
    """Files that end malformed, one way each; what is before is well-formed."""
    hz, bt, grown = endings()[0], start(FINE[0], 3), lists_growing.endings()[0]
    d, p, y = dot([F(1)], [F(2)]), point([F(1)], F(2), [F(3)], 1), answer(F(1), F(1))
    long = [F(1)] * 512
    ends = [field(0, b""), field(1, b"\1"), field(15, words(0, 0)), field(18, words(0, 0))]
    ends += [field(31, b""), field(36, b""), field(255, b"")]
    for tag, size in ((16, 105), (17, 16), (32, 96), (33, 53), (34, 4), (35, 14)):
        ends += [field(tag, bytes(n)) for n in (0, 1, size - 1, size + 1, size + 8, 256 + size, 65535)]
    ends += [d[:3] + b"\0\2" + d[5:], p[:3] + b"\0\2" + p[5:], dot([0], long), dot(long, [0])]
    ends += [point(long, 0, [0], 1), point([0], 0, long, 1), point([0], 0, [0], 512)]
    ends += [field(34, struct.pack(">HH", 65535, 1) + bytes(8))]
    ends += [field(35, struct.pack(">HHH", 1, 1, 65535) + bytes(24))]
    ends += [bt[:3] + bytes([k]) + bt[4:] for k in (0, 5, 255)]
    ends += [grown[:99] + bytes([way]) + grown[100:] for way in (2, 16, 255)]
    ends += [y[:-1], y[:2], y[:1], hz[:98], bt[:55], d[:-1], p[:-1], dot(long[:511], long[:511])[:-1]]
    ends += [grown[:n] for n in (99, 100, 107)]
    files = [before + e for before in (b"", hz, grown, bt, d) for e in ends]
    return files + [y, d + y, p + y, hz + y + d + y, bt + y + p + y, hager_zhang([NAN] * 9, 0, 0, 1, 1) + y + d + y]


# ---- running

class Judge:
    def __init__(self, kind, program, every):
        self.kind, self.program, self.every = kind, program, every
        self.line = re.compile("(?:%s)\\Z" % (CASE_LINE if kind == "cases" else OUTCOME))
        self.lines_of = functools.lru_cache(maxsize=None)(case_lines)
        self.seen, self.counts, self.compared, self.slowest = set(), {}, 0, 0.0

    def fail(self, data, why, out=b""):
        with tempfile.NamedTemporaryFile(prefix="damaged-", delete=False) as f:
            f.write(data)
        print("damaged: %s: %s" % (self.program, why))
        print("the input, %d bytes, is kept in %s" % (len(data), f.name))
        print("its output ends with: %r" % out[-400:])
        sys.exit(1)

    def answer(self, data):
        before = time.monotonic()
        try:
            r = subprocess.run([self.program], input=data, stdout=subprocess.PIPE, stderr=subprocess.STDOUT,
                               timeout=LIMIT_SECONDS)
        except subprocess.TimeoutExpired:
            self.fail(data, "no answer within %d seconds" % LIMIT_SECONDS)
        self.slowest = max(self.slowest, time.monotonic() - before)
        if r.returncode != 0:
            self.fail(data, "exit status %d" % r.returncode, r.stdout)
        return r.stdout

    def matches(self, data, out):
        """Whether the output is what the model says; the model of a job may stop early."""
        if self.kind == "cases":
            return out == expected(data, self.lines_of), True
        if self.kind == "keep_bounds":
            return out == kept(data), True
        lines = list(itertools.islice(lines_of(data), MODEL_STEPS))
        whole = not lines[-1].startswith("ASK")
        told = printed(lines)
        return (out == told if whole else out.startswith(told)), whole

    def look_at_lines(self, data, out):
        text = out.decode("ascii", "replace")
        if text and not text.endswith("\n"):
            self.fail(data, "the last line has no end", out)
        if not text and (data or self.kind == "search"):
            self.fail(data, "no line at all", out)
        for line in text.split("\n")[:-1]:
            if not self.line.match(line):
                self.fail(data, "a line of no known kind: %r" % line, out)

    def judge(self, name, data):
        if data in self.seen:
            return
        self.seen.add(data)
        if name not in ("whole", "malformed") and len(self.seen) % self.every:
            return
        out = self.answer(data)
        if self.kind != "keep_bounds":
            self.look_at_lines(data, out)
        right, whole = self.matches(data, out)
        if not right:
            self.fail(data, "not what the model says", out)
        self.compared += whole
        self.counts[name] = self.counts.get(name, 0) + 1


def edited(r, data, other):
    """One to three random edits: a byte, a bit, a span cut out, doubled, moved in from another file, or overwritten."""
    for _ in range(1 + r.below(3)):
        i, n, kind = r.below(len(data) + 1), 1 + r.below(24), r.below(7)
        j = r.below(len(other) + 1)
        if kind == 0 and i < len(data):
            data = data[:i] + bytes([r.below(256)]) + data[i + 1:]
        elif kind == 1 and i < len(data):
            data = data[:i] + bytes([data[i] ^ 1 << r.below(8)]) + data[i + 1:]
        elif kind == 2:
            data = data[:i] + data[i + n:]
        elif kind == 3:
            data = data[:i] + data[i:i + n] + data[i:]
        elif kind == 4:
            data = data[:i] + other[j:j + n] + data[i:]
        elif kind == 5:
            data = data[:i] + bytes([[0, 255][r.below(2)]]) * n + data[i + n:]
        else:
            data = data[:i] + other[j:]
    return data


def main(kind, program, quick, every):
    r, j = Random(20260707), Judge(kind, program, every)
    files = {"cases": cases, "search": jobs, "keep_bounds": relying}[kind]()
    long = b"".join(make_cases.listed()) if kind == "cases" else b""
    whole = b"".join(files) if kind == "cases" else b""
    j.judge("whole", b"")
    for f in files + ([whole, long] if kind == "cases" else []):
        j.judge("whole", f)
    if kind == "cases":
        for f in malformed():
            j.judge("malformed", f)
    for f in files + ([whole] if whole else []):
        for n in range(len(f)):
            j.judge("prefix", f[:n])
    for f in [whole] if whole else files:
        for i in range(len(f)):
            values = sorted({f[i] ^ 1, f[i] ^ 128, 0, 255}) if quick else range(256)
            for v in values:
                if v != f[i]:
                    j.judge("one byte", f[:i] + bytes([v]) + f[i + 1:])
    for n in range(1000 if quick else 40000):
        f = files[r.below(len(files))] if kind != "cases" or n % 4 else whole
        j.judge("random edits", edited(r, f, files[r.below(len(files))]))
    if kind == "cases":
        for n in range(20 if quick else 400):
            j.judge("long file", edited(r, long, whole) if n % 2 else long[:r.below(len(long))])
    print("%s: %s; %d inputs, all answered, %d of them compared to the end; the slowest took %.2f s" % (
        kind, ", ".join("%s %d" % c for c in j.counts.items()), sum(j.counts.values()), j.compared, j.slowest))


def begin():
    usage = "usage: damaged.py cases|search|keep_bounds PROGRAM [--quick|--few]"
    modes = [a for a in sys.argv[1:] if a in ("--quick", "--few")]
    given = [a for a in sys.argv[1:] if a not in modes]
    if len(given) != 2 or len(modes) > 1:
        sys.exit(usage)
    kind, program = given
    if kind not in ("cases", "search", "keep_bounds"):
        sys.exit("damaged: there is no kind '%s'; %s" % (kind, usage))
    if program.startswith("-"):
        sys.exit("damaged: there is no option '%s'; %s" % (program, usage))
    main(kind, ready(program), bool(modes), 5 if "--few" in modes else 1)


if __name__ == "__main__":
    started("damaged", begin)
