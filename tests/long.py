#!/usr/bin/env python3
"""Long inputs and outputs, and such as come and go in pieces, through `search`, `cases` and `keep_bounds`.

usage: long.py [SEARCH CASES KEEP_BOUNDS] [--all]

The programs are bin/search, bin/cases and bin/keep_bounds where none are given. What must be written comes from the
models.

- Jobs that go on to an iteration limit of 10,000: some 20,000 lines each.
- Fields of a case file, among them the longest, that a read cuts at every place.
- The same at the end of a full buffer of 65,536 bytes: at some hundred places, with --all at every place.
- A case file with more than a million fields.
- No job, of some forty bytes up to millions, that begins with a job, with bounds or without.
- Input that comes byte by byte, and output that is read byte by byte.
- Writes that take a part of what they are given: the pipe is full, and the program is stopped and goes on.

Ends with status 1 at the first output that is otherwise.
"""
# first, since it says where Python is too old for the rest
from harness import F_SETPIPE_SZ, Wrong, command, options, programs

import array
import fcntl
import functools
import itertools
import os
import signal
import socket
import subprocess
import sys
import tempfile
import termios
import threading
import time

from case_file import answer, backtracks, dot, growing, hager_zhang, params, point
from exact import MAX, NAN, ONE, SIGN, ZERO, F, Random
from lists_hagerzhang import endings
from make_jobs import before, job, stored
from model_backtracking import ARMIJO
from model_cases import case_lines, expected, parsed
from model_jobs import lines_of
from model_lines import printed
from model_stored import kept
from native import over_native

LIMIT_SECONDS = 120
PAGE = 4096
WINDOW = 65536
# of a native run so many lines are compared with the exact model
PREFIX = 300


def check(what, program, status, out, err, right):
    """The output must be these bytes, and standard error empty."""
    if status != 0 or err:
        raise Wrong("%s, %s: status %d, and standard error says %r" % (program, what, status, err[:200]))
    if out != right:
        at = next((i for i, (a, b) in enumerate(zip(out, right)) if a != b), min(len(out), len(right)))
        raise Wrong("%s, %s: %d bytes came, not %d; from byte %d on %r, not %r" % (
            program, what, len(out), len(right), at, out[at:at + 40], right[at:at + 40]))


def ended(p, what, program):
    """Both outputs of a program that is to end."""
    try:
        return p.communicate(timeout=LIMIT_SECONDS)
    except subprocess.TimeoutExpired:
        p.kill()
        p.wait()
        raise Wrong("%s, %s: no end within %d seconds" % (program, what, LIMIT_SECONDS))


def run_file(what, program, data, right):
    """The input is a file."""
    with tempfile.TemporaryFile() as f:
        f.write(data)
        f.seek(0)
        p = subprocess.Popen([program], stdin=f, stdout=subprocess.PIPE, stderr=subprocess.PIPE)
        out, err = ended(p, what, program)
    check(what, program, p.returncode, out, err, right)


def run_messages(what, program, messages, right):
    """Each read gives one message."""
    ours, theirs = socket.socketpair(socket.AF_UNIX, socket.SOCK_SEQPACKET)
    p = subprocess.Popen([program], stdin=theirs, stdout=subprocess.PIPE, stderr=subprocess.PIPE)
    theirs.close()

    def send():
        with ours:
            try:
                for m in messages:
                    ours.send(m)
            except BrokenPipeError:
                pass                # the program has ended; what it wrote shows whether it might

    sender = threading.Thread(target=send, daemon=True)
    sender.start()
    out, err = ended(p, what, program)
    sender.join()
    check(what, program, p.returncode, out, err, right)


# ---- jobs that go on to the limit

LIMITS = [(5, 10, 100, 2), (1, 10, 100, 2), (8, 3, 40, 0.5)]


def limit_job(k, low, high, first):
    """A job, and what must be written for it. The exact model is too slow for all of it."""
    data = job(k, F(low), F(high), F(first), n=10000)
    lines = list(over_native("model_jobs")[0].lines_of(data))
    assert lines[:PREFIX] == list(itertools.islice(lines_of(data), PREFIX))
    assert len(lines) > 20000 and lines[-1].startswith("LIMIT")
    return data, printed(lines)


# ---- fields that are cut

def cut_fields():
    """The longest point and dot, whose lengths alone are read, since they are refused; a point and a dot whose every
    number counts; and the longest start."""
    r = Random(5)
    long, full = [[r.like() for _ in range(n)] for n in (511, 256)]
    return [
        ("point of 511", point(long, ONE, long, 511)),
        ("dot of 511", dot(long, long)),
        ("point of 256", point(full, r.like(), full[::-1], 256)),
        ("dot of 256", dot(full, full[1:] + full[:1])),
        ("growing start", growing(params(low=NAN, first=full[0] & ~SIGN), full[1], full[2] | SIGN, 5, 6, 7)),
    ]


def numbered(lines, count):
    """The lines of `count` cases, each with the same lines behind its number."""
    rest = printed(lines)
    return b"".join(b"CASE %d\n" % (k + 1) + rest for k in range(count))


def cut_by_reads(name, field, program):
    """The r-th read ends r bytes behind the beginning of a field, and has what the one before left of a field before
    it. A read of no bytes would be the end."""
    places = range(len(field) + 1)
    ends = [i * len(field) + r for i, r in enumerate(places)]
    data = field * (len(places) + 1)
    messages = (data[a:b] for a, b in zip([0] + ends, ends + [len(data)]) if a < b)
    right = numbered(case_lines(parsed(field)[0][0]), len(places) + 1)
    run_messages("a %s cut by a read at every place" % name, program, messages, right)
    return len(places)


def filler(size):
    """Fields of so many bytes together. A point has 17 bytes and 8 for each number, so that from 2 to 9 of them can
    have any size that is not too small."""
    longest = point([ZERO] * 511, ZERO, [ZERO] * 511, 0)
    out = b""
    while size > 2 * len(longest):
        out += longest
        size -= len(longest)
    count = 2 + (size - 2) % 8
    numbers, rest = divmod(size - 17 * count, 8)
    assert rest == 0 <= numbers <= count * 1022
    for _ in range(count):
        n = min(1022, numbers)
        numbers -= n
        out += point([ONE] * min(n, 511), ONE, [ONE] * (n - min(n, 511)), 1)
    return out


def cut_by_windows(name, field, program, places):
    """A file is read 65,536 bytes at a time: what is left of a cut field goes to the front, and the buffer is filled up
    again. So each window ends so many bytes behind the beginning of a field."""
    lines = functools.lru_cache(maxsize=None)(case_lines)
    for i in range(0, len(places), 256):
        data, window = b"", 0
        for r in places[i:i + 256]:
            begin = window + WINDOW - r
            data += filler(begin - len(data)) + field
            window = begin if 0 < r < len(field) else window + WINDOW
        run_file("a %s at the end of a buffer" % name, program, data, expected(data, lines))
    return len(places)


def some_places(field):
    """About a hundred places of a field: those near its ends and near multiples of 4,096, and others in between."""
    places = set(range(0, len(field) + 1, 83)) | set(range(len(field) - 3, len(field) + 1)) | set(range(8))
    return sorted(places | {p for p in (PAGE - 1, PAGE, PAGE + 1, 2 * PAGE - 1, 2 * PAGE) if p <= len(field)})


# ---- many fields

def many_fields(answers, cases):
    """A search with so many answers behind its end, and then so many cases, of a few distinct ones in turn; and what
    must be written."""
    over = parsed(endings()[0])[0][0]
    lines = case_lines(over + over[-1:])
    assert lines[-4] == "REFUSED 8"
    first = ["CASE 1"] + lines[:-4] + ["REFUSED 8"] * answers + lines[-3:]
    short = [
        backtracks((ARMIJO, F(0.1), ZERO), F(0.9), ONE, ONE, F(-1), 5) + answer(F(9), ZERO) + answer(ZERO, ZERO),
        hager_zhang(params(), ONE, F(-1), 5, 5) + answer(ONE, ONE),
        hager_zhang(params(epsilon=MAX), F(3), ONE, 5, 5),
        growing(params(), ONE, F(-1), 5, 5, 1) + answer(ZERO, F(-1)) * 3,
        backtracks((ARMIJO, F(0.1), ZERO), F(0.9), ONE, NAN, F(-1), 5) + answer(ONE, ONE),
    ]
    texts = [printed(case_lines(parsed(case)[0][0])) for case in short]
    turns = cases // len(short)
    data = endings()[0] + answer(ONE, ONE) * answers + b"".join(short) * turns
    rest = b"".join(b"CASE %d\n" % (k + 2) + texts[k % len(short)] for k in range(turns * len(short)))
    return data, printed(first) + rest


# ---- what is no job

def no_jobs():
    """Bytes of many lengths that begin with a job, and are none. Of the jobs two have no bounds."""
    lengths = list(range(56, 63)) + [PAGE, WINDOW - 1, WINDOW, WINDOW + 55, WINDOW + 56, WINDOW + 57, 2 * WINDOW + 56]
    r, jobs = Random(6), before()
    rest = b"".join(r.below(1 << 64).to_bytes(8, "big") for _ in range(PAGE))
    fronts = [jobs[name] for name in ("wolfe_every_field", "3_before_4", "curve_1_alone")]
    whole = [(front + rest * (n // len(rest) + 1))[:n] for front in fronts for n in lengths + [3000001]]
    return whole + [fronts[1] + rest[:n] for n in range(1, 56 - len(fronts[1]))]


# ---- byte by byte

def run_and_read_bytes(what, program, data, right):
    """The output is read byte by byte."""
    with tempfile.TemporaryFile() as f:
        f.write(data)
        f.seek(0)
        p = subprocess.Popen([program], stdin=f, stdout=subprocess.PIPE, stderr=subprocess.PIPE)
    out = bytearray()
    while True:
        byte = os.read(p.stdout.fileno(), 1)
        if not byte:
            break
        out += byte
    check(what, program, p.wait(), bytes(out), p.stderr.read(), right)


# ---- writes that take a part

def state(pid):
    """The state of a process, a letter."""
    with open("/proc/%d/stat" % pid) as f:
        return f.read().rpartition(")")[2].split()[0]


def until(what, done):
    """Waits until done() is true; gives what it is."""
    limit = time.monotonic() + LIMIT_SECONDS
    while True:
        value = done()
        if value:
            return value
        if time.monotonic() > limit:
            raise Wrong("%s: nothing within %d seconds" % (what, LIMIT_SECONDS))
        time.sleep(0.0002)


def run_with_stops(what, program, data, right):
    """The output is a pipe of one page. Whenever the program waits in a write, since something is in the pipe and there
    is no room for more, it is stopped and goes on: the write then gives the number of bytes that it took so far, and
    the rest has to be written by another. A page of 4,096 bytes is 1 more than a multiple of the length of an ASK line,
    so writes end at every place of a line. Gives the number of stops."""
    with tempfile.TemporaryFile() as f:
        f.write(data)
        f.seek(0)
        r, w = os.pipe()
        room = fcntl.fcntl(w, F_SETPIPE_SZ, PAGE)
        p = subprocess.Popen([program], stdin=f, stdout=w, stderr=subprocess.PIPE)
    os.close(w)
    out, stops, held = [], 0, array.array("i", [0])

    def waits():
        now = state(p.pid)
        fcntl.ioctl(r, termios.FIONREAD, held)
        return "ended" if now == "Z" else now == "S" and held[0] > 0

    try:
        while until(what, waits) != "ended":
            os.kill(p.pid, signal.SIGSTOP)
            until(what, lambda: state(p.pid) in "TZ")
            os.kill(p.pid, signal.SIGCONT)
            out.append(os.read(r, room))
            stops += 1
        with open(r, "rb") as rest:
            out.append(rest.read())
        check(what, program, p.wait(), b"".join(out), p.stderr.read(), right)
    finally:
        if p.poll() is None:
            p.kill()
            p.wait()
    if stops < len(right) // room // 2:
        raise Wrong("%s, %s: only %d stops" % (program, what, stops))
    return stops


# ---- all of them

def main(given):
    rest, _, named = options(given, {}, {"--all"}) or ([None], None, None)
    if len(rest) not in (0, 3):
        sys.exit("usage: long.py [SEARCH CASES KEEP_BOUNDS] [--all]")
    search, cases, keep = programs(rest, "search", "cases", "keep_bounds")
    said = []
    limits = [limit_job(*which) for which in LIMITS]
    for data, right in limits:
        run_file("a job to the limit", search, data, right)
    lines = sum(text.count(b"\n") for _, text in limits)
    said.append("%d jobs to the limit of 10,000, %d lines" % (len(limits), lines))

    said.append("cut by reads at %d places" % sum(cut_by_reads(name, field, cases) for name, field in cut_fields()))
    places = lambda field: list(range(len(field) + 1)) if "--all" in named else some_places(field)
    said.append("cut by the end of a buffer at %d places" % sum(
        cut_by_windows(name, field, cases, places(field)) for name, field in cut_fields()))

    many, many_right = many_fields(600000, 200000)
    run_file("many fields", cases, many, many_right)
    said.append("a case file with %d bytes and %d lines" % (len(many), many_right.count(b"\n")))

    inputs = no_jobs()
    for data in inputs:
        run_file("no job of %d bytes" % len(data), keep, data, data)
    said.append("%d inputs that are no job, the longest with %d bytes" % (len(inputs), max(map(len, inputs))))

    jobs = stored()
    for name in "wolfe_every_field", "limit", "approximate", "9_longest_and_one", "9_bounds_cut", "9_empty":
        run_messages("%s byte by byte" % name, search, single(jobs[name]), printed(lines_of(jobs[name])))
    mixed = b"".join(endings()) + b"".join(field for _, field in cut_fields()) + b"".join(endings())
    mixed_right = expected(mixed)
    run_messages("a case file byte by byte", cases, single(mixed), mixed_right)
    relied = before()
    for name in "curve_1_alone", "3_before_4", "wolfe_every_field", "9_longest_and_one", "9_bounds_cut", "9_empty":
        run_messages("%s byte by byte" % name, keep, single(relied[name]), kept(relied[name]))
    run_and_read_bytes("read byte by byte", search, *limits[0])
    run_and_read_bytes("read byte by byte", cases, mixed, mixed_right)
    run_and_read_bytes("read byte by byte", keep, mixed, mixed)
    said.append("13 inputs and 3 outputs byte by byte")

    long_cases = mixed * 12
    stops = run_with_stops("stopped in its writes", search, *limits[1])
    stops += run_with_stops("stopped in its writes", cases, long_cases, expected(long_cases))
    stops += run_with_stops("stopped in its writes", keep, long_cases, long_cases)
    said.append("%d writes that took a part" % stops)
    print("long: " + "; ".join(said))


def single(data):
    return [data[i:i + 1] for i in range(len(data))]


if __name__ == "__main__":
    command("long", main)
