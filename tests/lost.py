#!/usr/bin/env python3
"""Nothing is lost silently: what `search`, `cases` and `keep_bounds` do where a read or a write fails.

usage: lost.py [SEARCH CASES KEEP_BOUNDS]

The programs are bin/search, bin/cases and bin/keep_bounds where none are given. Each is run with outputs that fail at
once or after some bytes, and with inputs that cannot be read or break off. Standard output must hold exactly the first
N bytes of what must be written, standard error exactly the one line `LOST standard output after N bytes: TEXT` or
`LOST standard input after N bytes: TEXT`, and the status is 0. Where nothing fails standard error is empty. What must
be written comes from the models. What this machine does not let one try is said. Ends with status 1 at the first run
that is otherwise.
"""
# first, since it says where Python is too old for the rest
from harness import F_SETPIPE_SZ, Wrong, command, options, programs

import fcntl
import os
import resource
import signal
import socket
import subprocess
import sys
import tempfile

import lists_growing
from case_file import answer, dot, hager_zhang, params, point
from exact import NAN, ONE, F
from lists_hagerzhang import endings
from make_jobs import before, job
from model_cases import SEARCHES, expected, parsed
from model_lines import printed
from native import over_native

LIMIT_SECONDS = 60
PAGE = 4096

FULL = "No space left on device"
LARGE = "File too large"
DESCRIPTOR = "Bad file descriptor"
FOLDER = "Is a directory"
AGAIN = "Resource temporarily unavailable"
PIPE = "Broken pipe"
RESET = "Connection reset by peer"


class Subject:
    """A program with a long input and what must be written for it; the input is in a file too. A pipe of one page that
    nobody reads takes a page of what it writes, or a shorter first write alone, since a long one does not join it."""

    def __init__(self, program, data, text, folder, first=PAGE):
        self.program, self.data, self.text, self.first = program, data, text, first
        self.file = os.path.join(folder, os.path.basename(program) + ".in")
        self.out = os.path.join(folder, "out")
        with open(self.file, "wb") as f:
            f.write(data)
        self.runs = 0

    def run(self, stdin=None, stdout=subprocess.PIPE, stderr=subprocess.PIPE, first=None, command=None):
        """Runs it on its input, or on stdin; `first` is done in the new process. Gives status and both outputs."""
        self.runs += 1
        with open(self.file, "rb") as own:
            p = subprocess.Popen(command or [self.program], stdin=own if stdin is None else stdin, stdout=stdout,
                                 stderr=stderr, preexec_fn=first)
            try:
                out, err = p.communicate(timeout=LIMIT_SECONDS)
            except subprocess.TimeoutExpired:
                p.kill()
                p.wait()
                raise Wrong("%s did not end within %d seconds" % (self.program, LIMIT_SECONDS))
        return p.returncode, out, err

    def check(self, what, came, out, err, status=0):
        """`came` is what run gave, `out` and `err` what must have come out."""
        said = lambda text: "%d bytes that end with %r" % (len(text), text[-80:])
        if came[0] != status:
            raise Wrong("%s, %s: the status is %d, not %d" % (self.program, what, came[0], status))
        for name, text, right in (("output", came[1], out), ("error", came[2], err)):
            if text is not None and text != right:
                raise Wrong("%s, %s: standard %s has %s, not %s" % (self.program, what, name, said(text), said(right)))

    def written(self):
        with open(self.out, "rb") as f:
            return f.read()

    def output_lost(self, what, came, out, text):
        """Standard output took `out`, which must be the beginning of what must be written, and then failed."""
        if len(out) == len(self.text):
            raise Wrong("%s, %s: all was written" % (self.program, what))
        line = "LOST standard output after %d bytes: %s\n" % (len(out), text)
        self.check(what, (came[0], out, came[2]), self.text[:len(out)], line.encode())

    def input_lost(self, what, came, out, count, text):
        line = "LOST standard input after %d bytes: %s\n" % (count, text)
        self.check(what, came, out, line.encode())


# ---- outputs that fail

def whole(s):
    s.check("with pipes", s.run(), s.text, b"")
    with open(s.out, "wb") as f:
        came = s.run(stdout=f)
    s.check("into a file", (came[0], s.written(), came[2]), s.text, b"")


def full(s):
    with open("/dev/full", "wb") as f:
        s.output_lost("into /dev/full", s.run(stdout=f), b"", FULL)


def size_limits(s):
    """A file may have so many bytes and no more: cuts within the first line, the first write and a later one, and
    between lines and writes."""
    sizes = [0, 1, 20, 21, PAGE - 1, PAGE, 10751, 10752, 10753, 65535, 65536, 70001, len(s.text) - 1]
    for size in sizes + [len(s.text)]:

        def limited():
            signal.signal(signal.SIGXFSZ, signal.SIG_IGN)
            resource.setrlimit(resource.RLIMIT_FSIZE, (size, size))

        with open(s.out, "wb") as f:
            came = s.run(stdout=f, first=limited)
        what = "into a file of at most %d bytes" % size
        if size == len(s.text):
            s.check(what, (came[0], s.written(), came[2]), s.text, b"")
            continue
        if len(s.written()) != size:
            raise Wrong("%s, %s: the file has %d bytes" % (s.program, what, len(s.written())))
        s.output_lost(what, came, s.written(), LARGE)


# The mount is seen by this command and its children alone, and ends with them.
SMALL_DISK = """
mount -t tmpfs -o size=65536 none "$2" 2>/dev/null || exit 99
exec 3>&2 2>/dev/null
"$1" >"$2/out" 2>&3
status=$?
cat "$2/out"
exit $status
"""


def small_disk(s):
    folder = os.path.join(os.path.dirname(s.out), "disk")
    os.makedirs(folder, exist_ok=True)
    try:
        came = s.run(command=["unshare", "-rm", "sh", "-c", SMALL_DISK, "sh", os.path.abspath(s.program), folder])
    except FileNotFoundError:
        return "a small disk: there is no command unshare"
    if came[0] in (1, 99) and not came[1]:
        return "a small disk: this machine lets nobody mount one"
    if len(came[1]) != 65536:
        raise Wrong("%s, on a disk of 65536 bytes: the file has %d" % (s.program, len(came[1])))
    s.output_lost("on a small disk", came, came[1], FULL)


def bad_outputs(s):
    s.output_lost("standard output closed", s.run(stdout=None, first=lambda: os.close(1)), b"", DESCRIPTOR)
    with open(s.file, "rb") as f:
        s.output_lost("standard output for reading alone", s.run(stdout=f), b"", DESCRIPTOR)


def pipes(s):
    # nobody reads until the program has ended
    r, w = os.pipe()
    fcntl.fcntl(w, fcntl.F_SETFL, os.O_NONBLOCK)
    room = fcntl.fcntl(w, F_SETPIPE_SZ, PAGE)
    came = s.run(stdout=w)
    os.close(w)
    with open(r, "rb") as f:
        out = f.read()
    if len(out) != min(room, s.first):
        raise Wrong("%s, into a pipe that does not block: %d bytes are in it" % (s.program, len(out)))
    s.output_lost("into a pipe that does not block", came, out, AGAIN)
    # nobody reads at all; a program ignores SIGPIPE, whether it was started so or not
    for ignored in True, False:
        r, w = os.pipe()
        os.close(r)
        came = s.run(stdout=w, first=lambda: signal.signal(signal.SIGPIPE, signal.SIG_IGN) if ignored else None)
        os.close(w)
        s.output_lost("into a pipe that nobody reads" + ("" if ignored else ", with SIGPIPE"), came, b"", PIPE)
    left_early(s)


def left_early(s):
    """Three pages are read, and then nobody reads. What was in the pipe then was written, and is not read."""
    s.runs += 1
    r, w = os.pipe()
    room = fcntl.fcntl(w, F_SETPIPE_SZ, PAGE)
    with open(s.file, "rb") as own:
        p = subprocess.Popen([s.program], stdin=own, stdout=w, stderr=subprocess.PIPE,
                             preexec_fn=lambda: signal.signal(signal.SIGPIPE, signal.SIG_IGN))
    os.close(w)
    out = b""
    while len(out) < 3 * PAGE:
        out += os.read(r, 3 * PAGE - len(out))
    os.close(r)
    try:
        err = p.communicate(timeout=LIMIT_SECONDS)[1].decode("ascii", "replace")
    except subprocess.TimeoutExpired:
        p.kill()
        p.wait()
        raise Wrong("%s, into a pipe that is left early: no end" % s.program)
    lines = ["LOST standard output after %d bytes: %s\n" % (n, PIPE) for n in range(len(out), len(out) + room + 1)]
    if p.returncode != 0 or err not in lines or out != s.text[:len(out)]:
        raise Wrong("%s, into a pipe that is left early: status %d, and it says %r" % (s.program, p.returncode, err))


# ---- standard error fails too

def no_error_stream(s):
    with open("/dev/full", "wb") as f:
        s.check("both outputs into /dev/full", s.run(stdout=f, stderr=f), None, None)
        s.check("standard error into /dev/full", s.run(stderr=f), s.text, None)
        closed = lambda: os.close(2)
        s.check("output into /dev/full, standard error closed", s.run(stdout=f, stderr=None, first=closed), None, None)
    s.check("standard error closed", s.run(stderr=None, first=lambda: os.close(2)), s.text, None)

    def nothing():
        for stream in 0, 1, 2:
            os.close(stream)

    s.check("no stream at all", s.run(stdout=None, stderr=None, first=nothing), None, None)


# ---- inputs that fail

def bad_inputs(s):
    s.input_lost("standard input closed", s.run(first=lambda: os.close(0)), b"", 0, DESCRIPTOR)
    with open(s.out, "wb") as f:
        s.input_lost("standard input for writing alone", s.run(stdin=f), b"", 0, DESCRIPTOR)
    folder = os.open(os.path.dirname(s.out), os.O_RDONLY)
    s.input_lost("a folder as standard input", s.run(stdin=folder), b"", 0, FOLDER)
    os.close(folder)

    def neither():
        os.close(0)
        os.close(1)

    s.input_lost("neither input nor output", s.run(stdout=None, first=neither), None, 0, DESCRIPTOR)


def broken_off(s, data, out):
    """The bytes come, and then the other side is gone: it leaves a byte unread, and so the next read is refused."""
    ours, theirs = socket.socketpair(socket.AF_UNIX, socket.SOCK_STREAM)
    with theirs:
        theirs.send(b"\0")
        ours.sendall(data)
        ours.close()
        s.input_lost("an input that breaks off after %d bytes" % len(data), s.run(stdin=theirs), out, len(data), RESET)


def until(data):
    """What `cases` must have written when an input breaks off: the lines of the fields that are whole. The last search
    is not closed, as it has not ended."""
    cases, cut = parsed(data)
    lines = expected(data if cut is None else data[:cut]).decode().splitlines(True)
    if cases and cases[-1][0][0] in SEARCHES:
        del lines[-3:]
    return "".join(lines).encode()


def search_broken_off(s):
    for n in range(0, 56, 5):
        broken_off(s, s.data[:n], b"")


def cases_broken_off(s):
    start = endings()[0]
    for n in [0, 1, 2, 3, 98, 99, 100, 117, 118, 119, 136, 137, len(start)]:
        broken_off(s, start[:n], until(start[:n]))
    grown = lists_growing.endings()[0]
    for n in [98, 99, 107, 108, 109, 127, len(grown)]:
        broken_off(s, grown[:n], until(grown[:n]))
    refused = hager_zhang(params(), F(1), NAN, 1, 1) + answer(ONE, ONE)
    for data in refused, dot([ONE], [ONE]), dot([ONE], [ONE]) + start[:120], s.data[:70000], s.data[:90001]:
        broken_off(s, data, until(data))


def keep_bounds_broken_off(s):
    """Nothing is written of what may be a job, since more of it may be missing; what is longer is passed on."""
    job = before()["3_before_4"]
    for data in [job[:n] for n in range(len(job) + 1)] + [s.data[:55]]:
        broken_off(s, data, b"")
    for n in 56, 57, 4096, 65592, 90001:
        broken_off(s, s.data[:n], s.data[:n])


# ---- the programs

def long_job():
    """Some thousand lines: more than one write of `search`."""
    data = job(5, F(10), F(100), F(2), n=2500)
    lines = list(over_native("model_jobs")[0].lines_of(data))
    assert len(lines) == 5004 and lines[-1].startswith("LIMIT")
    return data, printed(lines)


def long_cases():
    data = b"".join(endings()) + point([ONE] * 511, ONE, [ONE] * 511, 511) * 12 + b"".join(endings())
    return data, expected(data)


def no_job():
    """More than one read, and no job: it comes out as it is."""
    data, _ = long_cases()
    return data, data


def main(given):
    rest, _, _ = options(given, {}) or ([None], None, None)
    if len(rest) not in (0, 3):
        sys.exit("usage: lost.py [SEARCH CASES KEEP_BOUNDS]")
    tried = programs(rest, "search", "cases", "keep_bounds")
    trials = whole, full, size_limits, small_disk, bad_outputs, pipes, no_error_stream, bad_inputs
    skipped, runs = [], 0
    with tempfile.TemporaryDirectory(prefix="lost-") as folder:
        subjects = (
            (Subject(tried[0], *long_job(), folder), search_broken_off),
            (Subject(tried[1], *long_cases(), folder), cases_broken_off),
            (Subject(tried[2], *no_job(), folder, first=56), keep_bounds_broken_off),
        )
        for s, own in subjects:
            for trial in trials + (own,):
                word = trial(s)
                if word and word not in skipped:
                    skipped.append(word)
            runs += s.runs
    for word in skipped:
        print("lost: not tried: " + word)
    print("lost: %d runs of %s, %s and %s, nothing was lost silently" % (runs, *tried))


if __name__ == "__main__":
    command("lost", main)
