#!/usr/bin/env python3
"""Talks with `cases` over two pipes, as a plant would: reads what is asked, answers it, until the search ends.

usage: dialogue.py [CASES]

The program is bin/cases where none is given. Each field must be answered within a time limit while the input stays
open, with the lines that the model has for it; half a field by nothing, and what came before it at once. The steps that
the plant answers are those that the program writes. Ends with status 1 at the first line that is otherwise or does not
come.
"""
# first, since it says where Python is too old for the rest
from harness import Wrong, command, options, programs

import os
import select
import subprocess
import sys
import tempfile
import time

from case_file import answer, backtracks, dot, field, growing, hager_zhang, params, point
from exact import NAN, ONE, TWO, ZERO, F, Random
from make_examples import fan, plant
from model_backtracking import ARMIJO, GOLDSTEIN, STRONG, WOLFE
from model_cases import ANSWER, DOT, POINT, WHOLE, case_lines, search_of
from model_lines import line

LIMIT_SECONDS = 30
# how long nothing must come where nothing may
PAUSE_SECONDS = 0.1


class Dialogue:
    """The program, and beside it the model of the case under way."""

    def __init__(self, program, errors):
        self.program, self.errors = program, errors
        self.p = subprocess.Popen([program], stdin=subprocess.PIPE, stdout=subprocess.PIPE, stderr=errors, bufsize=0)
        self.came, self.cases, self.lines = b"", 0, 0
        self.fields, self.search = (), None

    def __enter__(self):
        return self

    def __exit__(self, *_):
        if self.p.poll() is None:
            self.p.kill()
        self.p.wait()

    def wrong(self, text):
        raise Wrong("%s, case %d, behind %d lines: %s" % (self.program, self.cases, self.lines, text))

    # ---- the two pipes

    def send(self, data):
        try:
            while data:
                data = data[os.write(self.p.stdin.fileno(), data):]
        except BrokenPipeError:
            self.wrong("the program has ended, and takes no more")

    def readable(self, seconds):
        return bool(select.select([self.p.stdout], [], [], seconds)[0])

    def hear(self):
        """The next line, or None where the output has ended."""
        limit = time.monotonic() + LIMIT_SECONDS
        while b"\n" not in self.came:
            if not self.readable(max(0, limit - time.monotonic())):
                self.wrong("no line within %d seconds, but %r" % (LIMIT_SECONDS, self.came))
            more = os.read(self.p.stdout.fileno(), 65536)
            if not more:
                if self.came:
                    self.wrong("the output ends within a line, %r" % self.came)
                return None
            self.came += more
        text, _, self.came = self.came.partition(b"\n")
        self.lines += 1
        return text.decode("ascii", "replace")

    def expect(self, lines):
        """These lines come; gives the last."""
        heard = None
        for right in lines:
            heard = self.hear()
            if heard != right:
                self.wrong("%r came, not %r" % (heard, right))
        return heard

    def expect_silence(self):
        if self.came or self.readable(PAUSE_SECONDS):
            self.wrong("something came where nothing may: %r" % (self.came or os.read(self.p.stdout.fileno(), 400)))

    # ---- what must come

    def closing(self):
        """The lines that close the search under way."""
        return case_lines(self.fields)[-3:] if self.search else []

    def due(self, data):
        """The lines that this field, which is whole, brings."""
        tag, body = data[0], data[3:]
        if tag == ANSWER:
            self.fields += ((tag, body),)
            y = [int.from_bytes(body[i:i + 8], "big") for i in (0, 8)]
            return [line(self.search.answer(*y), self.search)]
        lines = self.closing()
        self.cases += 1
        self.fields = ((tag, body),)
        self.search = None if tag in (DOT, POINT) else search_of(tag, body)
        lines.append("CASE %d" % self.cases)
        return lines + ([line(self.search.first, self.search)] if self.search else case_lines(self.fields))

    # ---- what is said

    def say(self, *fields):
        """Sends these fields at once; gives the last line that comes."""
        self.send(b"".join(fields))
        return self.expect([text for data in fields for text in self.due(data)])

    def say_in_halves(self, data, at, before=b""):
        """Sends a field in two parts, and with the first of them a whole field before it."""
        self.send(before + data[:at])
        if before:
            self.expect(self.due(before))
        self.expect_silence()
        self.send(data[at:])
        return self.expect(self.due(data))

    def play(self, start, reply):
        """A whole search, with a plant that answers each step."""
        heard = self.say(start)
        while heard.startswith("ASK "):
            heard = self.say(answer(*reply(int(heard.split()[1], 16))))
        return heard

    def end(self, lines):
        """These lines come, and then nothing: the output ends, standard error is empty, the status is 0."""
        self.expect(lines)
        if self.hear() is not None:
            self.wrong("a line came behind the end")
        status = self.p.wait(LIMIT_SECONDS)
        self.errors.seek(0)
        said = self.errors.read()
        if status != 0 or said:
            self.wrong("status %d, and standard error says %r" % (status, said))


# ---- the plants

def chillers(r, count):
    """Plants of many sizes; in every fourth a sensor dies above some flow."""
    for i in range(count):
        dead = F(0.1 * (1 + r.below(20))) if i % 4 == 3 else F(100)
        reply = plant(F(0.25 * (1 + r.below(40))), F(0.125 * (1 + r.below(40))), dead)
        p = params(low=ZERO, high=F(0.5 * (1 + r.below(12))), first=F(0.125 * r.below(12)))
        yield hager_zhang(p, *reply(ZERO), 100, 1 + r.below(100)), reply


def growers(r, count):
    """Plants whose search grows from a small step. In every fourth a sensor dies; in every fifth no pump makes the
    slope rise, so that it grows to the last; in every sixth there is no chiller, and so no slope at 0."""
    for i in range(count):
        dead = F(0.1 * (1 + r.below(20))) if i % 4 == 3 else F(1e9)
        chiller, pump = F(0.25 * (1 + r.below(40)) * (i % 6 != 5)), F(0.125 * (1 + r.below(40)) * (i % 5 != 4))
        reply = plant(chiller, pump, dead)
        p = params(low=NAN, high=ZERO, first=F(0.001 * (1 + r.below(1000))))
        yield growing(p, *reply(ZERO), 100, 1 + r.below(100), 1 + r.below(9)), reply


FANS = [(ARMIJO, F(1e-4), ZERO), (GOLDSTEIN, F(0.25), ZERO), (WOLFE, F(1e-4), F(0.9)), (STRONG, F(1e-4), F(0.1)),
        (WOLFE, F(0.9), F(0.1))]


def talk(d):
    endings = {}
    for start, reply in list(chillers(Random(7), 60)) + list(growers(Random(10), 40)) + [
            (backtracks(c, F(0.9), F(a), *fan(ZERO), 100), fan) for c in FANS for a in (1, 8)]:
        word = " ".join(d.play(start, reply).split()[:2])
        word = word if word[0] in "SR" else "LIMIT"
        endings[word] = endings.get(word, 0) + 1
    if not {"STOP wolfe", "STOP met", "REFUSED 2", "REFUSED 3", "REFUSED 10", "REFUSED 11"} <= set(endings):
        d.wrong("the plants did not bring each ending: %s" % endings)
    return endings


def halves(d):
    """Fields that come in two parts, cut in the head, at its end, in the body and before the last byte."""
    slow = plant(TWO, ONE, F(100))
    from_small = growing(params(first=F(0.001)), *slow(ZERO), 9, 9, 9)
    for start, reply in (from_small, slow), next(chillers(Random(8), 1)):
        for at in 1, 2, 3, 50, len(start) - 9, len(start) - 1:
            heard = d.say_in_halves(start, at)
        for at in 1, 2, 3, 11, 18:
            heard = d.say_in_halves(answer(*reply(int(heard.split()[1], 16))), at)
    longest = point([ONE] * 511, TWO, [ONE] * 511, 511)
    # an answer, and with it a part of what comes next
    for following in (answer(NAN, ZERO), answer(ONE, ONE), dot([ONE, TWO], [TWO, F(3)]), longest):
        d.say(start)
        d.say_in_halves(following, len(following) // 2, answer(ONE, F(-1)))
    for at in 1, 4096, 8192:
        d.say_in_halves(longest, at)


def vectors(d):
    d.say(dot([ONE, TWO], [TWO, F(3)]))
    d.say(dot([NAN], [ONE]))
    d.say(point([ONE], TWO, [F(3)], 1), dot([ONE], []), point([], TWO, [ONE], 2))


def main(given):
    rest, _, _ = options(given, {}) or ([None] * 2, None, None)
    if len(rest) > 1:
        sys.exit("usage: dialogue.py [CASES]")
    program, = programs(rest, "cases")
    with tempfile.TemporaryFile() as errors, Dialogue(program, errors) as d:
        vectors(d)
        endings = talk(d)
        halves(d)
        vectors(d)
        # several fields at once; then the input ends, and the search that is open is closed
        start, reply = next(chillers(Random(9), 1))
        d.say(start, answer(*reply(ZERO)), answer(*reply(F(4))), start, answer(ONE, ONE))
        d.expect_silence()
        d.p.stdin.close()
        d.end(d.closing())
        said = d.cases, d.lines
    # a malformed field ends the dialogue while the input is open: whole ones, the second a start in no known way, and
    # heads that no field has, among them those of starts and an answer whose lengths have their bytes turned round
    heads = b"\x63\xff\xff", b"\x10\x69\x00", b"\x20\x60\x00", b"\x11\x10\x00", b"\x22\x20\x00"
    for malformed in field(0, b""), field(WHOLE, bytes(96) + b"\x02" + bytes(8)), *heads:
        with tempfile.TemporaryFile() as errors, Dialogue(program, errors) as d:
            d.say(start, answer(ONE, ONE))
            d.send(malformed)
            d.end(d.closing() + ["MALFORMED at %d" % (len(start) + len(answer(ONE, ONE)))])
    print("dialogue: %d cases and %d lines in one run, each answered before the next; %s" % (
        said + (", ".join("%s %d" % e for e in sorted(endings.items())),)))


if __name__ == "__main__":
    command("dialogue", main)
