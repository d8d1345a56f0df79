"""Writes the fields of a case file, and cases whose answers come from a reply to each step."""
import struct

from model_cases import ANSWER, BACKTRACKING, DOT, GROWING, HAGER_ZHANG, POINT, THREE_ANSWERS, WHOLE, search_of
from exact import F
from model_hagerzhang import DEFAULTS, NAMES

ANSWER_SIZE = 19


def field(tag, body):
    return struct.pack(">BH", tag, len(body)) + body


def words(*w):
    return struct.pack(">%dQ" % len(w), *w)


def params(**changed):
    """Hager-Zhang's parameters: the defaults, but for those that are named. A case has every one written out, and the
    cases were made when the default of high was 1e5."""
    changed.setdefault("high", F(1e5))
    return [changed.get(name, default) for name, default in zip(NAMES, DEFAULTS)]


def hager_zhang(params, f0, s0, b, n):
    return field(HAGER_ZHANG, words(*params, f0, s0) + struct.pack(">II", b, n))


def whole(params, f0, s0, b, n, way, k, r):
    return field(WHOLE, words(*params, f0, s0) + struct.pack(">IIBII", b, n, way, k, r))


def three_answers(params, f0, s0, b, n, k=0, r=0):
    """01's start as a whole one. K is not read."""
    return whole(params, f0, s0, b, n, THREE_ANSWERS, k, r)


def growing(params, f0, s0, b, n, k, r=0):
    return whole(params, f0, s0, b, n, GROWING, k, r)


def backtracks(c, rho, alpha, f0, s0, n):
    return field(BACKTRACKING, bytes([c[0]]) + words(c[1], c[2], rho, alpha, f0, s0) + struct.pack(">I", n))


def answer(cost, slope):
    return field(ANSWER, words(cost, slope))


def dot(a, b):
    return field(DOT, struct.pack(">HH", len(a), len(b)) + words(*a, *b))


def point(x0, alpha, d, k):
    return field(POINT, struct.pack(">HHH", len(x0), len(d), k) + words(alpha, *x0, *d))


def refused_by_01(s):
    """Whether 01's rules ended this search by 5, where 02's request 4 goes on: the last e of S2 and S3 was 0/0."""
    return any(not way.startswith("S2 e") for way in getattr(s, "silent", []))


def played(start, reply, most, extra=1, onward=False):
    """A search: the start, the answers that reply(step, i) gives while a step is asked, and `extra` more; `most` at
    most. Unless it is to go onward, it is taken as over where 01 refused it: so the cases that were made before 02's
    request 4 have the answers that they had."""
    case, s = start, search_of(start[0], start[3:])
    outcome = s.first
    for i in range(most):
        asked = outcome[0] == "ASK" and (onward or not refused_by_01(s))
        extra -= not asked
        if extra < 0:
            break
        y = reply(outcome[1] if asked else 0, i)
        case += answer(*y)
        outcome = s.answer(*y)
    return case


def cuts(case, most):
    """The search ended after its start and after each of its first answers, which shows what it holds there."""
    start = 3 + struct.unpack(">H", case[1:3])[0]
    return [case[:n] for n in range(start, min(len(case), start + most * ANSWER_SIZE) + 1, ANSWER_SIZE)]
