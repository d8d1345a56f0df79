"""What the program `cases` must print for any bytes, by the models alone. docs/FORMATS.md has the format."""
import struct

import model_backtracking
import model_hagerzhang
import model_numbers
from exact import INF, NAN, is_nan
from model_lines import counts, line, number, printed

WHOLE, ANSWER, HAGER_ZHANG, BACKTRACKING, DOT, POINT = 16, 17, 32, 33, 34, 35
# the fields that begin a search
SEARCHES = WHOLE, HAGER_ZHANG, BACKTRACKING
# the ways of starting in a WHOLE
THREE_ANSWERS, GROWING = 0, 1
LONGEST = 511


def floats(body):
    """Every NaN pattern is the NaN."""
    return [NAN if is_nan(w) else w for w in struct.unpack(">%dQ" % (len(body) // 8), body)]


def search_of(tag, body):
    if tag in (WHOLE, HAGER_ZHANG):
        *params, f0, s0 = floats(body[:88])
        b, n = struct.unpack(">II", body[88:96])
        if tag == HAGER_ZHANG:
            return model_hagerzhang.Search(params, f0, s0, b, n)
        way, k, r = struct.unpack(">BII", body[96:])
        return model_hagerzhang.Search(params, f0, s0, b, n, k if way == GROWING else None, r)
    c1, c2, rho, alpha, f0, s0 = floats(body[1:49])
    return model_backtracking.Search((body[0], c1, c2), rho, alpha, f0, s0, *struct.unpack(">I", body[49:]))


def search_lines(fields):
    s = search_of(*fields[0])
    lines = [line(s.first, s)] + [line(s.answer(*floats(body)), s) for _, body in fields[1:]]
    bracket = best = "none"
    if s.held:
        bracket = " ".join(map(number, s.held[0] + s.held[1]))
        best = " ".join(map(number, s.held[2]))
    return lines + ["BRACKET " + bracket, "BEST " + best, "COUNTS " + counts(s)]


def refusal(number, index=None):
    return "REFUSED %d" % number if index is None else "REFUSED %d at %d" % (number, index)


def dot_lines(body):
    n = struct.unpack(">H", body[:2])[0]
    v = floats(body[4:])
    refused, value = model_numbers.dot(v[:n], v[n:])
    return [refusal(*refused) if refused else "VALUE " + number(value)]


def point_lines(body):
    n, _, k = struct.unpack(">HHH", body[:6])
    alpha, *v = floats(body[6:])
    refused, out = model_numbers.point(v[:n], alpha, v[n:], [INF] * k)
    return [refusal(*refused) if refused else "POINT", " ".join(["OUT"] + [number(w) for w in out])]


def case_lines(fields):
    """The lines of one case, from its fields, each a tag and a body."""
    tag, body = fields[0]
    if tag in (DOT, POINT):
        return (dot_lines if tag == DOT else point_lines)(body)
    return search_lines(fields)


def well_formed(tag, body, searching):
    if tag == ANSWER:
        return searching and len(body) == 16
    if tag == WHOLE:
        return len(body) == 105 and body[96] in (THREE_ANSWERS, GROWING)
    if tag == HAGER_ZHANG:
        return len(body) == 96
    if tag == BACKTRACKING:
        return len(body) == 53 and body[0] in model_backtracking.KINDS
    if tag not in (DOT, POINT):
        return False
    count, head = (2, 4) if tag == DOT else (3, 14)
    if len(body) < head:
        return False
    lengths = struct.unpack(">%dH" % count, body[:2 * count])
    return max(lengths) <= LONGEST and len(body) == head + 8 * (lengths[0] + lengths[1])


def parsed(data):
    """The cases of a file, each a tuple of fields, and the place of the malformed field or None."""
    cases, at = [], 0
    while at < len(data):
        head = data[at:at + 3]
        size = struct.unpack(">H", head[1:])[0] if len(head) == 3 else 0
        body = data[at + 3:at + 3 + size]
        searching = bool(cases) and cases[-1][0][0] in SEARCHES
        if len(head) < 3 or len(body) < size or not well_formed(head[0], body, searching):
            return cases, at
        if head[0] == ANSWER:
            cases[-1] += ((ANSWER, body),)
        else:
            cases.append(((head[0], body),))
        at += 3 + size
    return cases, None


def expected(data, lines_of=case_lines):
    cases, malformed = parsed(data)
    out = []
    for k, fields in enumerate(cases):
        out += ["CASE %d" % (k + 1)] + lines_of(fields)
    if malformed is not None:
        out.append("MALFORMED at %d" % malformed)
    return printed(out)
