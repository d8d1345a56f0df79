"""What the program `search` must print for any bytes, by the models alone: the job is taken apart by a reader of its
own, field by field."""
import struct

from exact import F, is_finite
from model_curves import NUMBERS, curve
from model_hagerzhang import DEFAULTS, Search
from model_lines import line

CURVE, BOUNDS, START, EPSILON, BUDGET, ITERATIONS = 1, 2, 3, 4, 5, 6
SIZES = {CURVE: 1, BOUNDS: 16, START: 8, EPSILON: 8, BUDGET: 2, ITERATIONS: 2}


def fields_of(job):
    """The fields by their tags, or None where the job is malformed."""
    fields, at, last = {}, 0, 0
    while at < len(job):
        if len(job) - at < 3:
            return None
        tag, size = struct.unpack(">BH", job[at:at + 3])
        body = job[at + 3:at + 3 + size]
        if tag <= last or SIZES.get(tag) != size or len(body) != size:
            return None
        fields[tag] = body
        last, at = tag, at + 3 + size
    return fields if CURVE in fields else None


def parameters(fields, defaults):
    """Those of the search, the default where a field is absent; B; N."""
    floats = lambda tag, default: list(struct.unpack(f">{SIZES[tag] // 8}Q", fields[tag])) if tag in fields else default
    number = lambda tag: int.from_bytes(fields[tag], "big") if tag in fields else 100
    params = defaults[:2] + floats(EPSILON, defaults[2:3]) + defaults[3:6]
    params += floats(BOUNDS, defaults[6:8]) + floats(START, defaults[8:])
    return params, number(BUDGET), number(ITERATIONS)


def lines_of(job, defaults=DEFAULTS):
    """The lines that belong to a job, one after the other."""
    fields = fields_of(job)
    if fields is None:
        yield "REFUSED 9"
        return
    params, b, n = parameters(fields, defaults)
    k = fields[CURVE][0]
    if k not in NUMBERS:
        yield "REFUSED %d" % (3 if all(map(is_finite, params)) else 2)
        return
    search = Search(params, *curve(k, F(0)), b, n)
    outcome = search.first
    while outcome[0] == "ASK":
        yield line(outcome, search)
        outcome = search.answer(*curve(k, outcome[1]))
    yield line(outcome, search)
