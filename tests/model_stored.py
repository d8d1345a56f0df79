"""What `keep_bounds` must write for any bytes, from 02's request 2 alone: "Jobs without tag 2 relied on the old number.
Our stored jobs get a field 2 written with the old bounds"."""
from case_file import field, words
from exact import F
from model_hagerzhang import DEFAULTS, EPS, NAMES
from model_jobs import BOUNDS, fields_of

# 01: "Bounds 2^-52 and 1e5"
OLD_BOUNDS = EPS, F(1e5)
OLD_DEFAULTS = [dict(zip(("low", "high"), OLD_BOUNDS)).get(name, x) for name, x in zip(NAMES, DEFAULTS)]


def kept(data):
    """A job without a field 2 gets one; whatever else it is stays."""
    fields = fields_of(data)
    if fields is None or BOUNDS in fields:
        return data
    fields[BOUNDS] = words(*OLD_BOUNDS)
    return b"".join(field(tag, body) for tag, body in sorted(fields.items()))
