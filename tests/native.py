"""The models over Python's own floats, where the exact ones are too slow.

The functions below have the names of those in exact.py. Each does by one operation of Python's float what exact.py
forms as a fraction and rounds. `over_native` loads the models once more with these in their place: the same text, so
there is no second model. Whoever uses it compares it with the exact one on a part of what it gives.
"""
import importlib
import struct
import sys
import types

import exact
from exact import INF, NAN, SIGN

FLOAT, WORD = struct.Struct(">d"), struct.Struct(">Q")


def bits(x):
    return WORD.unpack(FLOAT.pack(x))[0] if x == x else NAN


def flt(b):
    return FLOAT.unpack(WORD.pack(b))[0]


def add(a, b):
    return bits(flt(a) + flt(b))


def sub(a, b):
    return bits(flt(a) - flt(b))


def mul(a, b):
    return bits(flt(a) * flt(b))


def div(a, b):
    x, y = flt(a), flt(b)
    if y == 0:                # Python raises an error where IEEE has an infinity or the NaN
        return NAN if x == 0 or x != x else (a ^ b) & SIGN | INF
    return bits(x / y)


def le(a, b):
    return flt(a) <= flt(b)


def lt(a, b):
    return flt(a) < flt(b)


def over_native(*names):
    """The models of these names, as new modules over these operations; so are those that they stand on."""
    native = types.ModuleType("exact")
    native.__dict__.update(vars(exact), bits=bits, flt=flt, add=add, sub=sub, mul=mul, div=div, le=le, lt=lt)
    ours = lambda: [m for m in sys.modules if m == "exact" or m.startswith("model_")]
    kept = {m: sys.modules.pop(m) for m in ours()}
    sys.modules["exact"] = native
    try:
        return [importlib.import_module(name) for name in names]
    finally:
        for m in ours():
            del sys.modules[m]
        sys.modules.update(kept)
