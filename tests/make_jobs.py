#!/usr/bin/env python3
"""Makes jobs for the program `search`, and what must be written for each.

usage: make_jobs.py FOLDER

FOLDER gets NAME.job and NAME.out. What must be written is worked out from the rules alone, by the models on the floats
of exact.py. Nothing of the program under test is used.

FOLDER/old gets NAME.job as it was before 02's request 2, where that job relied on the old default of max. Its NAME.job
in FOLDER has the old bounds written out. Its NAME.out is what the old job tells with the old default.
"""
import os
import struct
import sys

from case_file import field, words
from exact import HALF, INF, MAX, NAN, ONE, SIGN, TINY, ZERO, F
from model_curves import NUMBERS
from model_jobs import BOUNDS, BUDGET, CURVE, EPSILON, ITERATIONS, START, fields_of, lines_of
from model_lines import printed
from model_stored import OLD_DEFAULTS, kept

FOUR = F(4)


def job(k, low=None, high=None, first=None, epsilon=None, b=None, n=None):
    """A job with the fields that are given; numbers are patterns."""
    out = field(CURVE, bytes([k]))
    if low is not None:
        out += field(BOUNDS, words(low, high))
    for tag, x in ((START, first), (EPSILON, epsilon)):
        if x is not None:
            out += field(tag, words(x))
    for tag, x in ((BUDGET, b), (ITERATIONS, n)):
        if x is not None:
            out += field(tag, struct.pack(">H", x))
    return out


def before():
    """The jobs that were stored before request 2, as they were."""
    sample = job(1, ZERO, FOUR)
    whole = job(1, ZERO, FOUR, HALF, F(1e-3), 7, 9)
    jobs = {
        "wolfe_sample": sample,
        "wolfe_every_field": whole,
        "approximate": job(6, F(10), F(100), F(-1), F(2)),
        "limit": job(8, ZERO, FOUR, n=1),
        # more lines than the program plays at a time
        "limit_in_two_chunks": job(5, F(10), F(100), F(2), n=300),
        # 2: an answer, and each number of a job
        "2_answer": job(5, ZERO, F(1e80)),
        "2_low_nan": job(1, NAN, FOUR),
        "2_high_infinite": job(1, ZERO, INF),
        "2_start_nan": job(1, first=0x7FF0000000000001),
        "2_epsilon_infinite": job(1, epsilon=SIGN | INF),
        "2_before_3_curve": job(9, NAN, FOUR),
        "2_before_3_counts": job(1, first=NAN, b=0, n=0),
        # 3
        "3_curve_0": job(0),
        "3_curve_9": job(9),
        "3_curve_255": job(255, ZERO, FOUR),
        "3_bounds_equal": job(1, ONE, ONE),
        "3_bounds_zeros": job(1, SIGN, ZERO),
        "3_bound_below_zero": job(1, SIGN | TINY, ONE),
        "3_epsilon_below_zero": job(1, epsilon=SIGN | TINY),
        "3_budget_0": job(1, b=0),
        "3_budget_1001": job(1, b=1001),
        "3_limit_0": job(1, n=0),
        "3_limit_10001": job(1, n=10001),
        "3_before_4": job(2, epsilon=F(1e308), n=0),
        # 4 to 7
        "4_level": job(2, epsilon=F(1e308)),
        "4_epsilon_k": job(2, epsilon=MAX),
        "5": job(3),
        "5_largest_counts": job(8, ZERO, FOUR, b=1000, n=10000),
        "6": job(8, F(0.6), F(0.9), b=1),
        "7": job(8, F(0.6), F(0.9)),
        # accepted at the ends of the ranges
        "low_minus_zero": job(7, SIGN, FOUR),
        "epsilon_minus_zero": job(6, ZERO, FOUR, epsilon=SIGN),
        "start_outside": job(7, HALF, FOUR, F(-3)),
        # 9
        "9_empty": b"",
        "9_tag_alone": b"\1",
        "9_half_a_length": b"\1\0",
        "9_no_body": b"\1\0\1",
        "9_curve_of_no_bytes": field(CURVE, b"") + sample[4:],
        "9_curve_of_two_bytes": field(CURVE, b"\0\1") + sample[4:],
        "9_no_curve": sample[4:],
        "9_curve_twice": sample[:4] + sample,
        "9_curve_last": sample[4:] + sample[:4],
        "9_bounds_twice": sample + sample[4:],
        "9_bounds_of_15": sample[:4] + field(BOUNDS, bytes(15)),
        "9_bounds_of_17": sample[:4] + field(BOUNDS, bytes(17)),
        "9_bounds_cut": sample[:-1],
        "9_bounds_length_256_more": sample[:4] + struct.pack(">BH", BOUNDS, 272) + sample[7:],
        "9_start_of_7": sample + field(START, bytes(7)),
        "9_epsilon_before_start": sample[:4] + field(EPSILON, bytes(8)) + field(START, bytes(8)),
        "9_budget_of_1": sample + field(BUDGET, b"\1"),
        "9_limit_of_3": sample + field(ITERATIONS, b"\0\0\1"),
        "9_tag_0": field(0, b"\1") + sample,
        "9_tag_7": sample + field(7, b"\0\1"),
        "9_tag_255": sample + field(255, b""),
        "9_byte_behind": sample + b"\0",
        "9_longest_and_one": whole + b"\0",
        "9_before_2": job(1, NAN, NAN) + b"\6",
    }
    for k in NUMBERS:
        jobs[f"curve_{k}_alone"] = job(k)
        jobs[f"curve_{k}_within"] = job(k, F(0.01), F(64), F(0.7))
    assert len(whole) == 55
    return jobs


def since():
    """Those that came since. The default_ ones have no field 2, so the new default of max shows."""
    jobs = {f"default_curve_{k}": job(k) for k in NUMBERS}
    jobs.update({
        "default_start": job(5, first=F(2)),
        "default_start_outside": job(7, first=F(65)),
        "default_epsilon": job(6, epsilon=F(2)),
        "default_budget": job(8, first=HALF, b=1),
        "default_limit": job(5, first=F(3), n=1),
        "default_every_other_field": job(2, first=F(7), epsilon=ZERO, b=1000, n=3),
    })
    return jobs


def stored():
    """The jobs as they are stored now."""
    return dict({name: kept(job) for name, job in before().items()}, **since())


def main(folder):
    old, seen = before(), set()
    os.makedirs(os.path.join(folder, "old"), exist_ok=True)
    for name, job in stored().items():
        lines = list(lines_of(job))
        relied = name in old and old[name] != job
        # "a test shows that their output is unchanged"
        assert name not in old or lines == list(lines_of(old[name], OLD_DEFAULTS)), name
        if name.startswith("default_"):
            assert BOUNDS not in fields_of(job) and lines[1] == "ASK 4050000000000000", name
        seen.add(" ".join(lines[-1].split()[:2]) if lines[-1][0] in "SR" else "LIMIT")
        files = {name + ".job": job, name + ".out": printed(lines)}
        if relied:
            files[os.path.join("old", name + ".job")] = old[name]
        for path, what in files.items():
            with open(os.path.join(folder, path), "wb") as f:
                f.write(what)
    assert seen == {"STOP wolfe", "STOP approximate", "LIMIT"} | {f"REFUSED {n}" for n in (2, 3, 4, 5, 6, 7, 9)}, seen
    print("%d jobs, %d of them with the old bounds written out" % (
        len(stored()), sum(kept(job) != job for job in old.values())))


if __name__ == "__main__":
    if len(sys.argv) != 2:
        sys.exit(__doc__)
    main(sys.argv[1])
