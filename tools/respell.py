#!/usr/bin/env python3
"""Brings the repository's own words to the spelling of the Rattle that the file toolchain names.

usage: respell.py            at the top of a checkout in which the toolchain's port.py has run, once

A definition, a constructor or a variable in camel case becomes snake case (absOf, abs_of), in crates/, in the wrong
programs of must-fail/ and in the pages that speak of today. Types, facts and modules keep their capitals, and so do the
letters of the rules, as S2, U3 and L. Names of src/, of programs, strings and outputs stay. In a wrong program the
names that port.py turned elsewhere are turned too, and a projection is written tight. Each 'old:' of a wrong program
must then stand exactly once in its file: those that do not are printed, for a mend by hand.
"""
import glob
import json
import os
import re
import sys

# where the plain snake case is the name of something else that meets it
OTHERWISE = {
    "askedBy": "points_asked",
    "isField": "is_the_field",
    "noneYet": "nothing_yet",
    "notFinite": "is_not_finite",
    "sameStep": "equal_steps",
    "toldAt": "told_after",
    "epsilonK": "epsilon_k_of",
    "inOrder": "is_in_order",
}
# declared in no file of antt, or only as a variable
BESIDES = ["fL", "qK", "openingOf", "hagerZhangMachine", "hagerZhangOver", "trialOf", "trialSetup", "trialsFresh",
           "trialsMachine", "trialsOver", "trialsSetup", "trialsStart"]
# what port.py made of the repository's own definitions, for the wrong programs, which it leaves alone
TURNED = json.loads("""
{"withNumber": "with_number", "answer-at": "answer_at", "none-left": "none_left", "size-fits": "size_fits",
"named-step": "named_step", "all-seen": "all_seen", "all-named": "all_named", "named-here": "named_here", "both-ways":
"both_ways", "any-order": "any_order", "either-order": "either_order", "whole-part": "whole_part", "number-is":
"number_is", "allBelow": "all_below", "none-below": "none_below", "none-above": "none_above", "below-equal":
"below_equal", "count-spec": "count_spec", "sizeOf": "size_of", "goes-on": "goes_on", "answers-by": "answers_by",
"start-spec": "start_spec", "is-finite": "is_finite", "madeOf": "made_of", "freshOf": "fresh_of", "startOf":
"start_of", "answerOf": "answer_of", "isOver": "is_over", "tells-first": "tells_first", "run-spec": "run_spec",
"one-more": "one_more", "floatAt": "float_at", "paramsOf": "params_of", "boundsOf": "bounds_of", "wayOf": "way_of",
"wholeOf": "whole_of", "read-short": "read_short", "ruled-out": "ruled_out", "read-spec": "read_spec", "readBy":
"read_by", "readOf": "read_of", "inRange": "in_range", "holdsOf": "holds_of", "entry-spec": "entry_spec", "entryOf":
"entry_of", "valueOf": "value_of", "told-at": "told_at", "asked-is": "asked_is", "asked-by": "asked_by", "one-fewer":
"one_fewer", "fits-next": "fits_next", "fit-next": "fit_next", "first-step": "first_step", "other-step": "other_step",
"given-by": "given_by", "shut-out": "shut_out", "size-below": "size_below", "withNext": "with_next", "no-more":
"no_more", "same-ends": "same_ends", "some-left": "some_left", "same-number": "same_number", "isFinite": "is_finite",
"not-five": "not_five", "by-tests": "by_tests", "as-before": "as_before", "same-step": "same_step", "true-of":
"true_of", "dot-at": "dot_at", "point-at": "point_at", "job-read": "job_read", "low-end": "low_end", "high-end":
"high_end", "at-once": "at_once", "one-answer": "one_answer", "ends-it": "ends_it", "and-then": "and_then",
"low-byte": "low_byte", "written-back": "written_back", "short-cut": "short_cut", "is-whole": "is_whole", "head-spec":
"head_spec", "headOf": "head_of", "bodyOf": "body_of", "endOf": "end_of", "if-yes": "if_yes", "if-no": "if_no",
"by-call": "by_call", "by-cases": "by_cases", "and-first": "and_first", "and-second": "and_second", "not-negative":
"not_negative", "up-of": "up_of", "past-top": "past_top", "above-zero": "above_zero", "half-step": "half_step",
"none-dropped": "none_dropped", "half-of": "half_of", "below-less": "below_less", "sum-is": "sum_is", "add-is":
"add_is", "half-is": "half_is", "middle-of": "middle_of", "less-by": "less_by", "lt-by": "lt_by", "mono-of":
"mono_of", "units-mono": "units_mono", "none-between": "none_between", "le-total": "le_total", "lt-irrefl":
"lt_irrefl", "le-refl": "le_refl", "le-trans": "le_trans", "le-lt-trans": "le_lt_trans", "lt-trans": "lt_trans",
"le-antisym": "le_antisym", "is-odd": "is_odd", "pow-le-back": "pow_le_back", "units-of": "units_of", "zero-val":
"zero_val", "odd-pow": "odd_pow", "no-zero": "no_zero", "one-way": "one_way", "same-sign": "same_sign", "isZero":
"is_zero", "zeros-equal": "zeros_equal", "sign-of": "sign_of", "zeros-differ": "zeros_differ", "below-one":
"below_one", "both-zero": "both_zero", "zero-of": "zero_of", "yes-or-no": "yes_or_no", "or-l": "or_l", "or-r": "or_r",
"or-split": "or_split", "round-is": "round_is", "follows-on": "follows_on", "held-spec": "held_spec", "keeps-spec":
"keeps_spec", "heldAt": "held_at", "heldOf": "held_of", "takenOf": "taken_of", "either-way": "either_way", "asks-at":
"asks_at", "ended-at": "ended_at", "stands-after": "stands_after", "goes-further": "goes_further", "too-short":
"too_short", "none-yet": "none_yet", "by-way": "by_way", "one-less": "one_less", "one-left": "one_left", "in-start":
"in_start", "low-half": "low_half", "high-half": "high_half", "at-most": "at_most", "from-zero": "from_zero",
"in-order": "in_order", "asks-none": "asks_none", "kept-on": "kept_on", "if-some": "if_some", "if-none": "if_none",
"above-low": "above_low", "ends-so": "ends_so", "start-fits": "start_fits", "low-up": "low_up", "high-down":
"high_down", "from-more": "from_more", "same-low": "same_low", "same-text": "same_text", "all-end": "all_end",
"from-first": "from_first", "is-stuck": "is_stuck", "both-ends": "both_ends", "no-other": "no_other", "none-inside":
"none_inside", "not-yet": "not_yet", "at-zero": "at_zero", "premise-holds": "premise_holds", "as-first": "as_first",
"not-finite": "not_finite", "by-number": "by_number", "at-one": "at_one", "middleOf": "middle_of", "zeroOf":
"zero_of", "low-same": "low_same", "high-same": "high_same", "first-spec": "first_spec", "leftOf": "left_of",
"narrowBy": "narrow_by", "testOf": "test_of", "settledOf": "settled_of", "firstOf": "first_of", "opensOf": "opens_of",
"lastOf": "last_of", "endedOf": "ended_of", "same-size": "same_size", "other-tag": "other_tag", "is-read": "is_read",
"nothing-left": "nothing_left", "opens-back": "opens_back", "left-over": "left_over", "is-field": "is_field", "add-a":
"add_a", "add-body": "add_body", "floatIn": "float_in", "jobOf": "job_of", "main-spec": "main_spec", "equals-itself":
"equals_itself", "no-nan": "no_nan", "zero-by-zero": "zero_by_zero", "no-text": "no_text", "says-so": "says_so",
"stops-at": "stops_at", "same-count": "same_count", "no-row": "no_row", "says-at": "says_at", "from-start":
"from_start", "at-low": "at_low", "at-high": "at_high", "none-said": "none_said", "all-left": "all_left", "at-last":
"at_last", "saidOf": "said_of", "textOf": "text_of", "by-rows": "by_rows", "numberOf": "number_of", "none-more":
"none_more", "same-end": "same_end", "same-kept": "same_kept", "word-back": "word_back", "one-at-most": "one_at_most",
"ends-next": "ends_next", "by-after": "by_after", "adds-one": "adds_one", "first-fits": "first_fits", "same-answer":
"same_answer", "stands-at": "stands_at", "four-bytes": "four_bytes", "bytesOf": "bytes_of", "fill-spec": "fill_spec",
"add-spec": "add_spec", "no-digit": "no_digit", "sum-step": "sum_step", "zip-length": "zip_length", "none-found":
"none_found", "first-holds": "first_holds", "none-before": "none_before", "sum-first": "sum_first", "last-sum":
"last_sum", "by-2": "by_2", "by-4": "by_4", "first-or-none": "first_or_none", "first-then": "first_then",
"same-length": "same_length", "moved-length": "moved_length", "numberIn": "number_in", "pointOf": "point_of",
"byteAt": "byte_at", "pairOf": "pair_of", "wordOf": "word_of", "floatOf": "float_of"}
""")
MARKS = r"(?:(?:pub|abbrev|unfoldable|data|record)\s+)*"
DECLARED = re.compile(r"^\s*" + MARKS + r"([a-z][\w'₂₀-]*)\s*(?:\{[^}]*\}|\([^)]*\))*\s*:", re.M)
CAMEL = re.compile(r"[a-z0-9][A-Z]")
PAGES = ["README.md", "CONTRIBUTING.md", "docs/API.md", "docs/ARCHITECTURE.md", "docs/CLOSING.md", "docs/DECISIONS.md",
         "docs/DIFFERENCES.md", "docs/FORMATS.md", "docs/PROOFS.md", "docs/RULES.md", "tests/README.md"]
EDGE = r"(?<![\w'])%s(?![\w'])"


def read(path):
    with open(path, encoding="utf-8") as file:
        return file.read()


def write(path, text):
    if text != read(path):
        with open(path, "w", encoding="utf-8") as file:
            file.write(text)


def snake(name):
    return OTHERWISE.get(name) or re.sub(r"(?<=[a-z0-9])[A-Z]", lambda m: "_" + m.group().lower(), name)


def turner(names):
    pattern = re.compile(EDGE % ("(" + "|".join(sorted(map(re.escape, names), key=len, reverse=True)) + ")"))
    return lambda text: pattern.sub(lambda m: names[m.group(1)], text)


def tight(line):
    """A line of antt as port.py writes it: projections, paths, holes of operators, and names of the library."""
    line = re.sub(r"(?<=[\w')]) \.(?=[a-z0-9])", ".", line)
    line = re.sub(r"\(([\w']+(?:\.[\w']+)+)\)", r"\1", line)
    line = re.sub(r"Rattle·(\w+)\.", r"Rattle.\1.", line)
    line = re.sub(r"(?<=[{, ])_(&&|\|\|)_(?=[,} ])", "◌\\1◌", line)
    return line.replace("the-variants", "TheVariants").replace("ofBits", "of_bits")


def main():
    antt = [path for path in glob.glob("crates/*/*/**/*.antt", recursive=True) if "/out/" not in path]
    names = set(BESIDES)
    for path in antt:
        for name in DECLARED.findall(read(path)):
            # of a name joined by dashes each part is a word of its own; a rule's letter is none
            names |= {part for part in name.split("-") if CAMEL.search(part) and part[0].islower()}
    names = {name: snake(name) for name in names}
    words = turner(names)
    for path in antt + glob.glob("crates/*/src/*.rt") + [page for page in PAGES if os.path.exists(page)]:
        write(path, words(read(path)))
    turned = turner(TURNED | {name: new for name, new in names.items() if name not in TURNED})
    bad = 0
    for path in sorted(glob.glob("crates/*/must-fail/*.edit")):
        lines = read(path).split("\n")
        file = next(line[6:] for line in lines if line.startswith("file: "))
        for i, line in enumerate(lines):
            if line.startswith(("old: ", "new: ")):
                lines[i] = turned(tight(line)) if file.endswith(".antt") else line
        write(path, "\n".join(lines))
        text = read(os.path.join(os.path.dirname(path), "..", file))
        for line in lines:
            if line.startswith("old: ") and text.count(line[5:]) != 1:
                bad += 1
                print("%s: stands %d times: %s" % (path, text.count(line[5:]), line[5:]))
    print("%d names turned; %d lines of wrong programs to mend by hand" % (len(names), bad))


if __name__ == "__main__":
    sys.exit(main())
