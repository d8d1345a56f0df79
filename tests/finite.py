#!/usr/bin/env python3
"""02's request 5: the finite test by exponent bits, run at every exponent, and looked at as machine code.

usage: finite.py [CASES]
       finite.py --code

CASES is bin/cases where none is given. It is given dots of vectors with each exponent, of both signs, at the ends and
at the middle of the mantissas; what must be printed comes from the model. The model is asked with three wrong tests
too, and each must show: the mantissa's bits looked at, the sign bit not masked, 7FF taken too.

Then the test is compiled by itself. Of a pattern its machine code must have no float operation. Of a float it has one,
the comparison with itself, without which a NaN has no bits, and must have no other. --code prints that code: of the
test on a float, of the test on a pattern, and of the former body, which compared with the infinities.
"""
# first, since it says where Python is too old for the rest
from harness import Wrong, command, options, programs

import itertools
import os
import re
import shutil
import struct
import subprocess
import sys
import tempfile

import model_numbers
from case_file import dot
from exact import ONE, SIGN, ZERO, is_finite
from model_cases import expected
from programs import ROOT

LIMIT_SECONDS = 120
MANTISSAS = 0, 1, 1 << 51, (1 << 52) - 1
SLIPS = {
    "the mantissa's bits are looked at": lambda b: (b & ~SIGN) >> 51 < 0xFFF,
    "the sign bit is not masked": lambda b: b >> 52 < 0x7FF,
    "7FF is taken too": lambda b: (b >> 52) & 0x7FF <= 0x7FF,
}

# ---- every exponent


def dots():
    """The 2,048 exponents in vectors of 256, each sign and mantissa by itself, as the first factors and as the second;
    then each pattern with the highest exponent alone."""
    for sign in 0, SIGN:
        for m in MANTISSAS:
            patterns = [sign | e << 52 | m for e in range(2048)]
            for i in range(0, 2048, 256):
                yield dot(patterns[i:i + 256], [ZERO] * 256)
                yield dot([ZERO] * 256, patterns[i:i + 256])
            yield dot(patterns[-1:], [ONE])
            yield dot([ONE], patterns[-1:])


def told(fields, test=is_finite):
    """What must be printed, by the model with this finite test."""
    kept = model_numbers.is_finite
    model_numbers.is_finite = test
    try:
        return expected(fields)
    finally:
        model_numbers.is_finite = kept


def exponents(cases):
    given = list(dots())
    fields = b"".join(given)
    right = told(fields)
    for name, test in SLIPS.items():
        if told(fields, test) == right:
            raise Wrong("no dot shows that %s" % name)
    r = subprocess.run([cases], input=fields, stdout=subprocess.PIPE, stderr=subprocess.PIPE, timeout=LIMIT_SECONDS)
    if r.returncode != 0 or r.stderr:
        raise Wrong("%s: status %d, and standard error says %r" % (cases, r.returncode, r.stderr[:200]))
    if r.stdout != right:
        lines = enumerate(itertools.zip_longest(r.stdout.split(b"\n"), right.split(b"\n")), 1)
        raise Wrong("%s: line %d is %r, not %r" % next((cases, n, a, b) for n, (a, b) in lines if a != b))
    print("finite: %d dots with every exponent, 0 wrong; each of %d slips shows" % (len(given), len(SLIPS)))


# ---- the machine code

# The infinity of the former body was made from its bits. Here it is a quotient, which needs no proof and is the same
# constant when compiled.
SHOWN = '''
#[unsafe(no_mangle)]
pub extern "C" fn is_finite(x: f64) -> bool {
    numbers::is_finite(x)
}

#[unsafe(no_mangle)]
pub extern "C" fn finite_bits(w: u64) -> bool {
    numbers::finite_bits(w)
}

#[unsafe(no_mangle)]
pub extern "C" fn former(x: f64) -> bool {
    let infinity = 1.0 / 0.0;
    -infinity < x && x < infinity
}
'''
REGISTERS = "rax rcx rdx rbx rsp rbp rsi rdi r8 r9 r10 r11 r12 r13 r14 r15".split()
CONDITIONS = "o no b ae e ne be a s ns p np l ge le g".split()


def two(name):
    """An instruction of two registers, the first one changed or compared with the other."""
    return lambda b: "%s %s, %s" % (name, REGISTERS[(b[0] & 1) << 3 | b[-1] & 7],
                                    REGISTERS[(b[0] & 4) << 1 | b[-1] >> 3 & 7])


# What x86-64 has for whole numbers, as far as these functions use it, and the move of a float's 64 bits to a register
# for whole numbers. Nothing else is known here, and so no operation on floats.
INSTRUCTIONS = [
    (rb"\x66[\x48\x49]\x0f\x7e[\xc0-\xff]",
     lambda b: "movq %s, xmm%d" % (REGISTERS[(b[1] & 1) << 3 | b[-1] & 7], b[-1] >> 3 & 7)),
    (rb"[\x48\x49][\xb8-\xbf].{8}",
     lambda b: "mov %s, %016X" % (REGISTERS[(b[0] & 1) << 3 | b[1] & 7], struct.unpack("<Q", b[2:])[0])),
    (rb"[\x48-\x4f]\x21[\xc0-\xff]", two("and")),
    (rb"[\x48-\x4f]\x39[\xc0-\xff]", two("cmp")),
    (rb"[\x48-\x4f]\x85[\xc0-\xff]", two("test")),
    (rb"[\x48\x49]\xf7[\xd0-\xd7]", lambda b: "not %s" % REGISTERS[(b[0] & 1) << 3 | b[-1] & 7]),
    (rb"\x0f[\x90-\x9f][\xc0\xc1]", lambda b: "set%s %s" % (CONDITIONS[b[1] & 15], ("al", "cl")[b[2] & 1])),
    (rb"\x20\xc8", lambda b: "and al, cl"),
    (rb"\xc3", lambda b: "ret"),
]
# x == x
COMPARED = [(rb"\x66\x0f\x2e\xc0", lambda b: "ucomisd xmm0, xmm0")]
# ucomisd, comisd, andpd and subsd of xmm0 with itself, cmpunordsd, and the x87's fucomip
ON_FLOATS = ["660f2ec0", "660f2fc0", "660f54c0", "f20f5cc0", "f20fc2c003", "dfe9"]


def instructions(name, code, known=INSTRUCTIONS):
    """What the bytes do, a line each. Breaks off where one is not known."""
    lines, at = [], 0
    while at < len(code):
        for pattern, text in known:
            found = re.compile(pattern, re.DOTALL).match(code, at)
            if found:
                lines.append(text(found.group()))
                at = found.end()
                break
        else:
            raise Wrong("%s: from byte %d on its machine code is %s. That may be a float operation"
                        % (name, at, code[at:at + 12].hex()))
    return lines


def knows_none_on_floats():
    for code in map(bytes.fromhex, ON_FLOATS):
        try:
            lines = instructions("a float operation", code)
        except Wrong:
            continue
        raise Wrong("the float operation %s is taken for %s" % (code.hex(), lines))


def sections(archive):
    """The sections of the object file in an archive, by name."""
    elf = archive[archive.index(b"\x7fELF"):]
    table, = struct.unpack_from("<Q", elf, 0x28)
    size, count, names = struct.unpack_from("<HHH", elf, 0x3A)
    heads = [struct.unpack_from("<II4Q", elf, table + i * size) for i in range(count)]
    text = heads[names][4]
    return {elf[text + h[0]:elf.index(b"\0", text + h[0])].decode(): elf[h[4]:h[4] + h[5]] for h in heads}


def compiled():
    """The machine code of each function of SHOWN. The crate `numbers` is proved and compiled with it, in a project of
    their own."""
    with tempfile.TemporaryDirectory() as folder:
        crates = os.path.join(folder, "crates")
        shutil.copytree(os.path.join(ROOT, "crates", "numbers"), os.path.join(crates, "numbers"),
                        ignore=shutil.ignore_patterns("must-fail", "out"))
        os.makedirs(os.path.join(crates, "shown", "src"))
        with open(os.path.join(crates, "shown", "src", "lib.rt"), "w", encoding="utf-8") as f:
            f.write(SHOWN)
        with open(os.path.join(folder, "crates.txt"), "w", encoding="utf-8") as f:
            f.write("numbers:\nshown staticlib: numbers\n")
        shown = os.path.join(crates, "shown")
        r = subprocess.run(["rt", "lib"], cwd=shown, stdout=subprocess.PIPE, stderr=subprocess.STDOUT,
                           timeout=LIMIT_SECONDS)
        if r.returncode != 0:
            raise Wrong("rt lib ended with status %d: %s" % (r.returncode, r.stdout.decode()[-500:]))
        with open(os.path.join(shown, "out", "libshown.a"), "rb") as f:
            found = sections(f.read())
    return {name: found[".text." + name] for name in re.findall(r"fn (\w+)", SHOWN)}


def machine_code():
    knows_none_on_floats()
    code = compiled()
    on_bits = instructions("finite_bits", code["finite_bits"])
    on_float = instructions("is_finite", code["is_finite"], INSTRUCTIONS + COMPARED)
    compares = on_float.count(COMPARED[0][1](b""))
    if compares > 1:
        raise Wrong("is_finite compares %d times" % compares)
    print("finite: compiled, finite_bits has %d instructions, none on floats; is_finite %d, of which it compares x with"
          " itself in %d, and none other on floats" % (len(on_bits), len(on_float), compares))


def main(given):
    rest, _, named = options(given, {}, ["--code"]) or ([None] * 2, None, ())
    if len(rest) + len(named) > 1:
        sys.exit("usage: finite.py [CASES] | --code")
    if named:
        for name, code in compiled().items():
            try:
                lines = instructions(name, code, INSTRUCTIONS + COMPARED)
            except Wrong:
                lines = ["with operations on floats: " + code.hex()]
            print("\n    ".join([name] + lines))
        return
    exponents(*programs(rest, "cases"))
    if shutil.which("rt"):
        machine_code()
    else:
        print("finite: the command rt is not on the PATH; no machine code was looked at")


if __name__ == "__main__":
    command("finite", main)
