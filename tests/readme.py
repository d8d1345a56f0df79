#!/usr/bin/env python3
"""Runs what README.md shows, and compares what is printed with what it says.

usage: readme.py

The commands and the Python program are taken from the page as they stand. What must be printed stands behind them: as a
block of lines, or as the first words of a list. Also for docs/FORMATS.md's sample.
"""
import os
import re
import subprocess
import sys

ROOT = os.path.dirname(os.path.dirname(os.path.abspath(__file__)))
LIMIT_SECONDS = 60


def parts(path):
    """The page's indented and fenced blocks and its lists of quoted lines, in order, each a kind and its lines."""
    with open(os.path.join(ROOT, path), encoding="utf-8") as f:
        lines = f.read().split("\n")
    found, i = [], 0
    while i < len(lines):
        kind, block = None, []
        if lines[i].startswith("    "):
            kind = "block"
            while lines[i].startswith("    ") or (not lines[i] and lines[i + 1].startswith("    ")):
                block.append(lines[i][4:])
                i += 1
        elif lines[i] == "```":
            kind, i = "block", i + 1
            while lines[i] != "```":
                block.append(lines[i])
                i += 1
            i += 1
        elif lines[i].startswith("- `"):
            kind = "list"
            while lines[i].startswith(("- `", "  ")):
                block += re.findall("^- `([^`]*)`:", lines[i])
                i += 1
        if kind:
            found.append((kind, block))
        else:
            i += 1
    return found


def told(command):
    r = subprocess.run(command, cwd=ROOT, stdout=subprocess.PIPE, stderr=subprocess.PIPE, timeout=LIMIT_SECONDS)
    return r.returncode, r.stdout.decode(), r.stderr.decode()


def run(path, begins, kind="block", first=None):
    """Runs the block that begins so, or its first line; what must be printed is the next part of this kind."""
    found = parts(path)
    at = [i for i, (k, block) in enumerate(found) if k == "block" and block[0].startswith(begins)]
    if not at:
        sys.exit("readme: %s has no block that begins with %s" % (path, begins))
    block = found[at[0]][1]
    text = "\n".join(block[:first])
    wanted = next(b for k, b in found[at[0] + 1:] if k == kind)
    shell = ["python3", "-c", text] if begins.startswith("import") else ["sh", "-c", text]
    status, out, err = told(shell)
    if (status, out.split("\n"), err) != (0, wanted + [""], ""):
        print("readme: %s, the block that begins with %s: it says %r" % (path, begins, wanted))
        sys.exit("readme: status %d, and printed %r, and on standard error %r" % (status, out.split("\n"), err))


def main():
    if len(sys.argv) != 1:
        sys.exit("usage: readme.py")
    run("README.md", "./altugmesh search tests/jobs/2_answer.job")
    run("README.md", "./altugmesh      ", first=1)
    run("README.md", "import struct")
    run("README.md", "{ printf", kind="list")
    run("docs/FORMATS.md", "{ printf")
    print("readme: 5 blocks run, and they print what the pages say")


if __name__ == "__main__":
    main()
