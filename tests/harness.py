"""What the tests share that run programs: how they are called, and how they end."""
# first, since it says where Python is too old for the rest
from programs import ROOT, ready, started

import os
import sys

# fcntl has this name from Python 3.10 on
F_SETPIPE_SZ = 1031


class Wrong(Exception):
    """A program did something else than it must. The text says what."""


def command(name, main):
    """Runs the test of this name on its arguments. Where a program does something wrong, that is said and the status is
    1."""
    def begin():
        if sys.argv[1:] in (["--help"], ["-h"]):
            print(sys.modules["__main__"].__doc__.strip())
            return
        try:
            main(sys.argv[1:])
        except Wrong as wrong:
            sys.exit("%s: %s" % (name, wrong))

    started(name, begin)


def programs(given, *names):
    """The programs that are given, or where none are this project's of these names; built where that is due."""
    return [ready(path) for path in given or [os.path.relpath(os.path.join(ROOT, "bin", name)) for name in names]]


def options(given, numbers, words=()):
    """The arguments that are no options; the values of the options in `numbers`, a dict of their defaults; which of the
    options in `words` were given. None where they are wrong. A number is at least 1."""
    rest, values, named, i = [], dict(numbers), set(), 0
    while i < len(given):
        if given[i] in words:
            named.add(given[i])
        elif given[i] in numbers:
            i += 1
            if i == len(given) or not given[i].isdecimal() or not 0 < int(given[i]) < 1 << 63:
                return None
            values[given[i - 1]] = int(given[i])
        elif given[i].startswith("-"):
            return None
        else:
            rest.append(given[i])
        i += 1
    return rest, values, named
