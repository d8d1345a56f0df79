"""The programs that are tested. One of this project is built first where its sources have changed since, so that no
test runs yesterday's program.
"""
import os
import subprocess
import sys

if sys.version_info < (3, 6):
    sys.exit("tests: Python 3.6 or later is wanted, and this is %d.%d" % sys.version_info[:2])

ROOT = os.path.dirname(os.path.dirname(os.path.realpath(__file__)))


def ready(path):
    """The program at this path, as it can be started. Ends the test with status 1 where there is none, or where it is
    this project's bin/NAME or target/bin/NAME and cannot be built; bin/build says why."""
    if os.path.basename(path) == path:
        path = os.path.join(os.curdir, path)
    if subprocess.run([os.path.join(ROOT, "bin", "build"), "--program", path]).returncode != 0:
        sys.exit(1)
    return path


def started(name, main):
    """Runs a test. An interrupt from the keyboard and a program that cannot be started get one line in place of a
    traceback; where nobody reads what is printed, nothing is said."""
    try:
        main()
        sys.stdout.flush()
    except KeyboardInterrupt:
        print("%s: broken off" % name, file=sys.stderr)
        sys.exit(130)
    except BrokenPipeError:
        # what is still to be printed has to go somewhere
        os.dup2(os.open(os.devnull, os.O_WRONLY), sys.stdout.fileno())
        sys.exit(1)
    except OSError as error:
        sys.exit("%s: %s%s" % (name, error.filename + ": " if error.filename else "", error.strerror))
