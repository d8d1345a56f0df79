#!/usr/bin/env python3
"""Tests the front ./altugmesh and bin/build.

usage: front.py

The front and bin/ are copied into a project of four small programs in a temporary folder, with a stand-in of
bin/prove that keeps its files and prints its lines, beside one of rt that says its version. There proofs fail, builds
are broken off and rt is absent. A few jobs run through the project's own front, with the real rt and programs. Ends
with status 1 at the first check that fails.
"""
# first, since it says where Python is too old for the rest
from programs import ROOT, ready, started

import os
import shutil
import signal
import subprocess
import sys
import tempfile
import time

LIMIT_SECONDS = 30
NOBODY = 65534

# search stands on mid and base, the other programs on base alone; io is the toolchain's
CRATES = """# floors
base:

mid: base      # a library
search: mid io
cases: base io
keep_bounds: base io
defaults: base
"""

RT = """#!/bin/sh
case $1 in version) cat "$(dirname "$0")/../version" ;; esac
"""

# Each crate takes a moment. WAIT has it wait for the file go, FAIL/NAME has what a crate that fails says, and PROGRAM
# is what is built. A prover runs in the background, and so ignores an interrupt from the keyboard, as rt's do.
PROVE = """#!/bin/sh
fake='FAKE'
echo "prove $*" >>"$fake/calls"
mkdir "$fake/only" || echo "two at once" >>"$fake/calls"
sleep 0.03
mkdir -p target/log target/stamp target/bin
bad="" count=0
for crate in "$@"; do
    [ -d "crates/$crate" ] ||
        { echo "rt: crates.txt: there is no folder crates/$crate" >&2; rmdir "$fake/only"; exit 2; }
    : >"target/log/$crate.out"
    if [ -n "$bad" ]; then
        echo "rt: $crate NOT PROVED: its dependency $bad is not proved"
    elif [ -e "target/stamp/$crate" ]; then
        echo "rt: $crate proved (unchanged since it was last proved)"
        count=$((count + 1))
    else
        : >"target/log/$crate.say"
        mkdir "$TMPDIR/prover-$crate" || exit 2
        sh -c 'echo $$ >"$1/prover"; while [ -e "$1/wait" ] && [ ! -e "$1/go" ]; do sleep 0.05; done' sh "$fake" &
        wait
        rmdir "$TMPDIR/prover-$crate"
        if [ -e "$fake/fail/$crate" ]; then
            sed "s|ROOT|$PWD|" "$fake/fail/$crate" | tee "target/log/$crate.out"
            echo "rt: $crate NOT PROVED (exit 1, 2 s)"
            bad=$crate
        else
            echo "rt: $crate proved (2 s)"
            case $crate in
                search | cases | keep_bounds | defaults)
                    if [ -e "$fake/run" ]; then
                        cat "$fake/run"
                        bad=$crate
                        continue
                    fi
                    cp "$fake/program" "target/bin/$crate"
                    ;;
            esac
            : >"target/stamp/$crate"
            count=$((count + 1))
        fi
    fi
done
rmdir "$fake/only"
if [ -n "$bad" ]; then echo "rt: FAILED: $bad"; exit 1; fi
echo "rt: ok, $count crates proved"
"""

# What a built program does is told by the first word of its input.
PROGRAM = """#!/bin/sh
echo run
read -r word rest
case $word in
    full) echo "LOST standard output after 4 bytes: No space left on device" >&2 ;;
    tab) printf 'LOST\\tit\\n' >&2 ;;
    unended) printf 'LOST all' >&2 ;;
    other) printf 'NOTED it\\nLOSTLY\\n LOST not at the front\\nnot LOST either\\n' >&2 ;;
    refused) echo "REFUSED 9" ;;
    status) exit "$rest" ;;
    signal) kill -s "$rest" $$ ;;
    pipe) while :; do echo y || exit 0; done ;;
    talk)
        echo "ready" >&2
        while read -r line; do echo "<$line>"; done
        ;;
    stay) echo $$; exec sleep 60 ;;
    *) echo "$word" ;;
esac
"""

checks = 0


def fail(name, why):
    print("front: %s: %s" % (name, why[:2000]))
    sys.exit(1)


def check(name, true, why="it does not hold"):
    global checks
    checks += 1
    if not true:
        fail(name, why)


def write(path, text, mode=0o644):
    os.makedirs(os.path.dirname(path), exist_ok=True)
    with open(path, "w") as f:
        f.write(text)
    os.chmod(path, mode)


def gone(process):
    """Whether a process has ended, within a few seconds."""
    for _ in range(100):
        try:
            with open("/proc/%d/stat" % process) as f:
                if f.read().rsplit(")", 1)[1].split()[0] == "Z":
                    return True
        except OSError:
            return True
        time.sleep(0.05)
    return False


def until(name, true):
    for _ in range(200):
        if true():
            return
        time.sleep(0.05)
    fail(name, "it did not come to that within ten seconds")


class Project:
    """A project of its own, in a folder with a blank in its name, with the stand-in of rt beside it."""

    def __init__(self, folder):
        self.folder = folder
        self.root = os.path.join(folder, "the project")
        self.fake = os.path.join(folder, "fake")
        self.tmp = os.path.join(folder, "tmp")
        self.other = os.path.join(folder, "other place")
        for name in (self.root, self.tmp, self.other):
            os.makedirs(name)
        shutil.copy(os.path.join(ROOT, "altugmesh"), self.root)
        shutil.copytree(os.path.join(ROOT, "bin"), self.at("bin"))
        write(self.at("bin", "prove"), PROVE.replace("FAKE", self.fake), 0o755)
        write(self.at("crates.txt"), CRATES)
        write(self.at("toolchain"), "kit-1 logic 1\n")
        write(self.at("CHANGELOG.md"), "# Changelog\n\nText.\n\n## 1.2: a name\n\n## 1.1\n")
        for name in ("base", "mid"):
            write(self.at("crates", name, "src", "lib.rt"), "")
            write(self.at("crates", name, "proofs", "Proof.antt"), "")
        for name in ("search", "cases", "keep_bounds", "defaults"):
            write(self.at("crates", name, "src", "main.rt"), "")
        write(self.at("crates", "search", "stdin"), "sample\n")
        write(os.path.join(self.fake, "bin", "rt"), RT, 0o755)
        write(os.path.join(self.fake, "version"), "kit-1 logic 1\n")
        write(os.path.join(self.fake, "program"), PROGRAM, 0o755)
        self.tools = os.path.join(folder, "tools")
        os.makedirs(self.tools)
        for tool in ("awk basename cat chmod cp dirname find grep head ls mkdir mktemp od readlink rm rmdir sed sh"
                     " sleep tail tee tr uname").split():
            os.symlink(shutil.which(tool), os.path.join(self.tools, tool))

    def at(self, *parts):
        return os.path.join(self.root, *parts)

    def environment(self, rt=True):
        path = self.tools if not rt else os.path.join(self.fake, "bin") + os.pathsep + self.tools
        kept = {k: v for k, v in os.environ.items() if not k.startswith(("RATTLE", "RT_", "ALTUGMESH"))}
        return dict(kept, PATH=path, TMPDIR=self.tmp, CDPATH=self.folder)

    def start(self, *command, rt=True, cwd=None, nobody=False):
        def before():
            # what starts this test in the background has it ignore an interrupt, which a shell could not change
            for number in (signal.SIGINT, signal.SIGQUIT, signal.SIGHUP):
                signal.signal(number, signal.SIG_DFL)
            if nobody and os.getuid() == 0:
                os.setgroups([])
                os.setgid(NOBODY)
                os.setuid(NOBODY)

        pipe = subprocess.PIPE
        return subprocess.Popen(command, cwd=cwd or self.other, env=self.environment(rt), preexec_fn=before,
                                stdin=pipe, stdout=pipe, stderr=pipe, universal_newlines=True)

    def rest(self, started, data=None):
        """The status of what was started, and the rest of its standard output and standard error."""
        try:
            out, err = started.communicate(data, timeout=LIMIT_SECONDS)
        except subprocess.TimeoutExpired:
            started.kill()
            fail(repr(started.args), "no end within %d seconds" % LIMIT_SECONDS)
        return started.returncode, out, err

    def run(self, *command, data="", **more):
        return self.rest(self.start(*command, **more), data)

    def expect(self, name, command, wanted, **more):
        """Runs a command; wanted are its status, standard output and standard error."""
        got = self.run(*command, **more)
        check(name, got == wanted, "%r gave\n%r, not\n%r" % (command, got, wanted))

    def front(self, *words):
        return (self.at("altugmesh"),) + words

    def build(self, *words):
        return (self.at("bin", "build"),) + words

    def unbuilt(self):
        shutil.rmtree(self.at("target"), ignore_errors=True)
        for name in ("calls", "wait", "go", "prover", "run"):
            if os.path.exists(os.path.join(self.fake, name)):
                os.remove(os.path.join(self.fake, name))
        shutil.rmtree(os.path.join(self.fake, "fail"), ignore_errors=True)

    def calls(self):
        with open(os.path.join(self.fake, "calls")) as f:
            return f.read().splitlines()

    def tidy(self, name):
        """No temporary file, no lock and nothing beside target/ is left."""
        left = set(os.listdir(self.root)) - {"target"}
        wanted = {"CHANGELOG.md", "altugmesh", "bin", "crates", "crates.txt", "toolchain"}
        check(name + ": nothing else is in the project", left == wanted, repr(left))
        check(name + ": the lock is gone", not os.path.exists(self.at("target", "building")))
        check(name + ": no temporary file", os.listdir(self.tmp) == [], repr(os.listdir(self.tmp)))


def said(*lines):
    return "".join("altugmesh: %s\n" % line for line in lines)


# ---- building

def first_build(p):
    p.unbuilt()
    told = said("proving base, 2 crates left", "proving mid, 1 crate left", "proving search, 0 crates left")
    p.expect("first build", p.build("search"), (0, "", told))
    p.expect("nothing to do", p.build("search"), (0, "", ""))
    os.remove(p.at("target", "stamp", "mid"))
    os.remove(p.at("target", "stamp", "search"))
    told = said("proving mid, 1 crate left", "proving search, 0 crates left")
    p.expect("one crate changed", p.build("search"), (0, "", told))
    check("bin/prove was called thrice", p.calls() == ["prove base mid search"] * 3, repr(p.calls()))
    p.expect("prove", p.front("prove"), (0, said("6 crates are proved"), said(
        "proving cases, 2 crates left", "proving keep_bounds, 1 crate left", "proving defaults, 0 crates left")))
    p.expect("prove again", p.front("prove"), (0, said("6 crates are proved"), ""))
    p.tidy("first build")


def as_it_goes(p):
    """The line on a crate comes while it is proved."""
    p.unbuilt()
    write(os.path.join(p.fake, "wait"), "")
    b = p.start(*p.build("cases"))
    line = b.stderr.readline()
    check("progress while it goes", (line, b.poll()) == (said("proving base, 1 crate left"), None), repr(line))
    write(os.path.join(p.fake, "go"), "")
    got = p.rest(b)
    check("the rest of it", got == (0, "", said("proving cases, 0 crates left")), repr(got))


def unheard(p):
    """Where nobody reads standard error, all goes on."""
    for closed in ("2>&-", "2>/dev/full"):
        p.unbuilt()
        command = ("sh", "-c", 'exec "$@" ' + closed, "sh")
        p.expect("build, " + closed, command + p.build("search"), (0, "", ""))
        p.expect("refused, " + closed, command + p.front("nosuch"), (1, "", ""))
    for name, command, data, status in (("build", p.build("cases"), "", 0), ("refused", p.front("nosuch"), "", 1),
                                        ("lost", p.front("search", "-"), "full\n", 1),
                                        ("status 3", p.front("search", "-"), "status 3\n", 1)):
        b = p.start(*command)
        b.stderr.close()
        if data:
            b.stdin.write(data)
        b.stdin.close()
        b.stdout.read()
        check("nobody reads standard error: " + name, b.wait(LIMIT_SECONDS) == status, str(b.returncode))
    check("it was built", os.path.exists(p.at("target", "bin", "cases")))
    p.tidy("unheard")


def failed_proof(p):
    def explained(name, command, *lines):
        """Compares what is said behind the lines on progress."""
        status, out, err = p.run(*command)
        rest = [line for line in err.splitlines() if not line.startswith("altugmesh: proving ")]
        check(name, (status, out, rest) == (1, "", list(lines)), repr((status, out, err)))

    def fails(text):
        write(os.path.join(p.fake, "fail", "mid"), text)

    p.unbuilt()
    log = p.at("target", "log", "mid.out")
    told = said("mid is not proved: its first error is above, and %s has all of them" % log).strip()
    error = p.root + "/crates/mid/proofs/byte/Proof.antt:11:15: error: `returns-2`: the two types differ"
    later = "ROOT/crates/mid/src/lib.rt:3:1: error: later\nfn mid::byte: not proved\nlogic=not-proved\n"
    fails("fn mid::a: proved\n" + error + "\n" + later)
    explained("failed proof", p.build("search"), error, told)
    explained("failed proof, by the front", p.front(), error, told)
    explained("failed proof of all", p.front("prove"), error, told)
    # a compiler's error has a word behind it, a proof that is not found has a note
    fails("built nothing\nROOT/a b.rt:1:2: error[mismatched-types]: u64\n")
    explained("the compiler's error", p.build("search"), p.root + "/a b.rt:1:2: error[mismatched-types]: u64", told)
    fails("fn mid::a: proved\nnote: ROOT/l.rt:64:1: it is not proved that x\n")
    explained("the prover's note", p.build("search"), p.root + "/l.rt:64:1: it is not proved that x", told)
    # a long term is cut at 500 bytes, before the character that stands there
    for before in ("x", "xx"):
        start = "l.rt:1:1: error: " + before
        fails(start + "\u03bb" * 900 + "\n")
        whole = start + "\u03bb" * ((500 - len(start) - 1) // 2)
        explained("a long error is cut", p.build("search"), whole + " ..", told)
    # a program that is proved, and runs otherwise than it should
    p.unbuilt()
    write(os.path.join(p.fake, "run"), "rt: cases: what the program wrote is not what its file 'stdout' has\n"
                                       "rt: cases proved, and its run FAILED (0 s)\n")
    explained("a failed run", p.build("cases"),
              said("rt check failed: cases: what the program wrote is not what its file 'stdout' has").strip())
    p.unbuilt()
    os.rename(p.at("crates", "defaults"), p.at("crates", "gone"))
    explained("a crate that is not there", p.build("defaults"),
              said("rt check failed: crates.txt: there is no folder crates/defaults").strip())
    os.rename(p.at("crates", "gone"), p.at("crates", "defaults"))
    p.tidy("failed proof")


def wrong_words(p):
    usage = said("usage: bin/build NAME.. | --program FILE | --all")
    for words in ((), ("-x",), ("--all", "search"), ("--program",), ("--program", "a", "b")):
        p.expect("build %r" % (words,), p.build(*words), (1, "", usage))
    for name in ("io", "nosuch", "no such", "../search", ".*", ""):
        wanted = usage if not name else said("crates.txt lists no crate " + name)
        p.expect("build %r" % name, p.build(name), (1, "", wanted))
    for name in ("search", "cases", "keep-bounds"):
        wanted = (1, "", said("%s wants one file: ./altugmesh %s FILE" % (name, name)))
        p.expect(name + " alone", p.front(name), wanted)
        p.expect(name + " of two", p.front(name, "a", "b"), wanted)
    for name in ("defaults", "prove", "version", "help"):
        p.expect(name + " of one", p.front(name, "x"), (1, "", said(name + " takes no argument")))
    for name in ("nosuch", "", "-x", "program", "keep_bounds"):
        wanted = said("there is no command '%s'; ./altugmesh help says what there is" % name)
        p.expect("command %r" % name, p.front(name), (1, "", wanted))
    for name in ("help", "-h", "--help"):
        got = p.run(*p.front(name))
        check(name, got[0] == 0 and got[1].startswith("usage: ./altugmesh") and got[2] == "", repr(got))


def without_rt(p):
    p.unbuilt()
    why = ", and the Rattle toolchain's command rt is not on the PATH"
    p.expect("no rt, not built", p.front(), (1, "", said("search is not built" + why)), rt=False)
    p.expect("no rt, prove", p.front("prove"), (1, "", said("nothing was proved: " + why[6:])), rt=False)
    p.run(*p.build("search"))
    p.expect("no rt, built", p.front(), (0, "run\nsample\n", ""), rt=False)
    p.expect("no rt, another one", p.build("search", "cases"), (1, "", said("cases is not built" + why)), rt=False)
    future = time.time() + 10
    for changed in ("crates/base/src/lib.rt", "crates/mid/proofs/Proof.antt", "crates/mid/proofs", "crates.txt"):
        before = os.stat(p.at(changed))
        os.utime(p.at(changed), (future, future))
        wanted = said(changed + " is newer than the program search" + why)
        p.expect("no rt, changed " + changed, p.front(), (1, "", wanted), rt=False)
        os.utime(p.at(changed), (before.st_atime, before.st_mtime))
    # what it does not stand on is no source of it
    os.utime(p.at("crates", "cases", "src", "main.rt"), (future, future))
    p.expect("no rt, another program's source", p.front(), (0, "run\nsample\n", ""), rt=False)
    os.remove(p.at("target", "stamp", "search"))
    wanted = said("the last build of search did not come to its end" + why)
    p.expect("no rt, no stamp", p.front(), (1, "", wanted), rt=False)


def unwritable(p):
    """As nobody where root runs this, since root writes anywhere."""
    folders = [p.root, p.at("target"), p.at("target", "log"), p.at("target", "stamp")]
    why = "the project's folder %s cannot be written" % p.root
    p.unbuilt()
    os.chmod(p.root, 0o555)
    p.expect("unwritable, not built", p.front(), (1, "", said("search is not built, and " + why)), nobody=True)
    p.expect("unwritable, prove", p.front("prove"), (1, "", said("nothing was proved: " + why)), nobody=True)
    os.chmod(p.root, 0o755)
    p.run(*p.build("search"))
    for folder in folders:
        os.chmod(folder, 0o555)
    p.expect("unwritable, built", p.front(), (0, "run\nsample\n", ""), nobody=True)
    future = time.time() + 10
    os.utime(p.at("crates", "mid", "src", "lib.rt"), (future, future))
    wanted = said("crates/mid/src/lib.rt is newer than the program search, and " + why)
    p.expect("unwritable, changed", p.front(), (1, "", wanted), nobody=True)
    for folder in folders:
        os.chmod(folder, 0o755)


def broken_off(p):
    for number in (signal.SIGINT, signal.SIGTERM, signal.SIGHUP):
        for command in (p.build("search"), p.front()):
            p.unbuilt()
            write(os.path.join(p.fake, "wait"), "")
            name = "%s by %s" % (os.path.basename(command[0]), number.name)
            b = p.start(*command)
            b.stderr.readline()
            until(name, lambda: os.path.exists(os.path.join(p.fake, "prover")))
            time.sleep(0.05)
            with open(os.path.join(p.fake, "prover")) as f:
                prover = int(f.read())
            b.send_signal(number)
            got = p.rest(b)
            check(name, got == (128 + number, "", said("the build was broken off")), repr(got))
            check(name + ": no prover is left", gone(prover))
            shutil.rmtree(os.path.join(p.fake, "only"), ignore_errors=True)
            p.tidy(name)


def one_at_a_time(p):
    p.unbuilt()
    at_once = [p.start(*p.build("search")) for _ in range(4)]
    results = [p.rest(b) for b in at_once]
    check("four builds at once", [r[0] for r in results] == [0] * 4, repr(results))
    check("one at a time", p.calls() == ["prove base mid search"] * 4, repr(p.calls()))
    # one that was left behind is taken away: its process is gone or something else, or it never had one
    for left in ("999999999", str(os.getpid()), None):
        p.unbuilt()
        os.makedirs(p.at("target", "building"))
        if left:
            write(p.at("target", "building", left), "")
        got = p.run(*p.build("cases"))
        check("a lock that was left behind", got[0] == 0, repr(got))
        p.tidy("a lock that was left behind")
    write(p.at("target", "building"), "")
    p.expect("no lock", p.build("cases"), (1, "", said(p.at("target", "building") + " cannot be made")))
    os.remove(p.at("target", "building"))
    # one that is held is waited for
    write(os.path.join(p.other, "bin", "build"), "#!/bin/sh\nread -r line\n", 0o755)
    holder = p.start(os.path.join(p.other, "bin", "build"))
    os.makedirs(p.at("target", "building"))
    write(p.at("target", "building", str(holder.pid)), "")
    b = p.start(*p.build("cases"))
    line = b.stderr.readline()
    check("a lock that is held", line == said("another build is under way, by process %d" % holder.pid), line)
    p.rest(holder)
    got = p.rest(b)
    check("a lock whose holder ended", got == (0, "", ""), repr(got))
    p.tidy("a lock whose holder ended")


def other_programs(p):
    """bin/build --program: the project's own are built, by any way of writing them; others are taken as they are."""
    link = os.path.join(p.other, "a link")
    os.symlink(p.at("bin", "cases"), link)
    os.symlink(p.at("bin"), os.path.join(p.other, "folder"))
    for path in (p.at("bin", "cases"), p.at("target", "bin", "cases"), "../the project/bin/../bin/cases", link,
                 "a link", "folder/cases"):
        p.unbuilt()
        os.makedirs(p.at("target", "bin"))
        got = p.run(*p.build("--program", path))
        check("--program " + path, (got[0], p.calls()) == (0, ["prove base cases"]), repr(got))
    p.unbuilt()
    write(os.path.join(p.other, "mine"), "#!/bin/sh\n", 0o755)
    write(os.path.join(p.other, "text"), "")
    p.expect("--program mine", p.build("--program", "mine"), (0, "", ""))
    check("bin/prove was not called", not os.path.exists(os.path.join(p.fake, "calls")))
    for path, why in (("text", "text cannot be run"), ("nosuch", "there is no program nosuch"),
                      (".", ". is a folder, not a program"), ("no/such", "there is no program no/such"),
                      ("../the project/bin/build", "../the project/bin/build is no program of this project"),
                      (p.at("bin", "nosuch"), p.at("bin", "nosuch") + " is no program of this project")):
        p.expect("--program " + path, p.build("--program", path), (1, "", said(why)))


# ---- running

def links(p):
    p.unbuilt()
    p.run(*p.build("search"))
    home = os.path.join(p.folder, "home", "bin")
    os.makedirs(home)
    os.symlink(p.at("altugmesh"), os.path.join(home, "absolute"))
    os.symlink("../../the project/altugmesh", os.path.join(home, "relative"))
    os.symlink("relative", os.path.join(home, "twice"))
    os.symlink(os.path.join(p.folder, "home"), os.path.join(p.folder, "a home"))
    write(os.path.join(p.other, "my job"), "hello\n")
    write(os.path.join(p.other, "-x"), "dash\n")
    for name in ("absolute", "relative", "twice"):
        for folder in (home, os.path.join(p.folder, "a home", "bin")):
            p.expect(name, (os.path.join(folder, name), "search", "my job"), (0, "run\nhello\n", ""))
    hello = (0, "run\nhello\n", "")
    p.expect("by the PATH", ("sh", "-c", 'PATH="$1:$PATH"; twice search "my job"', "sh", home), hello)
    p.expect("by sh", ("sh", os.path.join("..", "the project", "altugmesh"), "search", "my job"), hello)
    p.expect("in its folder", ("sh", "altugmesh"), (0, "run\nsample\n", ""), cwd=p.root)
    p.expect("an odd name", p.front("search", "-x"), (0, "run\ndash\n", ""))
    os.symlink(p.at("bin", "search"), os.path.join(home, "started"))
    p.expect("a link to a program", (os.path.join(home, "started"),), hello, data="hello\n")
    why = "cases: there is no %s: bin/build cases builds it\n" % p.at("target", "bin", "cases")
    p.expect("a program that is not built", (p.at("bin", "cases"),), (127, "", why))
    shutil.copy(p.at("altugmesh"), os.path.join(p.other, "copied"))
    why = "%s is not the project's folder: link to altugmesh there, and do not copy it" % p.other
    p.expect("a copy", (os.path.join(p.other, "copied"),), (1, "", said(why)))


def inputs(p):
    hello = (0, "run\nhello\n", "")
    p.expect("-", p.front("search", "-"), hello, data="hello\n")
    p.expect("/dev/stdin", p.front("search", "/dev/stdin"), hello, data="hello\n")
    p.expect("the rest of standard input", ("sh", "-c", 'read -r first; exec "$1" search -', "sh") + p.front(), hello,
             data="first\nhello\n")
    os.mkfifo(os.path.join(p.other, "fifo"))
    p.expect("a FIFO", ("sh", "-c", 'echo hello >fifo & exec "$1" search fifo', "sh") + p.front(), hello)
    p.expect("no file", p.front("search", "no file"), (1, "", said("there is no file no file")))
    p.expect("a folder", p.front("cases", "."), (1, "", said(". is a folder, not a file")))
    write(os.path.join(p.other, "secret"), "hello\n", 0)
    p.expect("unreadable", p.front("search", "secret"), (1, "", said("the file secret cannot be read")), nobody=True)
    why = said("standard input is closed")
    p.expect("input closed", ("sh", "-c", 'exec "$1" search - <&-', "sh") + p.front(), (1, "", why))
    p.expect("input closed, a file", ("sh", "-c", 'exec "$1" search "my job" <&-', "sh") + p.front(), hello)
    why = said("standard output is closed")
    p.expect("output closed", ("sh", "-c", 'exec "$1" >&-', "sh") + p.front(), (1, "", why))


def endings(p):
    full = "LOST standard output after 4 bytes: No space left on device\n"
    p.expect("lost", p.front("search", "-"), (1, "run\n", full), data="full\n")
    p.expect("lost, a tab", p.front("search", "-"), (1, "run\n", "LOST\tit\n"), data="tab\n")
    p.expect("lost, no end of line", p.front("search", "-"), (1, "run\n", "LOST all\n"), data="unended\n")
    p.expect("other lines", p.front("search", "-"), (
        0, "run\n", "NOTED it\nLOSTLY\n LOST not at the front\nnot LOST either\n"), data="other\n")
    p.expect("refused", p.front("search", "-"), (0, "run\nREFUSED 9\n", ""), data="refused\n")
    for closed in ("2>&-", "2>/dev/full"):
        command = ("sh", "-c", 'exec "$1" search - ' + closed, "sh") + p.front()
        p.expect("lost, " + closed, command, (1, "run\n", ""), data="full\n")
        p.expect("well, " + closed, command, (0, "run\nhello\n", ""), data="hello\n")
    p.expect("status 3", p.front("search", "-"), (
        1, "run\n", said("search ended with status 3, and may not have said all")), data="status 3\n")
    for name in ("PIPE", "KILL", "SEGV"):
        wanted = said("search was ended by the signal %s, and may not have said all" % name)
        got = p.run(*p.front("search", "-"), data="signal %s\n" % name)
        # a shell may say in words of its own that a program crashed
        check("signal " + name, got[:2] == (1, "run\n") and got[2].endswith(wanted), repr(got))
    b = p.start(*p.front("search", "-"))
    b.stdin.write("pipe\n")
    b.stdin.flush()
    b.stdout.readline()
    b.stdout.close()
    err = b.stderr.read()
    check("nobody reads", (b.wait(), err) == (1, said(
        "search was ended by the signal PIPE, and may not have said all")), repr(err))


def dialogue(p):
    p.run(*p.build("cases"))
    b = p.start(*p.front("cases", "-"))
    got = []
    for line in ("talk", "one", "two"):
        b.stdin.write(line + "\n")
        b.stdin.flush()
        got.append((b.stderr if line == "talk" else b.stdout).readline())
        if line == "talk":
            got.append(b.stdout.readline())
    rest = p.rest(b)
    wanted = ["ready\n", "run\n", "<one>\n", "<two>\n"]
    check("dialogue", (got, rest) == (wanted, (0, "", "")), repr((got, rest)))


def ended(p):
    """A signal to the front ends the program."""
    for number in (signal.SIGINT, signal.SIGTERM, signal.SIGHUP):
        b = p.start(*p.front("search", "-"))
        b.stdin.write("stay\n")
        b.stdin.flush()
        b.stdout.readline()
        program = int(b.stdout.readline())
        b.send_signal(number)
        status, _, err = p.rest(b)
        name = "ended by " + number.name
        wanted = said("search was ended by the signal TERM, and may not have said all")
        # a shell may say in a word of its own that it ended
        check(name, status == 128 + number and err.endswith(wanted), repr((status, err)))
        check(name + ": no program is left", gone(program))
        p.tidy(name)


def versions(p):
    first = "altugmesh 1.2: a name\n"
    for name in ("version", "--version"):
        p.expect(name, p.front(name), (0, first + "proved with kit-1 logic 1; rt is the same\n", ""))
    p.expect("version, no rt", p.front("version"), (
        0, first + "proved with kit-1 logic 1; there is no rt on the PATH\n", ""), rt=False)
    write(os.path.join(p.fake, "version"), "kit-2 logic 1\n")
    p.expect("version, another rt", p.front("version"), (
        0, first + "proved with kit-1 logic 1; rt is kit-2 logic 1\n", ""))
    p.expect("defaults", p.front("defaults"), (0, "run\n\n", said("proving defaults, 0 crates left")))


# ---- the real programs

def real(folder):
    jobs = os.path.join(ROOT, "tests", "jobs")
    front = os.path.join(ROOT, "altugmesh")
    link = os.path.join(folder, "linked")
    os.symlink(front, link)
    for name in ("search", "cases", "keep_bounds"):
        ready(os.path.join(ROOT, "bin", name))

    def expect(name, command, cwd, wanted, given=os.devnull):
        with open(given, "rb") as f, open(wanted, "rb") as w:
            got = subprocess.run(command, cwd=cwd, stdin=f, stdout=subprocess.PIPE, stderr=subprocess.PIPE)
            # other tests may build this project at the same time
            err = [line for line in got.stderr.splitlines() if b"another build is under way" not in line]
            check(name, (got.returncode, got.stdout, err) == (0, w.read(), []), repr(got))

    expect("the sample job", (front,), folder, os.path.join(ROOT, "crates", "search", "stdout"))
    job, out = os.path.join(jobs, "6.job"), os.path.join(jobs, "6.out")
    expect("a stored job, by a link", (link, "search", "6.job"), jobs, out)
    expect("a stored job on standard input", (front, "search", "-"), folder, out, job)
    odd = os.path.join(ROOT, "tests", "odd.expected")
    expect("odd cases", (front, "cases", os.path.join("..", "odd.cases")), jobs, odd)
    job, old = os.path.join(jobs, "4_level.job"), os.path.join(jobs, "old", "4_level.job")
    expect("a job with its bounds kept", (front, "keep-bounds", old), folder, job)
    expect("a job that has bounds", (front, "keep-bounds", "-"), folder, job, job)
    expect("no job", (front, "keep-bounds", odd), folder, odd)
    got = subprocess.run((front, "version"), stdout=subprocess.PIPE, universal_newlines=True)
    with open(os.path.join(ROOT, "toolchain")) as f:
        line = "proved with %s; " % f.read().strip()
    check("this project's version", got.returncode == 0 and line in got.stdout, repr(got))


def main():
    if len(sys.argv) != 1:
        sys.exit("usage: front.py")
    folder = tempfile.mkdtemp(prefix="front-")
    try:
        # another user has to come through it
        os.chmod(folder, 0o755)
        p = Project(os.path.realpath(folder))
        for part in (first_build, as_it_goes, unheard, failed_proof, wrong_words, without_rt, unwritable, broken_off,
                     one_at_a_time, other_programs, links, inputs, endings, dialogue, ended, versions):
            part(p)
        real(folder)
    finally:
        shutil.rmtree(folder, ignore_errors=True)
    print("front: %d checks of ./altugmesh and bin/build, all as they must be" % checks)


if __name__ == "__main__":
    started("front", main)
