"""Cases of tables and scans (02, request 6): what refuses a list, searches named once, often and after their end,
tables of every size and of mixed kinds, and lists at random."""
import lists_growing
import lists_hagerzhang
from case_file import ANSWER_SIZE, answer, backtracks, dot, hager_zhang, params, point, scan, table
from exact import HALF, MAX, NAN, NORM, NOT_FINITE, ONE, SIGN, SUB, TINY, TWO, ZERO, F, Random, above, below
from lists_backtracking import FINE
from lists_backtracking import start as backtracking
from lists_growing import DOWN, HIGH, MORE, UP, as_whole, grows
from lists_hagerzhang import SMALL
from model_cases import floats, parsed, search_of
from model_tables import MOST

# what names no search, whatever the table's size: it is not finite, not whole, below 0, or 32 and more. As a whole
# number of few bits some of them would be 0 or 1
NAMELESS = [
    *NOT_FINITE, HALF, below(ONE), above(ONE), F(1.5), below(F(31)), above(F(31)), TINY, SUB, NORM, F(1e-300),
    *(F(-x) for x in (1, 2, 31, 0.5, 256, 1e300)), SIGN | TINY, SIGN | SUB, SIGN | MAX,
    *(F(x) for x in (32, 33, 63, 64, 127, 128, 255, 256, 257, 65535, 65536)),
    *(F(2.0 ** n + more) for n in (31, 32) for more in (-1, 0, 1)), *(F(2.0 ** n) for n in (52, 53, 63, 64, 128)),
    F(1e300), MAX,
]
# of backtracking with f0 = 1 and s0 = -2: a cost that meets Armijo's condition and both of Wolfe's, and one that meets
# none; and what ends any search by 2
MET, NOT, DEAD = (F(-9), ZERO), (F(9), ZERO), (NAN, ONE)
# how many answers the longest list has
LONG = 340


def to(i, y):
    """An answer to the search i."""
    return (F(i), *y)


def tabled(starts, *lists):
    return table(*starts) + b"".join(scan(*answers) for answers in lists)


def three(n=9, **changed):
    """A start of three answers by a field 32. Behind DOWN, UP and DOWN it goes on, behind DOWN, UP and (0, 0) it
    stops."""
    return hager_zhang(params(**{"epsilon": F(0.25), "low": ZERO, "high": F(4), **changed}), ONE, F(-2), 9, n)


ARMIJO, WOLFE = backtracking(FINE[0], 10000), backtracking(FINE[2], 10000)
MINIMUM = (ZERO, ZERO)


# ---- what refuses a list

def nameless():
    """Each number that names no search, behind an answer that would show were it given; at the end a list that is
    taken. 31 is no number in a table of 31."""
    for size, some in ((0, NAMELESS[::7]), (1, NAMELESS[1::5]), (31, NAMELESS[2::5]), (32, NAMELESS)):
        good, beyond = [to(0, NOT)] if size else [], sorted({F(i) for i in (size, size + 1, 31) if size <= i < MOST})
        lists = [good + [(name, *NOT)] for name in some + beyond]
        yield tabled([ARMIJO] * size, *lists, [], [to(i, NOT) for i in range(size)], [])
    # each by itself, and with what the table holds behind it
    names = NAMELESS + [F(i) for i in range(2, MOST)]
    yield tabled([ARMIJO, three()], *(part for name in names for part in ([(name, *MET)], [])))


def places():
    """At each place of a list, at two and at all: the answers before it and behind it are not given."""
    good = [to(0, NOT), to(1, DOWN), to(0, NOT), to(2, DOWN), to(1, UP)]
    starts = [ARMIJO, three(), grows()]
    for name in (NAN, F(3), HALF, F(-1)):
        bad = lambda *at: [(name, *y[1:]) if i in at else y for i, y in enumerate(good)]
        lists = [bad(i) for i in range(5)] + [bad(0, 4), bad(*range(5))]
        yield tabled(starts, *lists, [], good, bad(4), good[:1], bad(0), [])


def lengths():
    """No multiple of 3, with good names and with bad ones, which 1 goes before; and what one float more makes of it."""
    good = [to(0, NOT), to(1, DOWN)]
    for rest in ([ZERO], [ZERO, F(9)], [F(2)], [NAN, NAN], [HALF, ZERO]):
        for full in ([], good, [(NAN, *NOT)], good[:1] + [(F(9), *NOT)]):
            yield tabled([ARMIJO, three()], full + [rest], [], full + [rest + [NAN] * (3 - len(rest))], [], good)
    # in a table that is empty there is nothing that could be named
    yield tabled([], [], [[ZERO]], [[NAN]], [[ZERO, ZERO]], [to(0, NOT)], [to(0, NOT), [ZERO]], [])


def longest():
    """Lists of 340 answers, and of a float less: refused for the last number, for the length, and taken. The last
    answer is to a search that has not ended."""
    many = [to(7 * i % MOST, [NOT, DOWN, UP][i % 5 % 3]) for i in range(LONG)]
    starts = [backtracking(FINE[i % 4], 34 - i) for i in range(MOST)]
    yield tabled(starts, many[:-1] + [to(32, NOT)], many[:-1] + [many[-1][:2]], [], many)


# ---- what is taken

def minus_zero():
    """It names search 0, also beside 0 and in a table of one; in an empty one it names none."""
    yield tabled([ARMIJO], [(SIGN, *NOT)], [(SIGN, *MET)], [(SIGN, *MET)])
    yield tabled([ARMIJO, three()], [(SIGN, *NOT), to(0, NOT), to(1, DOWN), (SIGN, *NOT)], [(SIGN, *DEAD), to(0, NOT)])
    yield tabled([], [(SIGN, *NOT)])
    yield tabled([three(), three()], [to(1, DOWN), (SIGN, *UP)], [(SIGN, *NOT), (SIGN | TINY, *NOT)], [])


def named_often():
    """A search twice and three times in a list, next to each other and apart; it ends at the first, the second and the
    last of them, in each way."""
    kinds = [(ARMIJO, NOT, MET), (WOLFE, NOT, MET), (backtracking(FINE[0], 1), NOT, NOT),
             (three(), DOWN, MINIMUM), (grows(), DOWN, MINIMUM), (as_whole(three(), 7), UP, DEAD)]
    for start, on, end in kinds:
        for replies in ([on, on], [on, end], [end, on], [on, on, on], [on, on, end], [on, DEAD, end], [DEAD, end, on]):
            yield tabled([start, ARMIJO], [to(0, y) for y in replies], [to(1, NOT)], [to(0, on)])
        apart = [y for reply in (on, end, on) for y in (to(1, reply), to(0, NOT))]
        yield tabled([ARMIJO, start], apart, [to(1, on)])


def ended():
    """Searches that are over: what they told stays until an answer makes it 8, and 8 stays; what others are told does
    not matter."""
    scripts = {
        "STOP met": (WOLFE, [MET]),
        "STOP wolfe": (three(), [DOWN, UP, MINIMUM]),
        "STOP approximate": (grows(), [(lists_growing.LEVEL, F(-1)), UP]),
        "LIMIT": (backtracking(FINE[1], 1), [NOT, NOT]),
        "LIMIT with a bracket": (grows(n=1, gamma=F(0.9)), [DOWN, UP, MORE, MORE, MORE]),
        "2": (grows(), [DOWN, DEAD]),
        "5": (three(), [DOWN, DOWN, DOWN]),
        "6": (grows(b=2), [DOWN, HIGH, DOWN, HIGH]),
        "7": (grows(first=TINY), [HIGH]),
        "11": (grows(2), [DOWN, DOWN, DOWN]),
    }
    for start, replies in scripts.values():
        ending = [to(1, y) for y in replies]
        yield tabled([ARMIJO, start, three()],
                     ending[:-1], ending[-1:], [to(0, NOT), to(2, DOWN)], [], [to(3, NOT), to(1, NOT)], [to(2, UP)],
                     [to(1, MET)], [to(0, NOT)], [to(1, DEAD), to(0, NOT)], [], [to(0, DEAD), to(1, NOT), to(0, MET)])
    # every one of them in a table, ended in one list, and answered once more
    starts = [start for start, _ in scripts.values()]
    ending = [to(i, y) for i, (_, replies) in enumerate(scripts.values()) for y in replies]
    again = [to(i, NOT) for i in range(len(starts))]
    yield tabled(starts, ending, *([y] for y in again), again[::-1])


def refused_answers():
    """An answer that is not finite ends its own search and no other, wherever it stands in the list."""
    starts = [ARMIJO, three(), grows(), WOLFE]
    good = [to(0, NOT), to(1, DOWN), to(2, DOWN), to(3, NOT), to(0, NOT), to(1, UP), to(2, DOWN), to(3, NOT)]
    for i, (name, cost, slope) in enumerate(good):
        bad = NOT_FINITE[i % 3]
        for y in ((bad, slope), (cost, bad)):            # Armijo's condition does not read the slope
            yield tabled(starts, good[:i] + [(name, *y)] + good[i + 1:], good[:4])
    yield tabled(starts, [to(i, DEAD) for i in range(4)], good, [])


def script(case):
    """A case of one search as its start and its answers."""
    start = case[:len(case) - len(parsed(case)[0][0][1:]) * ANSWER_SIZE]
    return start, [floats(body) for _, body in parsed(case)[0][0][1:]]


def seats(starts):
    """How many of the starts are accepted."""
    return sum(search_of(start[0], start[3:]).first[0] == "ASK" for start in starts)


def rounds(scripts):
    """A table whose searches get an answer each with every scan, as an engine would give them."""
    replies = [answers for start, answers in scripts if seats([start])]
    lists = [[to(i, y[n]) for i, y in enumerate(replies) if n < len(y)] for n in range(max(map(len, replies)))]
    return tabled([start for start, _ in scripts], *lists)


def shuffled(r, scripts):
    """The same answers in one list, in any order that keeps that of each search."""
    replies = [list(answers) for start, answers in scripts if seats([start])]
    answers = []
    while any(replies):
        i = r.below(len(replies))
        if replies[i]:
            answers.append(to(i, replies[i].pop(0)))
    return tabled([start for start, _ in scripts], answers[:LONG])


def mixed(r):
    """Searches of every kind with each of their endings, refused starts among them, in one table."""
    short = lambda cases: [script(case) for case in cases if len(case) < 500]
    by_32, by_16 = short(lists_hagerzhang.endings()), short(lists_growing.endings())
    whole = short(as_whole(case, 5) for case in lists_hagerzhang.endings()[::3])
    replies = [[MET], [NOT, MET], [NOT] * 5, [NOT, DEAD, NOT]]
    by_33 = [(backtracking(c, 3), y) for c, y in zip(FINE, replies)] + [(backtracks(FINE[0], *[NAN] * 4, 3), [NOT])]
    everything = by_32 + by_33 + by_16 + whole
    yield rounds(everything[:MOST])
    yield shuffled(r, everything[-MOST:])
    yield shuffled(r, everything[:MOST][::-1])
    for kinds in (by_32[:2] + by_33[:2], by_33[2:4] + by_16[:3], whole[:2] + by_16[1:3], by_16[3:5] + by_32[1:3]):
        yield rounds(kinds)
        yield rounds(kinds[::-1])
        yield shuffled(r, kinds)


def refused_starts():
    """A refused start has no seat: those behind it move up. It is the first, the last, each other one, and all; by 2,
    3, 4 and 10."""
    refused = [backtracks(FINE[0], *[NAN] * 4, 3), backtracking(FINE[0], 0), grows(s0=ZERO), grows(0),
               hager_zhang(params(epsilon=TWO), MAX, F(-2), 9, 9), grows(f0=MAX, epsilon=TWO)]
    asks = [ARMIJO, three(), grows()]
    for i, start in enumerate(refused):
        for starts in ([start], asks[:i % 4] + [start] + asks[i % 4:], [start, start, WOLFE]):
            size = seats(starts)
            answers = [to(i, DOWN) for i in range(size)]
            yield tabled(starts, answers, answers + [to(size, NOT)], answers[::-1])
    yield tabled([start for pair in zip(refused, asks * 2) for start in pair], [to(i, DOWN) for i in range(6)],
                 [to(i, UP) for i in range(7)], [to(i, UP) for i in range(6)])
    yield tabled((refused[:2] * 16)[:31] + [ARMIJO], [to(0, NOT)], [to(31, NOT)], [to(0, MET)])
    yield tabled(refused[:2] * 16, [], [to(0, NOT)])


def sizes():
    """Tables with no search, with one and with 32; every one is named, first and last."""
    kinds = [ARMIJO, three(), grows(), as_whole(three(), 3)]
    for n in (0, 1, 2, 3, 31, 32):
        starts = [kinds[i % 4] for i in range(n)]
        each = [to(i, DOWN) for i in range(n)]
        yield tabled(starts, each, [to(i, UP) for i in range(n)][::-1], [to(n, NOT)], each[-1:] + each[:1])
        if n < 4:
            yield from (tabled(starts), tabled(starts, []))
    yield tabled([WOLFE] * MOST)


def followed():
    """A field of each kind that begins a case, right behind a table whose starts are in: with a scan and without, with
    searches and without."""
    behind = [
        three(7) + answer(*DOWN) + answer(*UP), grows(7) + answer(*UP), as_whole(three(5), 2), dot([TWO], [F(7)]),
        backtracking(FINE[2], 7) + answer(*NOT) + answer(*MET) + answer(*MET), point([TWO], TWO, [F(7)], 1),
        tabled([WOLFE, three(7)], [to(1, UP)]), tabled([grows(4)]),
    ]
    for i, case in enumerate(behind):
        yield tabled([backtracking(FINE[i % 4], 20 + i), three(20 + i)], [to(1, DOWN), to(0, NOT)])
        yield case
        yield tabled([three(40 + i)])
        yield case[:-1] + bytes([case[-1] ^ 1])         # another one, since each case stands once in the list
        yield tabled([backtracking(FINE[i % 4], 0)], *[[]] * i)


# ---- at random

class Drawn:
    """Tables at random: the starts, and the lists of answers, of which some are refused."""

    def __init__(self, r):
        self.r = r

    def one_of(self, *choices):
        return choices[self.r.below(len(choices))]

    def start(self):
        r, one_of, kind = self.r, self.one_of, self.r.below(9)
        if kind < 3:
            p = params(low=ZERO, high=F(8), first=one_of(*SMALL), theta=one_of(HALF, F(0.25)),
                       gamma=one_of(F(0.66), F(0.1)), epsilon=one_of(ZERO, F(0.25)), sigma=one_of(F(0.9), F(0.1)))
            start = hager_zhang(p, ONE, F(-2), 1 + r.below(4), 1 + r.below(3))
            return start if kind else as_whole(start, r.below(3))
        if kind < 5:
            return grows(1 + r.below(4), b=1 + r.below(4), n=1 + r.below(3),
                         first=one_of(HALF, ONE, ONE, 1 + r.below(4), r.like() & ~SIGN))
        if kind < 8:
            return backtracks(FINE[r.below(4)], one_of(HALF, F(0.9)), one_of(ONE, F(8), TINY), ONE, F(-2),
                              1 + r.below(4))
        return one_of(backtracking(FINE[r.below(4)], 0), grows(s0=ZERO), hager_zhang([NAN] * 9, ONE, ONE, 9, 9))

    def reply(self):
        falling = [F(x) for x in (-2, -2, -1, -0.5)]
        y = [self.one_of(*SMALL, F(9), F(9), F(9)), self.one_of(*SMALL, *falling)]
        if self.r.below(20) == 0:
            y[self.r.below(2)] = self.one_of(*NOT_FINITE)
        return y

    def answers(self, size, most):
        """A list. One in eight is refused for a number, and one in eight for its length."""
        kind, count = self.r.below(8), self.r.below(most + 1) if size else 0
        names = [F(self.r.below(size)) for _ in range(count)]
        answers = [(name | (self.r.below(4) == 0 and name == ZERO) * SIGN, *self.reply()) for name in names]
        if kind == 0:
            at = self.r.below(count + 1)
            answers[at:at] = [(self.one_of(*NAMELESS, F(size)), *self.reply())]
        if kind == 1:
            answers.append([self.one_of(ZERO, NAN, ONE)] * (1 + self.r.below(2)))
        return answers

    def table(self, most=6):
        """Starts and lists. There are as many answers as the searches of a table take to end, or some more."""
        starts = [self.start() for _ in range(self.r.below(most + 1))]
        size = seats(starts)
        return starts, [self.answers(size, 1 + size * self.one_of(1, 2, 4)) for _ in range(1 + self.r.below(7))]


def free(r, count):
    drawn = Drawn(r)
    for _ in range(count):
        starts, lists = drawn.table()
        yield tabled(starts, *lists)


def listed():
    r = Random(20060319)
    return [*nameless(), *places(), *lengths(), *longest(), *minus_zero(), *named_often(), *ended(), *refused_answers(),
            *mixed(r), *refused_starts(), *sizes(), *followed(), *free(r, 20)]
