"""Slips in a table of searches and in a scan (02, request 6): each has the methods that a copy of model_tables.Table
gets in place of its own. slips.py makes them."""
from exact import INF, NAN, SIGN, exact, is_finite
from model_tables import Table

EIGHT = "REFUSED", 8


def is_over(table, i):
    return table.told[i][0] != "ASK"


# ---- what a number names

def in_table(value, size):
    """The right rule once more, for a finite value."""
    return int(value) if value == int(value) and 0 <= value < size else None


def of_value(wrong):
    """A slip in the number of a finite float; `wrong` has its value and the table's size."""
    return {"named": lambda self, w: wrong(exact(w), len(self.searches)) if is_finite(w) else None}


def of_pattern(pattern, wrong):
    """A slip for one pattern; `wrong` has the table's size."""
    return {"named": lambda self, w: wrong(len(self.searches)) if w == pattern else Table.named(self, w)}


def wrapped(modulus):
    return of_value(lambda v, n: in_table(v % modulus, n))


NAMES = {
    "minus zero refused": of_pattern(SIGN, lambda n: None),
    "31 for every number above": of_value(lambda v, n: in_table(min(v, 31), n)),
    "the last search for every number above": of_value(lambda v, n: in_table(min(v, n - 1), n)),
    "0 for every number below": of_value(lambda v, n: in_table(max(v, 0), n)),
    "NaN is 0": of_pattern(NAN, lambda n: in_table(0, n)),
    "the infinity is 31": of_pattern(INF, lambda n: in_table(31, n)),
    "minus infinity is 0": of_pattern(SIGN | INF, lambda n: in_table(0, n)),
    "the fraction is cut off": of_value(lambda v, n: in_table(int(v), n)),
    "the fraction is cut off, but not below 0": of_value(lambda v, n: in_table(int(v), n) if v >= 0 else None),
    "the nearest whole number": of_value(lambda v, n: in_table(round(v), n)),
    "a subnormal is 0": of_value(lambda v, n: in_table(v if abs(v) >= 2.0 ** -1022 else 0, n)),
    "the sign is left out": of_value(lambda v, n: in_table(abs(v), n)),
    "from the end, where below 0": of_value(lambda v, n: in_table(v + n if v < 0 else v, n)),
    "five bits": wrapped(32),
    "a byte": wrapped(1 << 8),
    "two bytes": wrapped(1 << 16),
    "four bytes": wrapped(1 << 32),
    "eight bytes": wrapped(1 << 64),
    "counted from 1": of_value(lambda v, n: in_table(v - 1, n)),
    "0 to 30": of_value(lambda v, n: in_table(v, min(n, 31))),
    "one number more": of_value(lambda v, n: in_table(v, n) if v != n or not n else n - 1),
}


# ---- what refuses a list

def is_named(table, numbers):
    return all(table.named(w) is not None for w in numbers[::3])


def length_last(self, numbers):
    if not is_named(self, numbers):
        return 3
    return 1 if len(numbers) % 3 else 0


def give_named(self, numbers):
    """Each answer that names a search."""
    for at in range(0, len(numbers) - 2, 3):
        if self.named(numbers[at]) is not None:
            Table.give(self, numbers[at:at + 3])


def give_before(self, numbers):
    """Each answer up to the first that names no search."""
    for at in range(0, len(numbers) - 2, 3):
        if self.named(numbers[at]) is None:
            break
        Table.give(self, numbers[at:at + 3])


def partly(given, numbers_refused):
    """What a list that is refused by one of these leaves behind all the same."""
    def scan(self, numbers):
        refused = self.refusal(numbers)
        if refused in (0, *numbers_refused):
            given(self, numbers)
        return refused
    return {"scan": scan}


def looked_at(some):
    """Only some of the names are looked at; what is no name later is passed over."""
    def refusal(self, numbers):
        if len(numbers) % 3:
            return 1
        return 0 if all(self.named(w) is not None for w in some(numbers[::3])) else 3
    return {"refusal": refusal, "give": give_named}


def without_over(self, numbers):
    """A search that is over is taken for none in the table."""
    refused = Table.refusal(self, numbers)
    return refused or (3 if any(is_over(self, self.named(w)) for w in numbers[::3]) else 0)


REFUSALS = {
    "3 before 1": {"refusal": length_last},
    "1 for a number too": {"refusal": lambda self, x: min(1, Table.refusal(self, x))},
    "3 for the length too": {"refusal": lambda self, x: Table.refusal(self, x) and 3},
    "the empty list refused": {"refusal": lambda self, x: Table.refusal(self, x) if x else 1},
    "no length refused": {"refusal": lambda self, x: 0 if is_named(self, x) else 3},
    "no number refused": {"refusal": lambda self, x: len(x) % 3 and 1, "give": give_named},
    "NaN is passed over": looked_at(lambda names: [w for w in names if w != NAN]),
    "one float behind the answers is passed over": {
        "refusal": lambda self, x: Table.refusal(self, x[:-1] if len(x) % 3 == 1 else x)},
    "the first number alone looked at": looked_at(lambda names: names[:1]),
    "the first number not looked at": looked_at(lambda names: names[1:]),
    "the last number not looked at": looked_at(lambda names: names[:-1]),
    "the first 339 numbers looked at": looked_at(lambda names: names[:339]),
    "given up to the number that refuses": partly(give_before, [3]),
    "all given but what refuses": partly(give_named, [3]),
    "the whole answers given beside a 1": partly(give_named, [1]),
    "refused for a search that is over": {"refusal": without_over},
}


# ---- what is given

def given(chosen):
    """An answer is given where this holds of the table, the names before it, its own and those behind it."""
    def give(self, numbers):
        for at in range(0, len(numbers), 3):
            if chosen(self, numbers[:at:3], numbers[at], numbers[at + 3::3]):
                Table.give(self, numbers[at:at + 3])
    return {"give": give}


def stops(at):
    """The list ends behind an answer that is told this."""
    def give(self, numbers):
        for i in range(0, len(numbers), 3):
            Table.give(self, numbers[i:i + 3])
            if at(self.told[self.named(numbers[i])]):
                break
    return {"give": give}


def ends_all(self, i, cost, slope):
    Table.answer(self, i, cost, slope)
    if self.told[i] == ("REFUSED", 2):
        for j in range(len(self.searches)):
            Table.answer(self, j, NAN, NAN)


def backwards(self, numbers):
    for at in reversed(range(0, len(numbers), 3)):
        Table.give(self, numbers[at:at + 3])


def names(table, w, others):
    return table.named(w) in map(table.named, others)


GIVEN = {
    "the first answer of a search named twice is lost": given(lambda t, before, w, behind: not names(t, w, behind)),
    "the second answer of a search named twice is lost": given(lambda t, before, w, behind: not names(t, w, before)),
    "the third answer of a search is lost": given(
        lambda t, before, w, behind: [t.named(v) for v in before].count(t.named(w)) < 2),
    "from the last answer to the first": {"give": backwards},
    "the list stops at a refused answer": stops(lambda told: told[0] == "REFUSED"),
    "the list stops at an answer refused by 2": stops(lambda told: told == ("REFUSED", 2)),
    "the list stops at an 8": stops(lambda told: told == EIGHT),
    "the list stops where a search ends": stops(lambda told: told[0] not in ("ASK", "REFUSED")),
    "a refused answer ends every search": {"answer": ends_all},
    "no more than 339 answers": given(lambda t, before, w, behind: len(before) < 339),
    "no more than 255 answers": given(lambda t, before, w, behind: len(before) < 255),
    "cost and slope in the other order": {"answer": lambda self, i, f, g: Table.answer(self, i, g, f)},
}


# ---- what is told

def keeps(when):
    """What a search last told stays, where this holds of it and of what it is told now."""
    def answer(self, i, cost, slope):
        last = self.told[i]
        Table.answer(self, i, cost, slope)
        if when(last, self.told[i]):
            self.told[i] = last
    return {"answer": answer}


def removes(self, i, cost, slope):
    """An answer to a search removes the 8 of the others."""
    kept = self.__dict__.setdefault("kept", {})
    for j in range(len(self.told)):
        if j != i and self.told[j] == EIGHT:
            self.told[j] = kept[j]
    if self.told[i] != EIGHT:
        kept[i] = self.told[i]
    Table.answer(self, i, cost, slope)


def counts(self, i, cost, slope):
    self.searches[i].evaluations += is_over(self, i)
    Table.answer(self, i, cost, slope)


def leaves(self, numbers):
    refused = Table.scan(self, numbers)
    on = [i for i in range(len(self.told)) if not is_over(self, i)]
    self.searches, self.told = [self.searches[i] for i in on], [self.told[i] for i in on]
    return refused


TOLD = {
    "8 is not told": keeps(lambda last, new: new == EIGHT),
    "8 is told for what was no refusal alone": keeps(lambda last, new: new == EIGHT and last[0] == "REFUSED"),
    "8 is removed by another search's answers": {"answer": removes},
    "an answer behind the end is counted": {"answer": counts},
    "a search that is over leaves the table": {"scan": leaves},
}


# ---- who sits

def seat_refused(self, search):
    self.searches.append(search)
    self.told.append(search.first)


def seat_first(self, search):
    if search.first[0] == "ASK":
        self.searches.insert(0, search)
        self.told.insert(0, search.first)


def seat_31(self, search):
    if len(self.searches) < 31:
        Table.seat(self, search)


SEATS = {
    "a refused start has a seat": {"seat": seat_refused},
    "the last start is search 0": {"seat": seat_first},
    "no more than 31 seats": {"seat": seat_31},
}
SLIPS = {**NAMES, **REFUSALS, **GIVEN, **TOLD, **SEATS}
