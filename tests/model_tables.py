"""A table of searches, and a scan: a list of answers to them in one call (02, request 6), from the rules alone.

The searches are those of model_hagerzhang.py and model_backtracking.py, of either kind. A list is floats: search
number, cost and slope of each answer, laid end to end.
"""
from exact import exact, is_finite

# "The engine runs up to 32 searches"
MOST = 32


class Table:
    """`searches` has those that sit in it, by number, and `told` what each of them last told."""

    def __init__(self):
        self.searches, self.told = [], []

    def seat(self, search):
        """A start that is refused is no search: it has no seat, and the next one gets its number."""
        if search.first[0] == "ASK":
            self.searches.append(search)
            self.told.append(search.first)

    def named(self, w):
        """The number of the search that a float names, or None where it names none in the table. "Search numbers come
        as whole-valued floats 0 to 31; minus zero names search 0." """
        if not is_finite(w):
            return None
        value = exact(w)
        return int(value) if value.denominator == 1 and 0 <= value < len(self.searches) else None

    def refusal(self, numbers):
        """What refuses a list, or 0. "1 if the length is no multiple of 3, 3 if any number, NaN too, names no search in
        the table; both are checked over the whole list first". 01 has 1 before 3."""
        if len(numbers) % 3 != 0:
            return 1
        names = [self.named(w) for w in numbers[::3]]
        return 3 if None in names else 0

    def answer(self, i, cost, slope):
        """"A refused answer ends only its own search." "A search that has ended is still in the table and its answers
        meet refusal 8." """
        self.told[i] = self.searches[i].answer(cost, slope)

    def give(self, numbers):
        """"It shall equal the answers given one at a time in list order, a search named twice included." """
        for name, cost, slope in zip(numbers[::3], numbers[1::3], numbers[2::3]):
            self.answer(self.named(name), cost, slope)

    def scan(self, numbers):
        """Takes a list, where nothing refuses it; otherwise nothing changes. What refuses it, or 0."""
        refused = self.refusal(numbers)
        if refused == 0:
            self.give(numbers)
        return refused
