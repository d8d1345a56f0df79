"""The lines that both programs print for outcomes.

An outcome is a pair: "ASK", "STOP wolfe", "STOP approximate", "STOP met" or "LIMIT" with the step's bits, or "REFUSED"
with the number.
"""


def number(w):
    return "%016X" % w


def counts(search):
    return "evaluations %d iterations %d" % (search.evaluations, search.iterations)


def line(outcome, search):
    word, what = outcome
    if word == "REFUSED":
        return "REFUSED %d" % what
    if word == "ASK":
        return "ASK " + number(what)
    return "%s %s %s" % (word, number(what), counts(search))


def printed(lines):
    """The lines as the bytes that are written."""
    return "".join(text + "\n" for text in lines).encode()
