"""A pile of bills, by the paper's request E7."""

from reference.qrbill import Refused, read

MOST_BILLS = 500


def entry(bill, edition):
    """The two numbers of a bill: 0 and its line count, or the refusal and its line."""
    answer = read(bill, edition=edition)
    if isinstance(answer, Refused):
        return [answer.number, answer.line]
    return [0, answer.lines]


def piled(buffer, places, count, room, edition='2.4'):
    """The entries of all bills, as one list; or the refusal and its position."""
    if count > MOST_BILLS or 2 * count > len(places):
        return 5, 0
    wanted = [(places[2 * i], places[2 * i + 1]) for i in range(count)]
    for position, (start, length) in enumerate(wanted, start=1):
        if start + length > len(buffer):
            return 14, position
    if room < 2 * count:
        return 15, 0
    return [number for start, length in wanted for number in entry(buffer[start:start + length], edition)]
