"""Payloads that show a fault, made smaller: what is left out while the fault still shows.

Lines and breaks are left out first, then characters, then bytes: long runs of them, then shorter
ones, down to one.
"""

import re

CALLS = 600  # tries at most for a payload, so that it ends soon

BREAK = re.compile(rb'(\r?\n)')
CHARACTER = re.compile(rb'.[\x80-\xBF]*', re.DOTALL)  # with the bytes that belong to its first
BYTE = re.compile(rb'.', re.DOTALL)


class Tries:
    """Whether payloads differ, by asking at most so many times; after that none seems to."""

    def __init__(self, differs, calls):
        self.differs, self.left = differs, calls

    def __call__(self, payload):
        if self.left == 0:
            return False
        self.left -= 1
        return self.differs(payload)


def lines_and_breaks(payload):
    """The texts of the lines and the breaks between them."""
    return [piece for piece in BREAK.split(payload) if piece]


def fewer(pieces, differs):
    """What still differs of a row of pieces after runs of them are left out."""
    size = len(pieces)
    while size > 0:
        start = 0
        while start < len(pieces):
            rest = pieces[:start] + pieces[start + size:]
            if differs(b''.join(rest)):
                pieces = rest
            else:
                start += size
        size //= 2
    return b''.join(pieces)


def shrunk(payload, differs, calls=CALLS):
    """A payload of which no byte can be left out without the difference going; or the smallest
    that was found in so many calls of `differs`. One that does not differ stays as it is."""
    tries = Tries(differs, calls)
    if not tries(payload):
        return payload
    before = None
    while payload != before:
        before = payload
        for pieces_of in (lines_and_breaks, CHARACTER.findall, BYTE.findall):
            payload = fewer(pieces_of(payload), tries)
    return payload


def difference(payload, expected_of, got_of):
    """A text about a payload that does not get what it should, made smaller."""
    small = shrunk(payload, lambda some: expected_of(some) != got_of(some))
    return told_of(small, expected_of(small), got_of(small))


def told_of(given, expected, got):
    """A text about a difference; what shows none for itself alone showed it after others."""
    if expected == got:
        return f'{given!r:.1500}: differs only after others'
    return f'{given!r:.1500}: expected {expected}, got {got}'
