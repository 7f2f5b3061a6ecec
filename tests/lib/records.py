"""What host/lending.c and bench/calls.c read: a text, and how to read and write it (record.h)."""

import struct
from typing import NamedTuple

from damage import break_of, lines_of
from framing import framed
from reference.qrbill import LIST_NUMBERS, characters

MOST_NUMBERS, MOST_ROOM = 104, 1200  # as in record.h
LARGEST = 2**16 - 1  # of the numbers in a list


class Record(NamedTuple):
    """A text; for the writer a list, a line count, a kind of break and how much room there is."""
    text: bytes
    places: list
    count: int
    crlf: bool
    room: int

    def packed(self):
        """The record as the programs in C read it."""
        numbers = len(self.places)
        rest = (MOST_NUMBERS - numbers) * [0]
        head = struct.pack(f'<4I{MOST_NUMBERS}H', numbers, self.count, self.crlf, self.room,
                           *self.places, *rest)
        return framed(head + self.text)


def record_of(payload, numbers=LIST_NUMBERS, each=3):
    """The lines of a payload where they lie in it, to be written again from so many numbers, of which
    each line has so many."""
    brk = break_of(payload)
    places, start = [], 0
    for line in lines_of(payload):
        entry = [start, len(line), characters(line)][:each]
        places += [min(value, LARGEST) for value in entry]
        start += len(line) + len(brk)
    count = len(places) // each
    places = (places + numbers * [0])[:numbers]
    return Record(payload, places, count, brk == b'\r\n', MOST_ROOM)
