"""Runs of characters and breaks: as payloads, as lines of bills, and for the writer to lay.

What regular expressions say of them, from the paper's paragraphs on payloads and characters, is
held to the reference here; the libraries and the program `cases` are held to the reference on the
payloads and the lines. The runs are the same in each run.
"""

import re
from itertools import product

from casefile import base_bill, bill_lines
from chance import Dice
from reference.qrbill import first_bad_place, line_of_unlike_break

MOST_BYTES = 300  # of a run


# What regular expressions say.

BREAK = re.compile(rb'\r?\n')
ALLOWED_RUN = re.compile(
    rb'(?:[ -~]|\xC2[\xA0-\xBF]|[\xC3-\xC5][\x80-\xBF]|\xC8[\x98-\x9B]|\xE2\x82\xAC|\r?\n)*')


def bad_place(run):
    """Where the longest run of allowed characters and breaks ends before the run does; or None."""
    place = ALLOWED_RUN.match(run).end()
    return place if place < len(run) else None


def unlike_break(run):
    """The line that the first break unlike the first one ends; or None."""
    lengths = [len(one_break) for one_break in BREAK.findall(run)]
    return 1 + lengths.index(3 - lengths[0]) if len(set(lengths)) > 1 else None


# The runs.

BASE = bill_lines('B')
BREAKS = [b'\n', b'\r\n']
EDGES = [bytes([byte]) for byte in bytes.fromhex('000A0D207E7F80BFC2C3C8E282AC')]
CHARACTERS = [text.encode() for text in ' 09AZaz~ÄéüŁſȘȚ€\u00A0']


def short_runs():
    """No byte, each byte alone, each pair of bytes at the edges of the rules."""
    yield b''
    for byte in range(256):
        yield bytes([byte])
    for pair in product(EDGES, repeat=2):
        yield b''.join(pair)


def range_runs():
    """Both ends of each range of a second byte, and the bytes beside them; one byte of the euro
    sign changed."""
    for first, low, high in ((0xC2, 0xA0, 0xBF), (0xC3, 0x80, 0xBF), (0xC4, 0x80, 0xBF),
                             (0xC5, 0x80, 0xBF), (0xC8, 0x98, 0x9B)):
        for second in (low - 1, low, high, high + 1):
            yield bytes([first, second])
    for first in (0xC1, 0xC6, 0xC7, 0xC9):
        yield bytes([first, 0x98])
    for run in product((0xE1, 0xE2, 0xE3), (0x81, 0x82, 0x83), (0xAB, 0xAC, 0xAD)):
        yield bytes(run)


def break_runs():
    """Every run of three and four of CR, LF and a letter."""
    for length in (3, 4):
        for run in product(b'\r\nA', repeat=length):
            yield bytes(run)


def length_runs():
    """About 70 characters, of one byte, of two and of three; and all of one byte but the last, or
    but the first."""
    for count in (69, 70, 71):
        yield b'A' * count
        for character in 'é€':
            yield (character * count).encode()
            yield ('A' * (count - 1) + character).encode()
            yield (character + 'A' * (count - 1)).encode()


def mixed_runs():
    """Runs of edges, of allowed characters with breaks of one kind or of both, and of allowed
    characters with one edge among them."""
    dice = Dice(34)

    def drawn(parts, length):
        return b''.join(dice.pick(parts) for _ in range(length))

    for length in range(5, MOST_BYTES + 1, 12):
        yield drawn(EDGES, length)
        yield drawn(CHARACTERS + BREAKS[:1], length)
        yield drawn(CHARACTERS + BREAKS[1:], length)
        yield drawn(CHARACTERS + 3 * BREAKS, length)
        yield drawn(CHARACTERS, length // 2) + drawn(EDGES, 1) + drawn(CHARACTERS + BREAKS, length)


def bill_runs():
    """The base bill with either break: as it is, with more breaks, with a byte at every tenth place
    changed to one that begins nothing, and with one break of the other kind."""
    for one_break, other in (BREAKS, BREAKS[::-1]):
        bill = one_break.join(BASE)
        yield bill
        yield bill + one_break
        yield bill + 4 * one_break
        for place in range(0, len(bill), 10):
            yield bill[:place] + b'\x07' + bill[place + 1:]
        for number in range(1, len(BASE), 4):
            yield one_break.join(BASE[:number]) + other + one_break.join(BASE[number:])


def runs():
    """All runs, each cut at the most bytes."""
    for some in (short_runs, range_runs, break_runs, length_runs, mixed_runs,
                 bill_runs):
        for run in some():
            yield run[:MOST_BYTES]


# Where they stand.

BILLING = b'//S1' + 67 * b'b'  # with it a message has 69 characters at most


def text_payloads():
    """Each run as a payload, as a name, and as a message beside billing information."""
    for run in runs():
        yield run
        yield base_bill({6: run})
        yield base_bill({30: run, 32: BILLING})


def text_checks():
    """Each check of the reference as its name, what the expressions say of a run, and what it says."""
    for number, run in enumerate(runs(), start=1):
        yield f'run {number}: first bad place', bad_place(run), first_bad_place(run)
        yield f'run {number}: first unlike break', unlike_break(run), line_of_unlike_break(run)
