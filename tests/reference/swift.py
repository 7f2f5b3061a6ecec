"""The contents of SWIFT's fields 59a, 32B and 70 for a payload, by the paper's request E8 and the
table of source document 003. Texts are taken as characters here, not as bytes."""

from string import ascii_letters, digits
from typing import NamedTuple

from reference.qrbill import BREAKS, Accepted, Refused, read

WIDTH = 35  # characters of a line
X_SET = frozenset(ascii_letters + digits + " /-?:().,'+")
BARRED = frozenset(':-')  # at the front of a line
COUNTS = 5


class Fields(NamedTuple):
    """What lies in the destination; lines of 59a, of 32B and of 70; characters cut and replaced."""
    data: bytes
    lines: tuple
    cut: int
    replaced: int


def wrapped(text, rows):
    """The rows that a text fills in turn, at most so many, and how many characters it has past them."""
    kept = [text[at:at + WIDTH] for at in range(0, len(text), WIDTH)]
    return kept[:rows], sum(map(len, kept[rows:]))


def is_replaced(row, at):
    """Whether a full stop stands for a character of a row."""
    return row[at] not in X_SET or (at == 0 and row[at] in BARRED)


def beneficiary(line):
    """59a: texts, and how many rows each may fill."""
    yield '/' + line[4], 1
    if line[5] == 'K':
        for number in (6, 7, 8, 11):
            yield line[number], 1
        return
    street = ' '.join(part for part in (line[7], line[8]) if part)
    yield '1/' + line[6], 1
    if street:
        yield '2/' + street, 1
    yield f'3/{line[11]}/{line[9]} {line[10]}', 1


def remittance(line):
    """70: the reference behind its kind with the message on three rows, or the message on four."""
    if line[28] == 'NON':
        yield line[30], 4
    else:
        yield f'{line[28]}/{line[29]}', 1
        yield line[30], 3


def fields(payload: bytes, room: int, numbers: int = COUNTS, edition: str = '2.4'):
    """The fields, or the refusal: the reader's, 16 for no amount, 15 for too little room."""
    answer = read(payload, edition=edition)
    if not isinstance(answer, Accepted):
        return answer
    texts = payload.decode().split(BREAKS[answer.brk].decode())
    line = dict(enumerate(texts, start=1))
    if not line[19]:
        return Refused(16, 19)
    parts = (beneficiary(line), [(line[20] + line[19].replace('.', ','), 1)], remittance(line))
    made = [[wrapped(*text) for text in part] for part in parts]
    rows = [[row for kept, _ in part for row in kept] for part in made]
    every = sum(rows, [])
    stops = [[is_replaced(row, at) for at in range(len(row))] for row in every]
    laid = [''.join('.' if stop else character for character, stop in zip(row, marks))
            for row, marks in zip(every, stops)]
    data = '\r\n'.join(laid).encode()
    if room < len(data) or numbers < COUNTS:
        return Refused(15, 0)
    cut = sum(lost for part in made for _, lost in part)
    return Fields(data, tuple(map(len, rows)), cut, sum(map(sum, stops)))
