"""The reference of the glance: whose account a payload names, by its first 37 bytes.

Written from the paper's sentences about it, and apart from the reference reader. As a command it
reads a payload from standard input and prints the IBAN's place, or no.
"""

import re
import sys
from typing import NamedTuple

LOOKED = 37
FIXED = (b'SPC', b'0200', b'1')
BREAK = re.compile(rb'\n|\r\n')
IBAN = re.compile(rb'(CH|LI)[0-9]{7}[0-9A-Z]{12}')


class Place(NamedTuple):
    """Where the IBAN stands in the payload."""
    start: int
    length: int


def whole_lines(head, more):
    """The start and the text of each whole line: a break ends it within the bytes that are looked
    at; or it is the last, and there are no more bytes."""
    start = 0
    for brk in BREAK.finditer(head):
        yield start, head[start:brk.start()]
        start = brk.end()
    if not more:
        yield start, head[start:]


def is_account(text):
    """Of its form (so not empty), and with the right check digits, of which 00, 01 and 99 are none."""
    if not IBAN.fullmatch(text) or text[2:4] in (b'00', b'01', b'99'):
        return False
    number = 0
    for character in text[4:] + text[:4]:
        value = int(chr(character), 36)
        number = (number * (10 if value < 10 else 100) + value) % 97
    return number == 1


def glance(payload: bytes) -> Place | None:
    """The IBAN's place, or None for no."""
    lines = list(whole_lines(payload[:LOOKED], len(payload) > LOOKED))
    if len(lines) < 4 or tuple(text for _, text in lines[:3]) != FIXED:
        return None
    start, text = lines[3]
    return Place(start, len(text)) if is_account(text) else None


if __name__ == '__main__':
    found = glance(sys.stdin.buffer.read(LOOKED + 1))
    print(f'{found.start} {found.length}' if found else 'no')
