"""Mending a mangled payload, by the paper's request E13. It goes by whole lines here, step after step."""

import re
from typing import NamedTuple

from reference.qrbill import FEWEST_LINES, Refused, read

MOST_MENDED = 4096
COUNTS = 3
BREAK = re.compile(rb'\r\n|\r|\n')
SPACELESS = (4, 29)  # lines


class Mended(NamedTuple):
    """What lies in the destination; breaks that were not LF, spaces taken, lines dropped."""
    data: bytes
    counts: tuple


def reworked(payload: bytes) -> Mended:
    """The four steps."""
    breaks, lines = BREAK.findall(payload), BREAK.split(payload)
    trimmed = [line.rstrip(b' ') for line in lines]
    for number in SPACELESS:
        trimmed[number - 1:number] = [line.replace(b' ', b'') for line in trimmed[number - 1:number]]
    kept = trimmed[:]
    while len(kept) > FEWEST_LINES and kept[-1] == b'':
        kept.pop()
    return Mended(b'\n'.join(kept), (
        sum(one != b'\n' for one in breaks),
        sum(map(len, lines)) - sum(map(len, trimmed)),
        len(trimmed) - len(kept)))


def mended(payload: bytes, room: int, numbers: int = COUNTS):
    """What comes of a payload, or the refusal: 2 for too many bytes, the reader's of the mended bytes,
    15 for too little room."""
    if len(payload) > MOST_MENDED:
        return Refused(2, 0)
    made = Mended(payload, COUNTS * (0,))
    if isinstance(read(payload), Refused):
        made = reworked(payload)
    answer = read(made.data)
    if isinstance(answer, Refused):
        return answer
    return Refused(15, 0) if room < len(made.data) or numbers < COUNTS else made
