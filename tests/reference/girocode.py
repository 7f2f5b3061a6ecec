"""The reference reader and writer of the Austrian girocode.

Written from request E4 and source document 002, apart from the reference of the Swiss bill. A
number in `Refused` is the number of the broken rule. As a command it reads a payload from standard
input and prints one line.
"""

import re
import sys
from typing import NamedTuple

MOST_BYTES = 331
FEWEST_LINES = 7
MOST_LINES = 12
LIST_NUMBERS = 2 * MOST_LINES
BREAKS = {'LF': b'\n', 'CRLF': b'\r\n'}


class Accepted(NamedTuple):
    """The reader's success: line count, kind of break, and the 24 numbers of the list."""
    lines: int
    brk: str
    places: list


class Refused(NamedTuple):
    """The first broken rule, its line, and under 3 the byte's place."""
    number: int
    line: int
    byte: int | None = None


class Written(NamedTuple):
    """The writer's success: the first bytes of the destination."""
    data: bytes


# The whole payload.

BREAK = re.compile(rb'\r\n|\n')
ISO_8859_1 = re.compile(rb'[\x20-\x7E\xA0-\xFF]')
OTHERWISE = re.compile(
    rb'[\x20-\x7E]|\xC2[\xA0-\xBF]|[\xC3-\xC5][\x80-\xBF]|\xC8[\x98-\x9B]|\xE2\x82\xAC')


def is_iso(payload):
    """Whether the third line is 2."""
    lines = BREAK.split(payload, maxsplit=3)
    return len(lines) > 2 and lines[2] == b'2'


def bad_place(payload):
    """The first place where neither an allowed character nor a break begins, or None."""
    allowed = ISO_8859_1 if is_iso(payload) else OTHERWISE
    place = 0
    while place < len(payload):
        step = BREAK.match(payload, place) or allowed.match(payload, place)
        if not step:
            return place
        place = step.end()
    return None


def whole_refusal(payload):
    """Rules 1 to 5."""
    if not payload:
        return Refused(1, 0)
    if len(payload) > MOST_BYTES:
        return Refused(2, 0)
    place = bad_place(payload)
    if place is not None:
        return Refused(3, 1 + payload[:place].count(b'\n'), place)
    breaks = BREAK.findall(payload)
    for line, brk in enumerate(breaks, start=1):
        if brk != breaks[0]:
            return Refused(4, line)
    if not FEWEST_LINES <= len(breaks) + 1 <= MOST_LINES:
        return Refused(5, len(breaks) + 1)
    return None


# The lines, by their numbers, in characters. An absent line has no entry.

TOO_LONG = {6: 70, 9: 4, 10: 35, 11: 140, 12: 70}
FORMS = {
    5: '[A-Z0-9]{8}([A-Z0-9]{3})?',
    7: '[A-Z]{2}[0-9]{2}[0-9A-Z]{1,30}',
    9: '[ -~]*',
    10: '[ -~]*',
}


def is_amount(text):
    """EUR and the shortest text of 0.01 to 999999999.99 that has a digit before any point."""
    number = re.fullmatch('EUR([0-9]{1,9})(?:[.]([0-9]{1,2}))?', text)
    if not number:
        return False
    euros, cents = int(number[1]), int((number[2] or '').ljust(2, '0'))
    shortest = f'{euros}.{cents:02}'.rstrip('0').rstrip('.') if cents else str(euros)
    return (euros, cents) != (0, 0) and text == 'EUR' + shortest


def pair_is_right(iban):
    """The pair is 02 to 98, and the account with its first four characters moved to its end, letters
    as 10 to 35, leaves 1 by 97."""
    number = int(''.join(str(int(sign, 36)) for sign in iban[4:] + iban[:4]))
    return 2 <= int(iban[2:4]) <= 98 and number % 97 == 1


def line_refusal(number, lines):
    """The smallest number that a line breaks, or None."""
    text, last = lines[number], number == len(lines)
    if number in (1, 4):
        return None if text == {1: 'BCD', 4: 'SCT'}[number] else 6
    if number == 2:
        return None if text in ('001', '002') else 6
    if number == 3:
        if text in ('1', '2'):
            return None
        return 17 if text in ('3', '4', '5', '6', '7', '8') else 6
    if not text:
        must = number in (6, 7) or (number == 5 and lines[2] == '001') or (number >= 8 and last)
        return 8 if must else None
    if len(text) > TOO_LONG.get(number, len(text)):
        return 9
    if number == 8 and not is_amount(text):
        return 10
    if number in FORMS and not re.fullmatch(FORMS[number], text):
        return 10
    if number == 7 and not pair_is_right(text):
        return 11
    return None


def lines_refusal(lines):
    """The lines one after another; then reference and text together."""
    for number in lines:
        rule = line_refusal(number, lines)
        if rule is not None:
            return Refused(rule, number)
    if lines.get(10) and lines.get(11):
        return Refused(12, 11)
    return None


# The calls.

def read(payload: bytes, room: int = LIST_NUMBERS) -> Accepted | Refused:
    """Read a payload; `room` is how many numbers the lent list holds."""
    refusal = whole_refusal(payload)
    if refusal:
        return refusal
    brk = 'CRLF' if b'\r\n' in payload else 'LF'
    cut = payload.split(BREAKS[brk])
    coding = 'latin-1' if is_iso(payload) else 'utf-8'
    refusal = lines_refusal({number: line.decode(coding) for number, line in enumerate(cut, 1)})
    if refusal:
        return refusal
    if room < LIST_NUMBERS:
        return Refused(15, 0)
    places, start = [], 0
    for line in cut:
        places += [start, len(line)]
        start += len(line) + len(BREAKS[brk])
    return Accepted(len(cut), brk, places + (MOST_LINES - len(cut)) * [len(payload), 0])


def write(text: bytes, places: list, count: int, brk: str, room: int) -> Written | Refused:
    """Join lines found in a text; `room` is how many bytes the destination holds."""
    if len(places) < LIST_NUMBERS:
        return Refused(15, 0)
    if not FEWEST_LINES <= count <= MOST_LINES:
        return Refused(5, count)
    spans = [places[2 * line:2 * line + 2] for line in range(count)]
    for number, (start, length) in enumerate(spans, start=1):
        if start + length > len(text):
            return Refused(14, number)
    cut = [text[start:start + length] for start, length in spans]
    for number, line in enumerate(cut, start=1):
        stray = re.search(rb'[\r\n]', line)
        if stray:
            before = sum(len(one) + len(BREAKS[brk]) for one in cut[:number - 1])
            return Refused(3, number, before + stray.start())
    joined = BREAKS[brk].join(cut)
    answer = read(joined)
    if isinstance(answer, Refused):
        return answer
    return Written(joined) if len(joined) <= room else Refused(15, 0)


def answer_text(answer):
    """The reader's answer as one line."""
    if isinstance(answer, Accepted):
        return f'accepted {answer.lines} lines {answer.brk}'
    byte = '' if answer.byte is None else f' byte {answer.byte}'
    return f'refused {answer.number} line {answer.line}{byte}'


if __name__ == '__main__':
    print(answer_text(read(sys.stdin.buffer.read(MOST_BYTES + 1))))
