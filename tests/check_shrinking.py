"""Check that payloads which show a fault are made smaller: as far as can be, and within limits.

Faults are put in the place of a library's: a text that a payload holds, a number of lines, and two
readers that go wrong in a way that the paper warns of. Prints a line for each failure and at the
end `N passed, M failed`.
"""

import re
import sys
from pathlib import Path

sys.path.insert(0, str(Path(__file__).resolve().parent / 'lib'))

from casefile import bill_lines
from damage import BILLS, damaged
from reference.qrbill import answer_text, read
from shrinking import CALLS, difference, shrunk
from telling import told

LINES = bill_lines('B')
BASE = b'\n'.join(LINES)
BASE_CRLF = b'\r\n'.join(LINES)
SEED, COUNT = 1, 300
WIDE = re.compile(rb'[\xC2-\xDF][\x80-\xBF]')


class Asked:
    """A fault that counts how often it is asked for."""

    def __init__(self, fault):
        self.fault, self.times = fault, 0

    def __call__(self, payload):
        self.times += 1
        return self.fault(payload)


def right_answer(payload):
    """The reference's line."""
    return answer_text(read(payload))


def answer_in_bytes(payload):
    """The line of a reader that counts bytes where it should count characters."""
    return right_answer(WIDE.sub(b'xx', payload))


def answer_for_any_break(payload):
    """The line of a reader that takes CR LF for LF."""
    return right_answer(payload.replace(b'\r\n', b'\n'))


def are_lines(payload, one):
    """Whether a payload has whole lines of the base bill, and this one among them."""
    lines = payload.split(b'\n')
    return one in lines and all(line in LINES for line in lines)


def is_text(payload, part):
    """Whether a payload is UTF-8, and holds a text."""
    text = payload.decode('utf-8', 'ignore')
    return part in text and text.encode() == payload


def is_smallest(payload, differs):
    """Whether a payload differs, and no more so with any one of its bytes left out."""
    shorter = (payload[:at] + payload[at + 1:] for at in range(len(payload)))
    return differs(payload) and not any(map(differs, shorter))


def checks_of_texts():
    """What is left is exactly what the fault asks for, however it lies in the payload."""
    for name, payload, fault, small in (
            ('the last byte', BASE, lambda some: b'D' in some, b'D'),
            ('both ends', BASE, lambda some: some[:3] + some[-3:] == b'SPCEPD', b'SPCEPD'),
            ('a line', BASE, lambda some: b'Seldwyla' in some.split(b'\n'), b'Seldwyla'),
            ('30 breaks', BASE, lambda some: some.count(b'\n') == 30, 30 * b'\n'),
            ('3 breaks of two bytes', BASE_CRLF, lambda some: some.count(b'\r\n') > 2, 3 * b'\r\n'),
            ('whole lines', BASE, lambda some: are_lines(some, b'EPD'), b'EPD'),
            ('whole characters', 'xü€'.encode(), lambda some: is_text(some, 'x'), b'x'),
            ('half a character', 'xü'.encode(), lambda some: b'\xC3' in some, b'\xC3'),
            ('a way by the end', b'abc', lambda some: some in (b'abc', b'ab', b'b'), b'b'),
            ('anything', BASE, lambda some: True, b''),
            ('all of it', BASE, lambda some: some == BASE, BASE),
            ('nothing', b'', lambda some: True, b'')):
        yield name, small, shrunk(payload, fault)


def checks_of_readers():
    """Of every payload for which a wrong reader goes wrong, the smallest is found."""
    for wrong in (answer_in_bytes, answer_for_any_break):
        def differs(payload):
            return right_answer(payload) != wrong(payload)
        found = list(filter(differs, [*BILLS, *damaged(SEED, COUNT)]))
        yield f'{wrong.__name__} goes wrong', True, len(found) > 10
        for payload in found[:10]:
            small = shrunk(payload, differs, 10 * CALLS)
            yield f'{wrong.__name__}, {payload!r:.60}', True, is_smallest(small, differs)


def checks_of_limits():
    """No more calls than allowed; one where there is no fault; and the fault stays in any case."""
    for calls in (1, 2, 10, 20):
        asked = Asked(lambda some: b'Mai' in some)
        small = shrunk(BASE, asked, calls)
        yield f'{calls} calls: as many', calls, asked.times
        yield f'{calls} calls: the fault is there', True, b'Mai' in small
        yield f'{calls} calls: not longer', True, len(small) <= len(BASE)
    asked = Asked(lambda some: False)
    yield 'no fault', BASE, shrunk(BASE, asked)
    yield 'no fault: calls', 1, asked.times


def checks_of_texts_about():
    """The text about a difference has the smaller payload, and both answers for it."""
    about = difference(BASE + b'\r\n', right_answer, answer_for_any_break)
    small, _, answers = about.partition(': ')
    yield 'the payload in a text', True, small in map(repr, (b'\n\r\n', b'\r\n\n'))
    yield 'the answers in a text', 'expected refused 4 line 2, got refused 5 line 3', answers
    yield ('what does not differ', f'{BASE!r}: differs only after others',
           difference(BASE, right_answer, right_answer))


def all_checks():
    """All checks, each a name, what should come and what does."""
    yield from checks_of_texts()
    yield from checks_of_readers()
    yield from checks_of_limits()
    yield from checks_of_texts_about()


if __name__ == '__main__':
    sys.exit(told(all_checks()))
