"""Calls of the writer: each refusal beside its neighbours in the order, lists, counts, rooms and
places about their limits, stray breaks, round trips, and bills damaged by chance.

tests/host/run makes them from C, and the program `cases` runs them (tests/make_cases.py). They are the
same in each run.
"""

from typing import NamedTuple

from casefile import bill_lines, read_cases
from chance import Dice
from reference.qrbill import BREAKS, Accepted, characters, read
from text_payloads import runs

MOST_ROOM = 1200  # of a destination


class Call(NamedTuple):
    """What the writer is called with."""
    text: bytes
    places: list
    count: int = 31
    brk: str = 'LF'
    room: int = 170


# Bills to call with.

BASE = bill_lines('B')
BASE_LENGTHS = {'LF': 134, 'CRLF': 164}
OUTSIDE = (0, 65535)
GARBAGE = (65535, 65535)
LONGEST = {  # lines as long as they may be, where that breaks no other rule
    6: 70 * b'n', 7: 70 * b's', 8: 16 * b'h', 9: 16 * b'p', 10: 35 * b't',
    21: b'S', 22: 70 * b'n', 23: 70 * b's', 24: 16 * b'h', 25: 16 * b'p', 26: 35 * b't', 27: b'CH',
    30: 140 * b'm',
    33: 100 * b'a', 34: 100 * b'b',
}


def bill(lines=(), places=(), numbers=102, **others):
    """The base bill with other texts for some lines and other places for some lines, each with the
    characters that lie there unless it says others. The lines lie end to end, without breaks: the
    writer's text need not be a payload."""
    texts = BASE + 3 * [b'']
    for line, text in dict(lines).items():
        texts[line - 1] = text
    laid = []
    for before, text in enumerate(texts):
        laid += [len(b''.join(texts[:before])), len(text), characters(text)]
    whole = b''.join(texts)
    for line, (start, size, *told_of) in dict(places).items():
        laid[3 * line - 3:3 * line] = start, size, *(told_of or [characters(whole[start:start + size])])
    return Call(whole, (laid + [0, 0])[:numbers], **others)


# The calls.

def neighbours():
    """Two faults at once, for each two neighbours of the order."""
    for brk in BREAKS:
        for numbers in (0, 1, 101):
            yield bill(numbers=numbers, count=30, brk=brk)
        for count in (30, 35):
            yield bill(places={1: OUTSIDE}, count=count, brk=brk)
        yield bill(places={1: (0, 3, 4), 31: OUTSIDE}, brk=brk)
        yield bill({1: b'SPC\n'}, {31: (0, 3, 2)}, brk=brk)
        yield bill({1: b'SPC\n'}, {31: OUTSIDE}, brk=brk)
        yield bill({1: b'SPD', 31: b'EPD\r'}, brk=brk)
        yield bill({2: b'\x00', 6: 998 * b'a', 31: b'EPD\n'}, brk=brk)
        for wrong in ({1: b'SPD'}, {30: b'\x00'}, {6: 998 * b'a'}, {4: b'CH5800791123000889013'}):
            yield bill(wrong, brk=brk, room=0)
            yield bill(wrong, brk=brk, room=BASE_LENGTHS[brk] - 1)


def reader_refusals():
    """A fault of each kind that the reader finds in lines, with no room and with enough."""
    for lines in ({31: b'EPE'}, {12: b'x'}, {20: b''}, {8: 17 * b'4'}, {19: b'0.00'},
                  {29: b'RF19539007547034'}, {4: b'CH6431961000004421557'},
                  {30: 137 * b'm', 32: b'//S1'}):
        for room in (0, 300):
            yield bill(lines, count=max(31, *lines), room=room)


def far_apart():
    """Two faults that are no neighbours of the order, and all of them at once."""
    stray, wrong = {31: b'EPD\n'}, {1: b'SPD'}
    yield bill(numbers=101, places={1: OUTSIDE})
    yield bill(stray, numbers=101)
    yield bill(numbers=101, room=0)
    yield bill(stray, count=30)
    yield bill(count=35, room=0)
    yield bill(wrong, {31: OUTSIDE})
    yield bill(places={31: OUTSIDE}, room=0)
    yield bill(stray, room=0)
    for numbers, count in ((101, 30), (102, 30), (102, 31)):
        yield bill(stray | wrong, {7: OUTSIDE}, numbers=numbers, count=count, room=0)


def lists_and_counts():
    """Lists and counts about their limits; places past the count that would be wrong."""
    for numbers in (67, 68, 100, 101, 102, 103, 104):
        yield bill(numbers=numbers)
    last = {32: b'//S1', 33: b'a', 34: b'b'}
    for count in (0, 1, 30, 31, 32, 33, 34, 35, 36, 255, 256, 65535):
        yield bill(count=count)
        yield bill(last, count=count)
    for number in (32, 33, 34):
        yield bill(last, {n: GARBAGE for n in range(number, 35)}, count=number - 1)
        yield bill(last, {n: GARBAGE for n in range(number, 35)}, count=number)


def rooms():
    """Destinations of no bytes, of one byte too few, of exactly enough and of more."""
    for brk, length in BASE_LENGTHS.items():
        for room in (0, 1, length - 1, length, length + 1, length + 40, 997, MOST_ROOM):
            yield bill(brk=brk, room=room)


def places_in_the_text():
    """Places at the end of the text and past it, over each other, and in another order."""
    length = len(bill().text)
    for start, size in ((length, 0), (length + 1, 0), (length - 3, 3), (length - 3, 4), (length, 1),
                        (1, 65535), (65535, 1), (65535, 65535), (32768, 32768), (65535, 0)):
        for number in (1, 30, 31):
            yield bill(places={number: (start, size)})
    name = bill().places[15:18]
    yield bill(places={number: name for number in (6, 7, 10)})
    yield bill(places={6: (0, 40), 7: (10, 40), 10: (20, 10), 30: (0, length)})
    yield bill(places={number: (0, 0) for number in range(12, 19)})
    yield bill(places={number: (0, length) for number in range(1, 32)})
    for brk in BREAKS:
        yield backwards(brk)


def backwards(brk):
    """The base bill whose last line comes first in the text."""
    laid = []
    for line, text in enumerate(BASE, start=1):
        laid += [len(b''.join(BASE[line:])), len(text), characters(text)]
    return Call(b''.join(reversed(BASE)), laid + 9 * [0], brk=brk)


def wrong_counts():
    """Other characters than a line has: one more, one fewer, its bytes; in the first line and the last,
    in two, past the count, in damaged text, and with faults that come later."""
    umlauts, damaged = 'Für €'.encode(), b'a\x80\xC3\xBFb\xFF'
    for brk in BREAKS:
        for number in (1, 6, 31):
            start, size, there = bill().places[3 * number - 3:3 * number]
            for told_of in (there - 1, there + 1, 0, 65535):
                yield bill(places={number: (start, size, told_of)}, brk=brk)
        for text in (umlauts, damaged):
            start = bill({30: text}).places[87]
            for told_of in range(len(text) + 1):
                yield bill({30: text}, {30: (start, len(text), told_of)}, brk=brk)
        yield bill(places={7: (0, 3, 2), 3: (0, 3, 4)}, brk=brk)
        yield bill(places={32: (0, 3, 2)}, brk=brk)
        yield bill(places={32: (0, 3, 2)}, count=32, brk=brk)
        for later in ({1: b'SPD'}, {30: b'\x00'}, {6: 998 * b'a'}):
            yield bill(later, {31: (0, 3, 2)}, brk=brk, room=0)


def stray_breaks():
    """CR, LF and both at the front, in the middle and at the end of lines; two such lines."""
    for brk in BREAKS:
        for number in (1, 6, 12, 31):
            for stray in (b'\r', b'\n', b'\r\n'):
                for front, back in ((b'', b'ab'), (b'a', b'b'), (b'ab', b'')):
                    yield bill({number: front + stray + back}, brk=brk, room=40)
        last = {32: b'//S1', 33: b'a'}
        for stray in (b'\rb', b'b\n', b'b\r\nb'):
            yield bill(last | {34: stray}, count=34, brk=brk)
        yield bill({1: b'SPC\n'}, {number: (0, 4) for number in (6, 7, 10)}, brk=brk)
        yield bill({30: 'Für €\r'.encode()}, {6: (0, 3), 7: (1, 2)}, brk=brk)
        yield bill({8: b'\n', 7: b'\r'}, brk=brk)
        yield bill({32: b'//S1\n'}, count=31, brk=brk)
        yield bill({32: b'//S1\n'}, count=32, brk=brk)


def lengths():
    """Joined bytes of 996, 997 and 998, and far more than a bill may have."""
    for brk in BREAKS:
        spare = 997 - (len(bill(LONGEST).text) + 33 * len(BREAKS[brk]))
        for more in (-1, 0, 1):
            yield long_bill(spare + more, brk)
    text = 4000 * b'a'
    for brk in BREAKS:
        yield Call(text, 34 * [0, 4000, 4000], 34, brk)
        yield Call(text, 34 * [0, 30, 30], 34, brk)
        yield Call(text + b'\n', 33 * [0, 4000, 4000] + [0, 4001, 4001], 34, brk)


def long_bill(more, brk):
    """The longest lines and so many bytes more, or less: a letter of two bytes for one of one
    byte adds a byte and no character."""
    lines = dict(LONGEST)
    if more < 0:
        lines[34] = lines[34][:more]
    for number in (34, 33):
        wider = max(0, min(more, len(lines[number])))
        lines[number] = wider * 'ü'.encode() + lines[number][wider:]
        more -= wider
    return bill(lines, count=34, brk=brk, room=1000)


def round_trips():
    """Every accepted case, written again from its own places."""
    for case in read_cases():
        answered = read(case.payload)
        if isinstance(answered, Accepted):
            yield Call(case.payload, answered.places, answered.lines, answered.brk,
                       len(case.payload) + 2)


def runs_as_lines():
    """Runs of characters and breaks as a name, with room for what may be written of them."""
    for run in runs():
        yield bill({6: run}, room=400)


DAMAGED = 240
SPOILERS = (0x00, 0x0A, 0x0D, 0x20, 0x30, 0x41, 0x7F, 0x80, 0xC3, 0xE2, 0xFF)


def damaged_bills():
    """Bills with a number or two of the list changed, bytes of the text changed, or both."""
    dice = Dice(15)
    below = dice.below
    for turn in range(DAMAGED):
        brk = 'LF' if below(2) else 'CRLF'
        whole = bill(brk=brk, count=31 + below(2), room=BASE_LENGTHS[brk] - 2 + below(6))
        text, places = bytearray(whole.text), list(whole.places)
        for _ in range(turn % 3):
            spoiler = dice.pick(SPOILERS)
            text[below(len(text))] = spoiler
        for _ in range(below(3) if turn % 3 else 1):
            places[below(96)] = below(12) if below(2) else below(len(text) + 2)
        yield whole._replace(text=bytes(text), places=places)


def calls():
    """All calls, in one order."""
    for some in (neighbours, reader_refusals, far_apart, lists_and_counts, rooms,
                 places_in_the_text, wrong_counts, stray_breaks, lengths, round_trips,
                 runs_as_lines, damaged_bills):
        yield from some()
