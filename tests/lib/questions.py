"""The questions that tests/wrong_answers puts to wrong programs, and what the reference answers.

    qrbill(PAYLOAD)                 the line that the program writes
    whole(PAYLOAD)                  rules 1 to 5 of a bill
    read(PAYLOAD, NUMBERS)          the reader, lent a list of so many numbers
    write(PAYLOAD, BREAK, ROOM)     the writer, handed the lines that LF or CRLF parts the payload into,
                                    and lent so many bytes; a fourth word is another count of lines, and
                                    words behind it, INDEX=NUMBER, are other numbers of the list
    view(PAYLOAD, MOVES)            the viewer's answer, and what it says and hands out after so many moves
    glance(PAYLOAD)                 the account at a glance
    make_qrr(DIGITS, ROOM)          a number of our own, in so many bytes, as by make_scor(REFERENCE, ROOM)
                                    and make_iban(COUNTRY, IID, ACCOUNT, ROOM)
    pile(PAYLOAD, .., NUMBERS)      a pile of bills, lent a list of so many numbers; in the place of a
                                    payload, `outside` is one that begins past the buffer
    season(PAYLOAD, .., NUMBERS)    a pile of bills tried under both editions, lent a list of so many numbers
    fields(PAYLOAD, ROOM)           SWIFT fields in so many bytes: their length, the lines of each, how many
                                    characters were cut and how many replaced
    mend(PAYLOAD, ROOM)             a payload mended in so many bytes: their length, breaks that were not LF,
                                    spaces taken and lines dropped
    hand_over(ROOM, LENGTH, BIT)    a bit handed over in a room of so many bytes, of which so many are held
    scan(BIT, .., NUMBERS)          a payload in bits by value, closed with a list of so many numbers
    remainder97(TEXT)               the remainder by 97 of a text, its first four characters moved
    remainder_after(NUMBER, TEXT)   that of a number with a text more
    checks97(TEXT)                  whether check digits are right

`read_22` and `fields_22` are of edition 2.2, all others of 2.4. `giro_read` and `giro_write` are the
girocode's, `.._by_table` are remainders by the table. The calls
for C are asked by their own names: `qrbill_places` and `girocode_places` as `read`, `qrbill_read` and
`girocode_read` with a payload alone, `qrbill_line` and `girocode_line` with a line's number,
`qrbill_swift` as `fields` and `qrbill_mend` as `mend`, with how many numbers are lent for the counts,
and `qrbill_season` as `season`, with how many are lent for the sums.

A payload is `case NAME`, or `case NAME with N: TEXT`, where line N is another; every text is written as
in case files (tests/lib/casefile.py), and so is an answer. It has the lent memory: 7777 and `_` stand where
nothing was written, and of long memory the front and the end are shown. But for the program itself
all is asked by tests/lib/asked_program.txt.
"""

import re
import struct
from functools import cache, partial
from typing import NamedTuple

from casefile import BREAKS, FOLDER, FileLine, read_cases, to_bytes, written_out
from damage import break_of
from digit_texts import decimal_of, pair_holds, remainder_97
from framing import framed
from reference import girocode, qrbill
from reference.glance import glance
from reference.numbers import made
from reference.pile import piled
from reference.mender import Mended, mended
from reference.season import Season, tried
from reference.swift import Fields, fields
from reference.scanner import handed

QUESTION = re.compile(r'(\w+)\((.*)\)')
PAYLOAD = re.compile(r'case (?P<name>\S+)(?: with (?P<line>[0-9]+): (?P<text>.*))?')
PROGRAM, ASKED = 'qrbill', 'asked'  # the programs that questions are put to

# As in asked_program.txt.
BYTE, NUMBER = b'_', 7777
MOST_BYTES, MOST_NUMBERS = 40, 12


class Question(NamedTuple):
    """A question: the program that it is put to, what that is given, the same as a record of the
    program that is asked everything, and the reference's answer."""
    program: str
    given: bytes
    record: bytes
    right: bytes


def asked(which, numbers, texts, right):
    """A question to the program that was written for it, which has a letter for each."""
    numbers, texts = [*numbers, 0, 0, 0][:3], [*texts, b'', b'', b''][:3]
    head = struct.pack('<6I', *numbers, *map(len, texts))
    record = framed(which + head + b''.join(texts))
    return Question(ASKED, record, record, right)


# Texts of the language.

@cache
def payloads():
    """The payload of each case."""
    return {case.name: case.payload for folder in (FOLDER, FOLDER / 'girocode')
            for case in read_cases(folder)}


def text_of(words):
    """The bytes of a case, maybe with another line, or of a text as case files have it."""
    found = PAYLOAD.fullmatch(words)
    if not found:
        return to_bytes(written_out(FileLine('', 0, words), words), BREAKS['LF'])
    payload = payloads()[found['name']]
    if not found['line']:
        return payload
    brk, line = break_of(payload), int(found['line'])
    lines = payload.split(brk)
    return brk.join([*lines[:line - 1], text_of(found['text']), *lines[line:]])


def shown_list(written, room):
    """What is shown of a list, where these numbers are written to its front."""
    numbers = [str(number) for number in (written + room * [NUMBER])[:room]]
    if room > MOST_NUMBERS:
        numbers = [*numbers[:4], '..', *numbers[-4:]]
    return ' '.join([', list', *numbers]).encode()


def shown_bytes(written, room):
    """The same of a destination."""
    dest = written.ljust(room, BYTE)
    if room > MOST_BYTES:
        dest = dest[:8] + b'..' + dest[-4:]
    return b', destination ' + dest


def spoken(layout, answer):
    """An answer in words."""
    if isinstance(answer, layout.Written):
        return b'%d bytes' % len(answer.data)
    return layout.answer_text(answer).encode()


def packed(layout, answer):
    """An answer as the calls for C give it; three digits tell a line."""
    if isinstance(answer, layout.Refused):
        return b'%d' % (1000 * answer.number + min(answer.line, 999))
    if isinstance(answer, layout.Written):
        return b'%d' % len(answer.data)
    return b'%d' % (answer.lines + 100 * (answer.brk == 'CRLF'))


# The questions.

def running(payload):
    """The program on a payload."""
    payload = text_of(payload)
    question = asked(b'b', [], [payload], spoken(qrbill, qrbill.read(payload)))
    return question._replace(program=PROGRAM, given=payload)


def judging(payload):
    """Rules 1 to 5 on a payload."""
    payload = text_of(payload)
    brk = 'CRLF' if b'\r\n' in payload else 'LF'
    accepted = qrbill.Accepted(payload.count(b'\n') + 1, brk, [])
    answer = qrbill.refusal_of_payload(payload) or accepted
    return asked(b'h', [], [payload], spoken(qrbill, answer))


def reading(which, layout, told, payload, room, read=None):
    """A reader on a payload."""
    payload, room = text_of(payload), int(room)
    answer = (read or layout.read)(payload, room)
    places = answer.places if isinstance(answer, layout.Accepted) else []
    return asked(which, [room], [payload], told(layout, answer) + shown_list(places, room))


def numbers_each(layout):
    """How many numbers a layout's list has for a line."""
    return layout.LIST_NUMBERS // layout.MOST_LINES


def writing(which, layout, told, payload, brk, room, count=None, *others):
    """A writer on a payload's lines. Each is handed over where its text first stands among them, so
    that places overlap."""
    lines, room = text_of(payload).split(BREAKS[brk]), int(room)
    text, count = b''.join(lines), int(count or len(lines))
    entries = ([text.find(line), len(line), qrbill.characters(line)] for line in lines)
    places = [number for entry in entries for number in entry[:numbers_each(layout)]]
    places = (places + layout.LIST_NUMBERS * [0])[:layout.LIST_NUMBERS]
    for index, number in (map(int, other.split('=')) for other in others):
        places[index] = number
    answer = layout.write(text, places, count, brk, room)
    data = answer.data if isinstance(answer, layout.Written) else b''
    return asked(which, [count, brk == 'CRLF', room], [text, struct.pack(f'<{len(places)}H', *places)],
                 told(layout, answer) + shown_bytes(data, room))


def viewing(payload, moves):
    """The viewer on a payload, after so many moves."""
    payload, moves = text_of(payload), int(moves)
    answer = qrbill.read(payload)
    shown = b', done, line '
    if isinstance(answer, qrbill.Accepted) and moves < answer.lines:
        start, length = answer.places[3 * moves:3 * moves + 2]
        shown = b', not done, line ' + payload[start:start + length]
    return asked(b'v', [moves], [payload], spoken(qrbill, answer) + shown)


def counting(which, layout, payload):
    """The line count for C, or the refusal."""
    payload = text_of(payload)
    answer = layout.read(payload)
    accepted = isinstance(answer, layout.Accepted)
    return asked(which, [], [payload], b'%d' % answer.lines if accepted else packed(layout, answer))


def placing(which, layout, payload, line):
    """The place of a line for C."""
    payload, line = text_of(payload), int(line)
    answer, place = layout.read(payload), 0
    if isinstance(answer, layout.Accepted) and 1 <= line <= layout.MOST_LINES:
        entry = numbers_each(layout) * (line - 1)
        start, length = answer.places[entry:entry + 2]
        place = 1000 * start + length
    return asked(which, [line], [payload], b'%d' % place)


def glancing(which, for_c, payload):
    """The account at a glance."""
    payload = text_of(payload)
    found = glance(payload)
    if for_c:
        right = b'%d' % (1000 * found.start + found.length if found else 0)
    else:
        right = b'%d bytes at %d' % (found.length, found.start) if found else b'not known'
    return asked(which, [], [payload], right)


def making(which, kind, told, *words):
    """A number made of parts."""
    *parts, room = words
    parts, room = [text_of(part) for part in parts], int(room)
    number = made(kind, parts, room)
    refused = not isinstance(number, bytes)
    answer = qrbill.Refused(number, 0) if refused else qrbill.Written(number)
    right = told(qrbill, answer) + shown_bytes(b'' if refused else number, room)
    return asked(which, [room], parts, right)


def end_to_end(bills):
    """A buffer in which bills lie end to end, and their places."""
    texts = [b'' if bill == 'outside' else text_of(bill) for bill in bills]
    buffer, places = b''.join(texts), []
    for i, bill in enumerate(bills):
        start = len(buffer) + 1 if bill == 'outside' else len(b''.join(texts[:i]))
        places += [start, len(texts[i])]
    return buffer, places


def piling(which, for_c, *words):
    """A pile of bills."""
    *bills, room = words
    (buffer, places), room = end_to_end(bills), int(room)
    entries = piled(buffer, places, len(bills), room)
    refused = isinstance(entries, tuple)
    right = packed(qrbill, qrbill.Refused(*entries)) if refused else b'0'
    if not for_c:
        right = spoken(qrbill, qrbill.Refused(*entries)) if refused else b'done'
    return asked(which, [len(bills), room], [buffer, struct.pack(f'<{len(places)}I', *places)],
                 right + shown_list([] if refused else entries, room))


def trying(which, for_c, *words):
    """A pile of bills under both editions; for C the last word is how many sums are lent."""
    *bills, room, lent = words if for_c else (*words, '2')
    (buffer, places), room, lent = end_to_end(bills), int(room), int(lent)
    answer = tried(buffer, places, len(bills), room, lent)
    listed = isinstance(answer, Season)
    positions, sums = answer if listed else ([], [])
    if for_c:
        told = b'%d' % len(positions) if listed else packed(qrbill, qrbill.Refused(*answer))
    elif listed:
        told = b'%d listed, CHF %d, EUR %d' % (len(positions), *sums)
    else:
        told = spoken(qrbill, qrbill.Refused(*answer))
    right = told + shown_list(positions, room)
    if for_c:
        right += shown_list(sums, lent).replace(b'list', b'sums')
    return asked(which, [len(bills), room, lent], [buffer, struct.pack(f'<{len(places)}I', *places)],
                 right)


def swift_told(payload, room, *numbers, **edition):
    """SWIFT fields: the answer, what is laid, the counts, and all this in words."""
    answer = fields(payload, room, *numbers, **edition)
    if not isinstance(answer, Fields):
        return answer, b'', [], b''
    counts = [*answer.lines, answer.cut, answer.replaced]
    return answer, answer.data, counts, b'lines %d %d %d, cut %d, replaced %d' % tuple(counts)


def mend_told(payload, room, *numbers):
    """The same of a mended payload."""
    answer = mended(payload, room, *numbers)
    if not isinstance(answer, Mended):
        return answer, b'', [], b''
    counts = [*answer.counts]
    return answer, answer.data, counts, b'breaks %d, spaces %d, lines %d' % answer.counts


def counted(which, made, payload, room, *numbers):
    """A call with counts beside its number; for C where so many numbers are lent for them."""
    payload, room, lent = text_of(payload), int(room), [*map(int, numbers)]
    answer, data, counts, words = made(payload, room, *lent)
    refused = isinstance(answer, qrbill.Refused)
    if lent:
        told = packed(qrbill, answer) if refused else b'%d' % len(data)
        told += shown_list(counts, *lent)
    else:
        told = spoken(qrbill, answer) if refused else b'%d bytes, ' % len(data) + words
    return asked(which, [room, *lent], [payload], told + shown_bytes(data, room))


def handing(which, room, length, bit):
    """A bit handed over in a room that is lent."""
    room, length, bit = int(room), int(length), text_of(bit)
    held, now = handed(room * BYTE, length, bit)
    return asked(which, [room, length], [bit], b'%d' % now + shown_bytes(held, room))


def scanning(*words):
    """A payload in bits, by value."""
    *bits, room = words
    bits, room = [text_of(bit) for bit in bits], int(room)
    answer = qrbill.read(b''.join(bits), room)
    places = answer.places if isinstance(answer, qrbill.Accepted) else []
    sizes = struct.pack(f'<{len(bits)}I', *map(len, bits))
    return asked(b'k', [room], [b''.join(bits), sizes],
                 spoken(qrbill, answer) + shown_list(places, room))


def remainder_of(which, text):
    """The remainder by 97 of a text, its first four characters moved."""
    return asked(which, [], [text_of(text)], b'%d' % remainder_97(text_of(text)))


def remainder_after(which, number, text):
    """The remainder by 97 of a number with a text more."""
    decimals = ''.join(decimal_of(byte) for byte in text_of(text))
    return asked(which, [int(number)], [text_of(text)], b'%d' % (int(number + decimals) % 97))


def checking(text):
    """Whether check digits are right."""
    return asked(b'5', [], [text_of(text)], b'yes' if pair_holds(text_of(text)) else b'no')


ASKERS = {
    'qrbill': running, 'whole': judging,
    'read': partial(reading, b'r', qrbill, spoken),
    'read_22': partial(reading, b'd', qrbill, spoken, read=partial(qrbill.read, edition='2.2')),
    'giro_read': partial(reading, b'R', girocode, spoken),
    'qrbill_places': partial(reading, b'c', qrbill, packed),
    'girocode_places': partial(reading, b'C', girocode, packed),
    'write': partial(writing, b'w', qrbill, spoken), 'giro_write': partial(writing, b'W', girocode, spoken),
    'qrbill_write': partial(writing, b'x', qrbill, packed),
    'girocode_write': partial(writing, b'X', girocode, packed),
    'view': viewing,
    'glance': partial(glancing, b'g', False), 'qrbill_glance': partial(glancing, b'G', True),
    'make_qrr': partial(making, b'q', 'qrr', spoken),
    'qrbill_make_qrr': partial(making, b'Q', 'qrr', packed),
    'make_scor': partial(making, b's', 'scor', spoken),
    'qrbill_make_scor': partial(making, b'S', 'scor', packed),
    'make_iban': partial(making, b'i', 'iban', spoken),
    'qrbill_make_iban': partial(making, b'I', 'iban', packed),
    'pile': partial(piling, b'p', False), 'qrbill_pile': partial(piling, b'P', True),
    'season': partial(trying, b't', False), 'qrbill_season': partial(trying, b'T', True),
    'fields': partial(counted, b'f', swift_told),
    'fields_22': partial(counted, b'e', partial(swift_told, edition='2.2')),
    'qrbill_swift': partial(counted, b'F', swift_told),
    'mend': partial(counted, b'm', mend_told), 'qrbill_mend': partial(counted, b'M', mend_told),
    'hand_over': partial(handing, b'o'), 'qrbill_hand': partial(handing, b'O'), 'scan': scanning,
    'remainder_after': partial(remainder_after, b'1'),
    'remainder_after_by_table': partial(remainder_after, b'2'),
    'remainder97': partial(remainder_of, b'3'), 'remainder97_by_table': partial(remainder_of, b'4'),
    'checks97': checking,
    'qrbill_read': partial(counting, b'n', qrbill), 'girocode_read': partial(counting, b'N', girocode),
    'qrbill_line': partial(placing, b'l', qrbill), 'girocode_line': partial(placing, b'L', girocode),
}


def question_of(words):
    """The question that these words put."""
    name, given = QUESTION.fullmatch(words).groups()
    return ASKERS[name](*given.split(', '))
