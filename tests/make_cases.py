"""Make the records that the program `cases` is run on, and what it has to write for each.

A capital letter is for edition 2.4, a small one for 2.2, of which a viewer hands out nothing.
R and a payload: those of all cases, in their order, and runs of characters and breaks. W and a call of
the writer: those of tests/lib/writer_calls.py. S and a payload that comes in bits: a few bills, each cut in
several ways. What is to be written is the reference's answer with the byte's place, and of a payload
what a viewer hands out, or of one in bits the list. Of a payload only the first 2,000 bytes are stored:
past 997 it does not matter how many there are.

With `--check` it writes no file: it compares the stored files with what it would make, once for each
record. It prints a line for each failure and at the end `N passed, M failed`.
"""

import sys
from itertools import zip_longest
from pathlib import Path

sys.path.insert(0, str(Path(__file__).resolve().parent / 'lib'))

from casefile import read_cases
from framing import framed, number, records
from reference.qrbill import BREAKS, Accepted, Refused, read, write
from scanning import LONGEST, OVER, PAYLOADS, cut
from telling import told
from text_payloads import runs
from writer_calls import calls

CRATE = Path(__file__).resolve().parent.parent / 'crates' / 'cases'

MOST_STORED = 2000  # bytes of a payload
MOST_RECORD = 65536  # bytes of a record that the program can hold
MOST_NUMBERS, MOST_ROOM = 104, 1200  # of a list and of a destination, in the program
NUMBER_BYTES = 2
SCANNED = (
    'base-lf', 'base-crlf', 'bill-f-crlf', '2.4-section-6.2-997-bytes', 'no-bytes',
    '2.4-table-8-line-1-other-type', 'message-of-137-with-billing-text',
)
SCANNED_NUMBERS = 128  # of the list that the scanner is lent
DONE = b'.0:'  # what is written of a viewer that is done: an empty part


def told_of(*numbers):
    """Three numbers in a line."""
    return b'%d %d %d\n' % numbers


def answer_line(answer, accepted):
    """The line about an answer: a refusal's number, line and place, or what else is to be told."""
    if isinstance(answer, Refused):
        return told_of(answer.number, answer.line, answer.byte or 0)
    return told_of(0, *accepted(answer))


def kind_of(brk):
    """The number of a kind of break: 1 for LF, 2 for CR LF."""
    return 1 + list(BREAKS).index(brk)


def view_line(payload, answer):
    """The line with what a viewer hands out: each line of an accepted payload, and then that it is
    done, where the lines end, one move after that and after a million moves."""
    entries = answer.places[:3 * answer.lines] if isinstance(answer, Accepted) else []
    lines = [payload[start:start + length] for start, length in zip(entries[::3], entries[1::3])]
    return b''.join(b'+%d:%s' % (len(text), text) for text in lines) + 3 * DONE + b'\n'


def reading(payload):
    """The record of a payload, and what is to be written of it."""
    answer = read(payload)
    told_line = answer_line(answer, lambda some: (some.lines, kind_of(some.brk)))
    return framed(b'R' + payload), told_line + view_line(payload, answer)


def older_reading(payload):
    """The same under edition 2.2."""
    answer = read(payload, edition='2.2')
    return framed(b'r' + payload), answer_line(answer, lambda some: (some.lines, kind_of(some.brk)))


def writing(call, letter=b'W', edition='2.4'):
    """The record of a call of the writer, and what is to be written of it."""
    head = [call.count, kind_of(call.brk), call.room, len(call.places)]
    numbers = b''.join(number(value, NUMBER_BYTES) for value in head + call.places)
    answer = write(call.text, call.places, call.count, call.brk, call.room, edition)
    line = answer_line(answer, lambda some: (len(some.data), 0))
    return framed(letter + numbers + call.text), line


def scanning(bits, letter=b'S', edition='2.4'):
    """The record of a payload in bits, and what is to be written of it."""
    payload = b''.join(bits)
    answer = read(payload, edition=edition)
    told_line = answer_line(answer, lambda some: (some.lines, kind_of(some.brk)))
    places = answer.places if isinstance(answer, Accepted) else []
    numbers = places + (SCANNED_NUMBERS - len(places)) * [0]
    sizes = b''.join(number(value, NUMBER_BYTES) for value in [len(bits), *map(len, bits)])
    return framed(letter + sizes + payload), told_line + b''.join(b'%d ' % one for one in numbers) + b'\n'


def scans():
    """The payloads that come in bits, each cut in several ways."""
    for payload in [*(PAYLOADS[name] for name in SCANNED), OVER, OVER + LONGEST]:
        yield from cut(payload, (1, 7, 64, 997))


def make():
    """For each record a name, and the record with what is to be written."""
    for case in read_cases():
        yield case.name, reading(case.payload[:MOST_STORED])
    for place, run in enumerate(runs(), start=1):
        yield f'run {place}', reading(run)
    for place, call in enumerate(calls(), start=1):
        yield f'call {place}', writing(call)
    for place, bits in enumerate(scans(), start=1):
        yield f'scan {place}', scanning(bits)
    for case in read_cases():
        yield f'{case.name}, 2.2', older_reading(case.payload[:MOST_STORED])
    for place, call in enumerate(calls(), start=1):
        yield f'call {place}, 2.2', writing(call, b'w', '2.2')
    for place, bits in enumerate(scans(), start=1):
        yield f'scan {place}, 2.2', scanning(bits, b's', '2.2')


def kept(stdin, stdout):
    """Each stored record with what is stored as written of it: two lines for R and for S, else one.
    What a viewer hands out may hold a break, so a part of it is passed by its length."""
    at = 0
    for record in records(stdin):
        end = stdout.find(b'\n', at) + 1
        if record[4:5] == b'R':
            while stdout[end:end + 1] in (b'+', b'.'):
                colon = stdout.index(b':', end)
                end = colon + 1 + int(stdout[end + 1:colon])
            end += 1
        if record[4:5] in (b'S', b's'):
            end = stdout.find(b'\n', end) + 1
        yield record, stdout[at:end]
        at = end
    if at < len(stdout):
        yield b'', stdout[at:]


def checks():
    """Each check as its name, what should be there, and what is."""
    stored = kept(*((CRATE / name).read_bytes() for name in ('stdin', 'stdout')))
    for made, got in zip_longest(make(), stored):
        name, expected = made or ('past the last record', None)
        yield name, expected, got
    yield 'records that the program can hold', True, all(
        len(record) <= MOST_RECORD for _, (record, _) in make())
    yield 'calls that the program can make', True, all(
        len(call.places) <= MOST_NUMBERS and call.room <= MOST_ROOM for call in calls())


def main():
    """Write the two files, or check them."""
    if sys.argv[1:] == ['--check']:
        return told(checks())
    inputs, outputs = zip(*(pair for _, pair in make()))
    (CRATE / 'stdin').write_bytes(b''.join(inputs))
    (CRATE / 'stdout').write_bytes(b''.join(outputs))
    return 0


if __name__ == '__main__':
    sys.exit(main())
