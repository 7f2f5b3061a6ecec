"""The C host that lends memory, over a library, and the reference beside it."""

import struct
import subprocess
from pathlib import Path

import kit
from layouts import SWISS
from records import LARGEST, MOST_NUMBERS, MOST_ROOM, record_of
from shrinking import shrunk, told_of

COUNTS = (255, 256 + 31, 999, 1000, 2**16 + 31, 2**32 - 1)  # of lines: none that a bill has, as 32 bits
HOST = kit.ROOT / 'tests' / 'host' / 'lending.c'

# As in lending.c.
MARK = b'\xAA'
MOST_TOLD = 999  # a packed line has three digits, so a count of lines above that is told as 999
RESULT = struct.Struct(f'<I{2 * MOST_NUMBERS}sI{MOST_ROOM}s')


def built_lender(library: Path, folder: Path, layout=SWISS) -> Path:
    """The host, linked to a library with the calls of include/qrbill.h."""
    folder = folder / layout.name
    return kit.linked(folder / 'lending', kit.compiled(HOST, folder, *layout.flags), library)


def attempt(dice, payload, layout=SWISS):
    """The lines of a payload where they lie in it; half the time with one thing changed."""
    most, fewest = layout.reference.MOST_LINES, layout.reference.FEWEST_LINES
    size = layout.reference.LIST_NUMBERS
    whole = record_of(payload, size, size // most)
    places, length = list(whole.places), len(payload)
    change = dice.below(10)
    if change == 0:  # a list that is too short or too long
        return whole._replace(places=(places + [7, 7])[:dice.pick([0, size - 1, size + 1, size + 2])])
    if change == 1:
        return whole._replace(count=dice.pick([0, *COUNTS, *range(fewest - 1, most + 2)]))
    if change == 2:
        number = dice.pick([0, 1, min(length, LARGEST), LARGEST])
        places[dice.below(size)] = number
        return whole._replace(places=places)
    if change == 3:
        return whole._replace(crlf=not whole.crlf)
    if change == 4:
        return whole._replace(room=min(dice.pick([0, max(length - 1, 0), length]), MOST_ROOM))
    return whole


def lent(room, written, size):
    """What lent room should hold, and the room in front of it: `written`, and marks."""
    return (size - room) * MARK + written.ljust(room, MARK)


def expected_result(given, layout=SWISS):
    """What the host should write for a record."""
    paper = layout.reference
    answer = paper.read(given.text, len(given.places))
    if isinstance(answer, paper.Refused):
        read_number, places = 1000 * answer.number + answer.line, []
    else:
        read_number, places = answer.lines + 100 * (answer.brk == 'CRLF'), answer.places
    brk = 'CRLF' if given.crlf else 'LF'
    written = paper.write(given.text, given.places, given.count, brk, given.room)
    if isinstance(written, paper.Refused):
        write_number, data = 1000 * written.number + min(written.line, MOST_TOLD), b''
    else:
        write_number, data = len(written.data), written.data
    filled = struct.pack(f'<{len(places)}H', *places)
    return RESULT.pack(read_number, lent(2 * len(given.places), filled, 2 * MOST_NUMBERS),
                       write_number, lent(given.room, data, MOST_ROOM))


def results(program, records):
    """What the host writes for each record; nothing for those that it does not come to."""
    packed = b''.join(record.packed() for record in records)
    ran = subprocess.run(kit.command(program), input=packed, stdout=subprocess.PIPE, check=False,
                         env=kit.environment())
    starts = range(0, RESULT.size * len(records), RESULT.size)
    return [ran.stdout[start:start + RESULT.size] for start in starts]


def differing_records(program, records, layout=SWISS):
    """The records whose results are not the expected ones."""
    expected = (expected_result(record, layout) for record in records)
    tried = zip(records, expected, results(program, records))
    return [record for record, wanted, got in tried if wanted != got]


def smaller(record, differs, each=3):
    """A record that still differs, with less text: if that differs too, one whose lines lie where
    they lie in the text, with as much room more or less than that; or else with the same list. A
    line has so many numbers in the list."""
    def laid_out(text):
        room = record.room + len(text) - len(record.text)
        return record_of(text, len(record.places), each)._replace(room=max(0, room))
    for with_text in (laid_out, lambda text: record._replace(text=text)):
        if differs(with_text(record.text)):
            return with_text(shrunk(record.text, lambda text: differs(with_text(text))))
    return record


def shown(result):
    """A result without the marks that were left."""
    if len(result) < RESULT.size:
        return 'the end'
    read_number, places, write_number, data = RESULT.unpack(result)
    return f'{read_number} {places.strip(MARK).hex()} {write_number} {data.strip(MARK)!r}'


def record_described(name, program, record, layout=SWISS):
    """A text about a record whose result is not the expected one, made smaller."""
    each = layout.reference.LIST_NUMBERS // layout.reference.MOST_LINES
    small = smaller(record, lambda some: results(program, [some]) != [expected_result(some, layout)],
                    each)
    got, = results(program, [small])
    return f'{name}: {told_of(small, shown(expected_result(small, layout)), shown(got))}'
