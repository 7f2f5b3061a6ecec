"""Hold what edition 2.2 says of old bills to the references.

    python3 tests/editions.py

runs the program `cases` on 20,000 damaged bills whose creditor or debtor is of
type K, or whose QR reference stands with EUR. Each is read under 2.2; of every fourth SWIFT fields are
made, every tenth is written anew and handed over in bits, and every four are a pile. Calls for C are
of 2.4, so these records go through a program. Prints a line for each difference and at the end
`N passed, M failed`.
"""

import subprocess
import sys
from collections import Counter
from pathlib import Path

sys.path.insert(0, str(Path(__file__).resolve().parent / 'lib'))

import kit
from casefile import BREAKS
from chance import Dice
from damage import BILLS, DAMAGES, break_of, damaged, joined, lines_of, stretch
from framing import framed, number
from make_cases import NUMBER_BYTES, older_reading, scanning, told_of, writing
from reference.pile import piled
from reference.qrbill import LIST_NUMBERS, Accepted, Refused, characters, read
from reference.swift import fields
from scanning import pieces
from telling import Count
from writer_calls import Call

SEED, COUNT = 22, 20000
ROOM, PILE, PILE_NUMBERS = 320, 4, 8  # as in the program
CREDITOR, DEBTOR = 5, 21
SHOWN = 90  # bytes of a payload that differs


def combined(payload, first):
    """A bill whose address from that line on is of type K: street and number, postcode and town."""
    lines = lines_of(payload)
    street, house, postcode, town = lines[first + 1:first + 5]
    lines[first - 1] = b'K'
    lines[first + 1:first + 5] = [b' '.join(filter(None, (street, house))),
                                  b' '.join((postcode, town)), b'', b'']
    return joined(lines, payload)


def in_euros(payload):
    """A bill in EUR."""
    lines = lines_of(payload)
    lines[19] = b'EUR'
    return joined(lines, payload)


def old_bills():
    """The bills of the case files as 2.2 alone has them."""
    for bill in BILLS:
        tried = [combined(bill, CREDITOR), combined(bill, DEBTOR), in_euros(bill)]
        tried += [combined(tried[1], CREDITOR), in_euros(tried[0])]
        yield from (one for one in tried if isinstance(read(one, edition='2.2'), Accepted)
                    and isinstance(read(one), Refused))


# Damages of an address of type K.

def stretch_address_line(dice, payload):
    """An address line is lengthened to its limit or one character more."""
    lines = lines_of(payload)
    line = dice.pick([7, 8, 23, 24])
    if line <= len(lines):
        stretch(dice, lines, line, 70 + dice.below(2))
    return joined(lines, payload)


def change_address(dice, payload):
    """A line of an address is emptied or filled: its type, name, address lines, postcode, town, country."""
    lines = lines_of(payload)
    line = dice.pick([CREDITOR, DEBTOR]) + dice.below(7)
    if line <= len(lines):
        lines[line - 1] = dice.pick([b'', b'K', b'S', b'8000', b'Seldwyla', b'CH', b':x', b'-x'])
    return joined(lines, payload)


# Records, each with what is to be written of it.

def mapping(payload):
    """The SWIFT fields of a payload."""
    answer = fields(payload, ROOM, edition='2.2')
    if isinstance(answer, Refused):
        return framed(b'm' + payload), told_of(answer.number, answer.line, answer.byte or 0)
    lent = answer.data.ljust(ROOM, b'\0')
    line = told_of(0, len(answer.data), 0) + told_of(*answer.lines)
    line += told_of(answer.cut, answer.replaced, 0)
    return framed(b'm' + payload), line + b'%d:%s\n' % (ROOM, lent)


def piling(bills):
    """A pile of four bills, end to end."""
    buffer, places = b''.join(bills), []
    for before, bill in enumerate(bills):
        places += [len(b''.join(bills[:before])), len(bill)]
    entries = piled(buffer, places, PILE, PILE_NUMBERS, '2.2')
    numbers = b''.join(number(value, NUMBER_BYTES) for value in [PILE, *places])
    return framed(b'p' + numbers + buffer), b''.join(b'%d ' % entry for entry in entries) + b'\n'


def call_of(payload):
    """A call of the writer with the lines of a payload, end to end."""
    brk = break_of(payload)
    lines = payload.split(brk)[:LIST_NUMBERS // 3]
    places = []
    for before, line in enumerate(lines):
        places += [len(b''.join(lines[:before])), len(line), characters(line)]
    places += (LIST_NUMBERS - len(places)) * [0]
    name = next(name for name, text in BREAKS.items() if text == brk)
    return Call(b''.join(lines), places, len(lines), name, 1000)


def tries(payloads):
    """Each payload with the records that are made of it."""
    for at, payload in enumerate(payloads):
        yield payload, older_reading(payload)
        if at % 4 == 0:
            yield payload, mapping(payload)
        if at % 10 == 0:
            yield payload, writing(call_of(payload), b'w', '2.2')
            yield payload, scanning(pieces(payload, 64), b's', '2.2')
    for at in range(0, len(payloads) - PILE + 1, PILE):
        bills = payloads[at:at + PILE]
        yield bills[0], piling(bills)


def written(records):
    """What the program writes for records."""
    return subprocess.run(kit.command(kit.program('cases')), input=b''.join(records), check=True,
                          stdout=subprocess.PIPE, env=kit.environment()).stdout


def differing(tried):
    """The tries of which the program writes something else: asked for all at once, and one by one
    only where that differs."""
    records, expected = zip(*(pair for _, pair in tried))
    if written(records) == b''.join(expected):
        return []
    return [one for one in tried if written([one[1][0]]) != one[1][1]]


def described(one):
    """A try that differs."""
    payload, (record, expected) = one
    return f'{record[4:5]} {payload[:SHOWN]}: expected {expected[:SHOWN]}, got {written([record])[:SHOWN]}'


def main():
    """Compare all, and say how often each answer comes."""
    bills = tuple(old_bills())
    payloads = [*bills, *damaged(SEED, COUNT, bills, (*DAMAGES, *3 * [stretch_address_line, change_address]))]
    answers = Counter(answer.number if isinstance(answer, Refused) else 0
                      for answer in (read(payload, edition='2.2') for payload in payloads))
    print('old bills by answer:', ', '.join(f'{name} {times}' for name, times in sorted(answers.items())))
    tried = list(tries(payloads))
    count = Count()
    count.compared(len(tried), differing(tried), described)
    return count.closed()


if __name__ == '__main__':
    sys.exit(main())
