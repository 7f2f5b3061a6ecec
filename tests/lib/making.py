"""The C host that makes numbers, over a library, and the reference beside it."""

import struct
import subprocess
from pathlib import Path
from string import ascii_letters, ascii_uppercase, digits
from typing import NamedTuple

import kit
from casefile import BREAKS
from chance import Dice
from damage import CASES
from reference.numbers import made

HOST = kit.ROOT / 'tests' / 'host' / 'making.c'

# As in making.c.
MARK, MOST_PART, MOST_MADE = b'\xAA', 40, 40
KINDS = ('qrr', 'scor', 'iban')
GIVEN = struct.Struct(f'<5I{3 * MOST_PART}s')
RESULT = struct.Struct(f'<I{MOST_MADE}s')

DIGITS, CAPITALS = digits.encode(), (digits + ascii_uppercase).encode()
LETTERS = (digits + ascii_letters).encode()


class Making(NamedTuple):
    """A kind of number, its parts, and how much room there is."""
    kind: str
    parts: tuple
    room: int

    def packed(self):
        """As making.c reads it."""
        parts = [*self.parts, b'', b''][:3]
        return GIVEN.pack(KINDS.index(self.kind), *map(len, parts), self.room,
                          b''.join(part.ljust(MOST_PART, b'\0') for part in parts))


# What the papers print, and numbers of our own with each last digit.
PRINTED = [
    ('iban', (b'CH', b'00791', b'123000889012')), ('scor', (b'539007547034',)),
    ('qrr', (b'21000000000313947143000901',)), ('iban', (b'CH', b'31961', b'000004421557')),
    ('iban', (b'CH', b'31999', b'123000889012')), ('iban', (b'CH', b'00762', b'011623852957')),
    ('iban', (b'LI', b'08810', b'0002324013AA')), ('scor', (b'0191230100405JSH0438',)),
    ('qrr', (b'00000820779122585742128669',)), ('qrr', (b'12345678909876543210123456',)),
]
EACH_LAST_DIGIT = [('qrr', (b'%026d' % number,)) for number in range(1, 41)]
SINGLE = [('scor', (bytes([byte]),)) for byte in range(256)]
EDGES = [
    *(('scor', (size * b'Z',)) for size in (0, 2, 20, 21, 22)), ('scor', (21 * b'z',)),
    *(('scor', (text,)) for text in (b'a b', b'a-b', b'\xC3\xA4', b'RF18539007547034', b'0')),
    *(('qrr', (text,)) for text in (b'', 25 * b'1', 27 * b'1', 26 * b'0', 25 * b'0' + b'1',
                                    b'1' + 25 * b'0', 25 * b'1' + b' ', b'A' + 25 * b'1', 26 * b'9')),
]
IBAN_PARTS = (b'CH', b'00791', b'123000889012')
OTHER_PARTS = [
    (b'', b'C', b'CHH', b'ch', b'Ch', b'AT', b'IL', b'LI', b'C '),
    (b'', b'0079', b'007911', b'0079A', b'ABCDE', b'0079 ', b'00000', b'30000', b'31999', b'32000', b'29999'),
    (b'', b'12300088901', b'1230008890123', b'12300088901a', b'12300088901 ', b'12300088901Z', b'ABCDEFGHIJKL'),
]


def numbers():
    """What numbers are tried to be made of, one thing at a time."""
    yield from PRINTED + EACH_LAST_DIGIT + SINGLE + EDGES
    for place, others in enumerate(OTHER_PARTS):
        for other in others:
            yield 'iban', (*IBAN_PARTS[:place], other, *IBAN_PARTS[place + 1:])


def makings():
    """Each of these with no room, one byte too little, just enough, and more."""
    for kind, parts in numbers():
        number = made(kind, parts, MOST_MADE)
        size = len(number) if isinstance(number, bytes) else 21
        for room in (0, size - 1, size, size + 1, MOST_MADE):
            yield Making(kind, parts, room)


def drawn(dice, alphabet, size):
    """So many bytes of an alphabet, by chance."""
    return bytes(dice.pick(alphabet) for _ in range(size))


def random_makings(seed, count):
    """Numbers by chance, of which one in eight has a part of a wrong length, and one in eight little room."""
    dice = Dice(seed)
    for _ in range(count):
        kind, change = dice.pick(KINDS), dice.below(8)
        more = dice.pick([1, -1]) if change == 0 else 0
        room = dice.below(28) if change == 1 else MOST_MADE
        if kind == 'qrr':
            parts = (drawn(dice, DIGITS, 26 + more),)
        elif kind == 'scor':
            parts = (drawn(dice, dice.pick([DIGITS, LETTERS]), 22 if more else 1 + dice.below(21)),)
        else:
            parts = (dice.pick([b'CH', b'LI']), drawn(dice, DIGITS, 5),
                     drawn(dice, dice.pick([DIGITS, CAPITALS]), 12 + more))
        yield Making(kind, parts, room)


def expected(making):
    """What the host should write."""
    number = made(*making)
    answer, text = (len(number), number) if isinstance(number, bytes) else (1000 * number, b'')
    before = (MOST_MADE - making.room) * MARK
    return RESULT.pack(answer, before + text.ljust(making.room, MARK))


def results(program, some):
    """What the host writes for each; nothing for those that it does not come to."""
    ran = subprocess.run(kit.command(program), input=b''.join(one.packed() for one in some),
                         stdout=subprocess.PIPE, check=False, env=kit.environment())
    return [ran.stdout[start:start + RESULT.size]
            for start in range(0, RESULT.size * len(some), RESULT.size)]


def built_maker(library: Path, folder: Path) -> Path:
    """The host, linked to a library with the calls of include/qrbill.h."""
    return kit.linked(folder / 'making', kit.compiled(HOST, folder), library)


def differing_makings(program, some):
    """Those whose results are not the expected ones."""
    return [one for one, got in zip(some, results(program, some)) if got != expected(one)]


def making_described(program, making):
    """A text about one whose result is not the expected one."""
    return f'{making}: expected {expected(making)}, got {results(program, [making])}'


BILLS = {case.name: case.payload.split(BREAKS['LF']) for case in CASES
         if case.name in ('base-lf', 'qr-iban-with-qrr')}


def bill_with(making):
    """A bill that holds the number: with a QR reference where the account is a QR-IBAN."""
    number = made(making.kind, making.parts, MOST_MADE)
    qr = making.kind == 'qrr' or (making.kind == 'iban' and 30000 <= int(making.parts[1]) <= 31999)
    lines = list(BILLS['qr-iban-with-qrr' if qr else 'base-lf'])
    lines[3 if making.kind == 'iban' else 28] = number
    return BREAKS['LF'].join(lines)
