"""Mangled payloads that are mended by the C host (tests/lib/counted_calls.py), and the reference beside it."""

from itertools import product

from casefile import bill_lines
from chance import Dice
from counted_calls import MOST_NUMBERS, CountedCall, Lent
from damage import BILLS, CASES, damaged, lines_of
from reference.mender import COUNTS, MOST_MENDED, Mended, mended

MOST_PAYLOAD, MOST_ROOM = MOST_MENDED + 200, 1000
BREAKS = (b'\n', b'\r\n', b'\r')
NEAR_BREAKS = (b'\r\r\n', b'\n\r', b'\r\n\r', b'\n\n', b'\r\r', b'\r\n\n')
OTHER_SPACES = (b'\t', b'\xC2\xA0', b'\x0B', b'\xE2\x80\x83')  # a tab, no-break space and others stay
BASE = bill_lines('B')
NON = {28: b'NON', 29: b''}


def bill(*others, brk=b'\n', more=()):
    """The base bill with other texts for some lines, and with more lines behind it."""
    texts = [*BASE, *more]
    for lines in others:
        for line, text in lines.items():
            texts[line - 1] = text
    return brk.join(texts)


def lending(payload, room=MOST_ROOM, numbers=COUNTS):
    """A payload with room for what comes of it and numbers for the counts."""
    return Lent(payload, room, numbers)


# Each step at its edges, and all together.

def other_breaks():
    """Breaks of one kind and of two, each break another, and bytes that are near a break, in the front,
    in the middle and behind."""
    for brk in BREAKS:
        yield bill(brk=brk)
        yield bill(brk=brk) + brk
        yield bill(brk=brk, more=(b'', b'eBill/B'))
    for one, other in product(BREAKS, BREAKS):
        for line in (1, 4, 17, 29, 30):
            texts = bill().split(b'\n')
            yield one.join(texts[:line]) + other + one.join(texts[line:])
    for near in NEAR_BREAKS:
        for line in (0, 1, 11, 12, 30, 31):
            texts = bill().split(b'\n')
            yield b'\n'.join(texts[:line]) + near + b'\n'.join(texts[line:])
        yield near.join(bill().split(b'\n'))
        yield near
    yield b'\r'.join(b'' for _ in range(31))


def padded():
    """Spaces behind a line, before it and both, on each line; on all; and bytes that are no spaces."""
    for line in range(1, 32):
        text = BASE[line - 1]
        for spaces in (1, 2, 70):
            pad = spaces * b' '
            for brk in BREAKS:
                yield bill({line: text + pad}, brk=brk)
            yield bill({line: pad + text})
            yield bill({line: pad + text + pad})
        for other in OTHER_SPACES:
            yield bill({line: text + other})
            yield bill({line: text + other + b' '})
            yield bill({line: text + b' ' + other})
    for brk in BREAKS:
        yield (3 * b' ' + brk).join(BASE) + b'  '
        yield (brk + b' ').join(BASE)


def spaced():
    """Spaces within each line: between all characters, at the ends, and alone; with each kind of
    reference."""
    references = {}, NON, {4: b'CH6431961000004421557', 28: b'QRR', 29: b'210000000003139471430009017'}
    for line in range(1, 32):
        for kind in references:
            text = kind.get(line, BASE[line - 1])
            wide = b' '.join(bytes([x]) for x in text)
            for other in (wide, b' ' + wide + b' ', b' ', b'   ', text[:4] + b'  ' + text[4:]):
                yield bill(kind, {line: other})
    yield bill({4: b' CH58 0079 1123 0008 8901 2 ', 29: b'RF18 5390 0754 7034'}, brk=b'\r\n')


def ended():
    """31 to 40 lines, of which the last are empty or become empty, with a line that is not; too few
    lines, and an empty line 31."""
    for count in range(1, 11):
        for empty in (b'', b' ', b'   '):
            for brk in BREAKS:
                yield bill(brk=brk, more=count * [empty])
        for at in range(min(count, 4)):
            lines = count * [b'']
            lines[at] = b'//S1' if at == 0 else b'eBill/B'
            yield bill(more=lines)
            yield bill(more=[line + b' ' for line in lines])
    for left in (29, 30):
        yield b'\n'.join(BASE[:left]) + b'\n\n'
    yield bill({31: b''}, more=(b'', b''))
    yield bill({31: b' '}, more=(b' ', b' '))
    yield bill() + 3962 * b'\n'
    yield bill() + 1981 * b'\r\n'


def sizes():
    """No bytes, spaces and breaks alone, 4,096 bytes and 4,097, and mended ones of 997 and 998."""
    yield b''
    for one in (b' ', b'\n', b'\r', b'\r\n', b' \n'):
        for count in (1, 2, 31, 40):
            yield count * one
    for size in (MOST_MENDED - 1, MOST_MENDED, MOST_MENDED + 1, MOST_PAYLOAD):
        yield bill().ljust(size)
        yield bill({6: b'Muster'.ljust(size - len(bill()) + len(BASE[5]))})
        yield bill().ljust(size, b'\n')
        yield size * b' '
        yield size * b'\r'
        yield bill(brk=b'\r').ljust(size, b'x')
    for size in (996, 997, 998, 999):
        yield bill({30: b'm' * (size - len(bill()) + len(BASE[29]))})
        yield bill(brk=b'\r').ljust(size)
        yield bill({30: b'm ' * 70}, brk=b'\r\n').ljust(size)


def bad_characters():
    """Bytes that begin no character, before a step's places and behind them."""
    for bad in (b'\0', b'\x07', b'\x7F', b'\xC3', b'\xFF', b'\xE2\x82'):
        for line in (1, 3, 4, 6, 29, 30, 31):
            text = BASE[line - 1]
            for brk in BREAKS:
                yield bill({3: b'1 ', line: text + bad}, brk=brk)
                yield bill({line: bad + text + b' '}, brk=brk)
        yield bill() + bad
        yield bill(brk=b'\r') + b'\n\n' + bad


def mailed():
    """As mail programs leave a payload: wrapped, flowed, quoted, indented, with breaks of their own and
    a line at the end; quoted-printable, which is not mended."""
    text = bill({4: b'CH58 0079 1123 0008 8901 2', 29: b'RF18 5390 0754 7034'})
    for brk in BREAKS:
        yield text.replace(b'\n', brk) + brk
        yield text.replace(b'\n', b' ' + brk) + brk + brk
        yield b'> ' + text.replace(b'\n', brk + b'> ')
        yield b'  ' + text.replace(b'\n', brk + b'  ')
        yield text.replace(b'\n', brk) + brk + b'-- ' + brk
        yield bill().replace(b'\n', b'=' + brk)
        yield bill({6: b'Schule =' + brk + b'Muster'})
        yield bill({6: b'Z=C3=BCrich'}, brk=brk)
        yield b'\xEF\xBB\xBF' + bill(brk=brk)
        yield bill({30: b'Kurs' + brk + b'Mai'})


def lent():
    """Mangled payloads with just enough room, one byte less, none, and too few numbers."""
    for payload in (bill(), bill(brk=b'\r\n'), bill(brk=b'\r'), bill({4: b'CH58 0079 1123 0008 8901 2'}),
                    bill(more=(b'', b'')), bill({1: b'SPD'}), bill() + 5000 * b' ', b'', b' '):
        payload = payload[:MOST_PAYLOAD]
        made = mended(payload, MOST_ROOM)
        size = len(made.data) if isinstance(made, Mended) else 0
        for room in sorted({0, 1, max(size - 1, 0), size, min(size + 1, MOST_ROOM), MOST_ROOM}):
            for numbers in (0, COUNTS - 1, COUNTS, MOST_NUMBERS):
                yield lending(payload, room, numbers)


def mangled():
    """Each payload at an edge; some of them with all that may be lent."""
    for some in (other_breaks, padded, spaced, ended, sizes, bad_characters, mailed):
        yield from map(lending, some())
    yield from (lending(case.payload) for case in CASES if len(case.payload) <= MOST_PAYLOAD)
    yield from lent()


# By chance.

def random_mangled(seed, count):
    """Accepted bills, one in eight damaged, that are mangled by chance; one in eight with little
    room."""
    dice = Dice(seed)
    spoiled = damaged(seed, count)
    for _ in range(count):
        payload = next(spoiled) if dice.below(8) == 0 else dice.pick(BILLS)
        room = dice.below(MOST_ROOM) if dice.below(8) == 0 else MOST_ROOM
        yield lending(mangled_by(dice, payload)[:MOST_PAYLOAD], room, COUNTS - (dice.below(16) == 0))


def mangled_by(dice, payload):
    """A payload with other breaks, spaces and last lines."""
    lines = lines_of(payload)
    for _ in range(dice.below(4)):
        at = dice.below(len(lines))
        lines[at] += dice.below(5) * b' '
    for line in (4, 29):
        if len(lines) >= line and dice.below(3) == 0:
            lines[line - 1] = spread(dice, lines[line - 1])
    if dice.below(16) == 0:
        at = dice.below(len(lines))
        lines[at] = spread(dice, lines[at])
    lines += [dice.below(3) * b' ' for _ in range(dice.below(6))] if dice.below(3) == 0 else []
    kinds = dice.pick(((b'\n',), (b'\r\n',), (b'\r',), BREAKS))
    brokenly = [line + dice.pick(kinds) for line in lines[:-1]]
    return b''.join(brokenly) + lines[-1]


def spread(dice, text):
    """A text with spaces before, behind and within it, by chance."""
    every = dice.pick((1, 4, 5))
    parts = [text[at:at + every] for at in range(0, len(text), every)]
    return dice.below(2) * b' ' + b' '.join(parts) + dice.below(3) * b' '


# The call.

def given(payload, room, numbers):
    """What it should give."""
    made = mended(payload, room, numbers)
    if isinstance(made, Mended):
        return len(made.data), made.data, made.counts
    return 1000 * made.number + made.line, b'', ()


MEND = CountedCall('qrbill_mend', MOST_PAYLOAD, MOST_ROOM, given)
