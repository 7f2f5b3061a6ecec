"""Bills whose SWIFT fields are made by the C host (tests/lib/counted_calls.py), and the reference beside it."""

from casefile import bill_lines
from chance import Dice
from counted_calls import MOST_NUMBERS, CountedCall, Lent
from damage import BILLS, CASES, damaged
from reference.swift import COUNTS, Fields, fields

MOST_PAYLOAD, MOST_ROOM = 2000, 400

BASE = bill_lines('B')
REFERENCES = {  # the account beside each kind of reference
    'NON': {28: 'NON', 29: ''}, 'SCOR': {},
    'QRR': {4: 'CH6431961000004421557', 28: 'QRR', 29: '210000000003139471430009017'},
}
# Every allowed character: each becomes a character of the x set, or a full stop.
ALLOWED = [*map(chr, range(0x20, 0x7F)), *map(chr, range(0xA0, 0x180)),
           *map(chr, range(0x218, 0x21C)), '€']


def mapping(payload, room=MOST_ROOM, numbers=COUNTS):
    """A payload with room for its fields and numbers for the counts."""
    return Lent(payload, room, numbers)


def bill(*others):
    """The base bill with other texts for some lines."""
    texts = [text.decode() for text in BASE]
    for lines in others:
        for line, text in lines.items():
            texts[line - 1] = text
    return '\n'.join(texts).encode()


def drawn(size, at, character):
    """So many letters, one of them another character."""
    return (at * 'n' + character + size * 'n')[:size]


# Bills at the edges of each field.

PRINTED = (  # the examples of 003's table; its QR reference has 26 digits, and is none
    {28: 'SCOR', 29: 'RF720191230100405JSH0438', 30: 'Rechnung 123, Ihr Konto 45'},
    {28: 'QRR', 29: '00000000000000000000123457'},
)


def cut_lines():
    """Names, streets and towns that end at the cut or past it, with wide characters there."""
    for character in ('n', 'ü', '€', ':', '-', '@'):
        for size in (1, 31, 32, 33, 34, 35, 36, 70):
            for at in (0, 29, 30, 31, 32, 33, 34):
                yield bill({6: drawn(size, at, character)})
                yield bill({7: drawn(size, at, character), 8: ''})
        for size in (23, 24, 25, 26, 27, 28, 32, 33, 34, 35, 36, 70):
            for at in (0, 22, 23, 24, 25, 26, 27, 34):
                yield bill({10: drawn(size, at, character)})


def streets():
    """Both, one or none of street and number, short and about the cut."""
    for street in ('', 's', 31 * 's', 32 * 's', 33 * 's', 34 * 's', 70 * 's'):
        for number in ('', '4', 16 * '4', ':', '-'):
            yield bill({7: street, 8: number})


def messages():
    """Messages about the ends of the rows, for each kind of reference; a colon or hyphen at each
    row's start, at its end and behind it."""
    for kind in REFERENCES.values():
        for size in (0, 1, 34, 35, 36, 69, 70, 71, 104, 105, 106, 139, 140):
            for character in ('n', 'ü', '€'):
                yield bill(kind, {30: size * character})
        for row in range(5):
            for place in (-1, 0, 1):
                for character in (':', '-', 'ü', ' '):
                    at = 35 * row + place
                    yield bill(kind, {30: drawn(140, max(at, 0), character)})


def characters():
    """Every allowed character, in a name and at the front of a message."""
    for character in ALLOWED:
        yield bill({6: 'n' + character})
        yield bill(REFERENCES['NON'], {30: character + 'n'})


def longest_bills():
    """Bills with the longest fields of all, for each kind of reference and of break."""
    longest = {6: 70 * 'n', 7: 70 * 's', 8: 16 * '4', 9: 16 * 'p', 10: 35 * 't',
               19: '999999999.99', 30: 140 * 'm'}
    for kind in REFERENCES.values():
        yield bill(kind, longest)
        yield bill(kind, longest).replace(b'\n', b'\r\n')


def others():
    """No amount, other currencies and amounts, the longest fields, what is printed, and all cases."""
    yield bill({19: ''})
    yield bill({19: '', 20: 'USD'})
    for amount in ('0.01', '1.00', '999999999.99'):
        for currency in ('CHF', 'EUR'):
            yield bill({19: amount, 20: currency})
    yield from longest_bills()
    yield from (bill(lines) for lines in PRINTED)
    yield from (case.payload for case in CASES if len(case.payload) <= MOST_PAYLOAD)


def lent(payload):
    """A payload with just enough room, one byte less, none, and too few numbers for the counts."""
    made = fields(payload, MOST_ROOM)
    size = len(made.data) if isinstance(made, Fields) else 0
    for room in {0, max(size - 1, 0), size, MOST_ROOM}:
        for numbers in (0, COUNTS - 1, COUNTS, MOST_NUMBERS):
            yield mapping(payload, room, numbers)


def mappings():
    """Each bill at an edge; some of them with all that may be lent."""
    for some in (cut_lines, streets, messages, characters, others):
        yield from map(mapping, some())
    for payload in (bill(), bill({19: ''}), bill({1: 'SPD'}), b'', *longest_bills()):
        yield from lent(payload)


def random_mappings(seed, count):
    """Accepted bills whose texts are drawn by chance, one in four damaged; one in eight with little
    room."""
    dice = Dice(seed)
    spoiled = damaged(seed, count)
    for _ in range(count):
        payload = next(spoiled) if dice.below(4) == 0 else drawn_bill(dice)
        room = dice.below(MOST_ROOM) if dice.below(8) == 0 else MOST_ROOM
        yield mapping(payload[:MOST_PAYLOAD], room, COUNTS - (dice.below(16) == 0))


def drawn_bill(dice):
    """A bill with texts by chance, up to their limits."""
    if dice.below(4) == 0:
        return dice.pick(BILLS)
    sizes = {6: 70, 7: 70, 8: 16, 9: 16, 10: 35, 30: 140}
    texts = {line: text_of(dice, most) for line, most in sizes.items() if dice.below(3)}
    for line in (6, 9, 10):
        texts[line] = texts.get(line) or 'x'
    return bill(dice.pick(list(REFERENCES.values())), texts)


def text_of(dice, most):
    """A text by chance: mostly of the x set, of few other characters, and with its front drawn too."""
    alphabet = dice.pick(('nm 1', 'nü€', ':-n', "/-?:().,'+", ALLOWED))
    return ''.join(dice.pick(alphabet) for _ in range(dice.below(most + 1)))


# The call.

def given(payload, room, numbers):
    """What it should give."""
    made = fields(payload, room, numbers)
    if isinstance(made, Fields):
        return len(made.data), made.data, (*made.lines, made.cut, made.replaced)
    return 1000 * made.number + made.line, b'', ()


SWIFT = CountedCall('qrbill_swift', MOST_PAYLOAD, MOST_ROOM, given)
