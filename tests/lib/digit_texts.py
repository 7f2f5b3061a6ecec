"""Texts for the check digits: as accounts and references of bills, and as accounts of girocodes.

What plain arithmetic on whole numbers says of them, from the paper's paragraph on check digits, is
held to the reference here; tests/host/run holds the libraries to the reference on the payloads. The
texts are the same in each run.
"""

import re
from string import ascii_letters, ascii_uppercase, digits

from casefile import base_bill
from chance import drawn
from reference.qrbill import (NEXT_CARRY, is_creditor_reference, is_iban, mod_97_10_holds,
                              qr_check_digit_holds)

MOST_BYTES = 100  # of a text

DIGITS = digits.encode()
CAPITALS = DIGITS + ascii_uppercase.encode()
LETTERS = DIGITS + ascii_letters.encode()
ANY = bytes(byte for byte in range(256) if byte != ord('\n'))


# The answers.

def decimal_of(byte):
    """What a byte is written as. The paper names digits and letters; another byte is two zeros."""
    character = chr(byte)
    if character in digits:
        return character
    if character in ascii_letters:
        return str(10 + ascii_uppercase.index(character.upper()))
    return '00'


def remainder_97(text):
    """MOD 97-10: the first four characters moved to the end, read as one decimal number."""
    moved = text[4:] + text[:4]
    return int('0' + ''.join(decimal_of(byte) for byte in moved)) % 97


def pair_holds(text):
    """Whether a text of four characters or more has a pair of 02 to 98, and leaves the remainder 1."""
    number = int('0' + ''.join(decimal_of(byte) for byte in text[2:4]))
    return len(text) >= 4 and 2 <= number <= 98 and remainder_97(text) == 1


def check_digit(run):
    """The byte that a run of digits asks for. A byte above the digits counts on from 9, as `:` for
    10; one below them counts as 0."""
    carry = 0
    for byte in run:
        carry = NEXT_CARRY[(carry + max(byte - ord('0'), 0)) % 10]
    return ord('0') + (10 - carry) % 10


def last_digit_holds(text):
    """Whether the 27th byte is the one that the first 26 ask for. A shorter text has none."""
    return len(text) > 26 and text[26] == check_digit(text[:26])


# The texts.

IBANS = [
    b'CH5800791123000889012', b'CH5800791123000889013', b'CH6431961000004421557',
    b'CH4431999123000889012', b'CH9300762011623852957', b'LI21088100002324013AA',
]
CREDITOR_REFERENCES = [
    b'RF18539007547034', b'RF18000000000539007547034', b'RF741',
    b'RF720191230100405JSH0438', b'RF240191230100405JSH0438', b'RF240191230100405jsh0438',
]
QR_REFERENCES = [
    b'210000000003139471430009017', b'210000000003139471430009018',
    b'123456789098765432101234567', b'123456789098765432101234569',
    b'000008207791225857421286694', b'000000000000000000000000000',
]


# Where 97, 98 or 02 is due, 00, 01 or 99 leaves the remainder 1 too.
PAIRS = [
    b'CH9700791123000889086', b'CH0000791123000889086', b'CH9800791123000889068',
    b'CH0100791123000889068', b'CH0200791123000889050', b'CH9900791123000889050',
    b'RF9772', b'RF0072', b'RF9854', b'RF0154', b'RF0236', b'RF9936',
]
# The remainder 1 without a pair; and with pairs that are not digits, which count by what they
# stand for: 10, 2, 1, 100.
NO_PAIRS = [b'1', b'98', b'001', b'RF0A96', b'RF/291', b'RF/154', b'RFA031']


def with_check_pair(letters, rest):
    """The text that begins with two letters and the pair of digits that MOD 97-10 asks for."""
    pair = 98 - remainder_97(letters + b'00' + rest)
    return letters + b'%02d' % pair + rest


def damaged(name, text):
    """The text with one digit of another value, and with two neighbours swapped."""
    place = 4 + drawn(name, bytes(range(len(text) - 5)), 1)[0]
    other = DIGITS[(text[place] + 1) % 10]
    yield text[:place] + bytes([other]) + text[place + 1:]
    yield text[:place] + text[place + 1:place + 2] + text[place:place + 1] + text[place + 2:]


def short_texts():
    """No character; one, at both ends of each kind and beside them; two to five of each kind."""
    yield b''
    for byte in b'\x00\r /09:@AZ[`az{\x7F\x80\xB5\xFF':
        yield bytes([byte])
    for length in range(2, 6):
        for alphabet in (DIGITS, CAPITALS, LETTERS, ANY):
            yield drawn(f'short {length} {len(alphabet)}', alphabet, length)


def ibans():
    """Published ones, and made ones with their damage."""
    yield from IBANS
    for number in range(16):
        name = f'iban {number}'
        country = (b'CH', b'LI')[number % 2]
        right = with_check_pair(country, drawn(name, DIGITS, 5) + drawn(name, CAPITALS, 12))
        yield right
        yield from damaged(name, right)


def creditor_references():
    """Published ones, and made ones of each length: as made, in small letters, and with damage."""
    yield from CREDITOR_REFERENCES
    for length in range(1, 22):
        name = f'creditor reference {length}'
        right = with_check_pair(b'RF', drawn(name, LETTERS, length))
        yield right
        yield right.lower()
        if length > 1:
            yield from damaged(name, right)


def qr_references():
    """Published ones, and made ones with their damage, a digit less and a digit more."""
    yield from QR_REFERENCES
    for number in range(12):
        name = f'qr reference {number}'
        run = drawn(name, DIGITS, 26)
        right = run + bytes([check_digit(run)])
        yield right
        yield from damaged(name, right)
        yield right[1:]
        yield right + b'0'


def long_texts():
    """Any bytes, and digits alone, up to the most that a text has."""
    for length in range(6, MOST_BYTES + 1, 2):
        yield drawn(f'any {length}', ANY, length)
    for length in range(10, MOST_BYTES + 1, 10):
        yield drawn(f'digits {length}', DIGITS, length)


def texts():
    """All texts, in the order in which they are stored."""
    yield from short_texts()
    yield from ibans()
    yield from creditor_references()
    yield from qr_references()
    yield from long_texts()
    yield from PAIRS
    yield from NO_PAIRS


# Where they stand.

QR_ACCOUNT = b'CH6431961000004421557'
GIROCODE = (b'BCD', b'002', b'1', b'SCT', b'', b'Max Mustermann')


def digit_payloads():
    """A bill with each text as its account, as its creditor reference and as its QR reference."""
    for text in texts():
        yield base_bill({4: text})
        yield base_bill({29: text})
        yield base_bill({4: QR_ACCOUNT, 28: b'QRR', 29: text})


def digit_girocodes():
    """A girocode with each text as its account."""
    for text in texts():
        yield b'\n'.join([*GIROCODE, text])


def digit_checks():
    """Each check of the reference as its name, what arithmetic says of a text, and what it says."""
    for text in texts():
        name = text.decode('latin-1')
        if is_iban(name) or is_creditor_reference(name):
            yield f'{name} by MOD 97-10', pair_holds(text), mod_97_10_holds(name)
        if re.fullmatch('[0-9]{27}', name):
            yield f'{name} by modulo 10', last_digit_holds(text), qr_check_digit_holds(name)
