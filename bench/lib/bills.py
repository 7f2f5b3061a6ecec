"""The bills and texts that calls are counted on, each by the name of its row."""

from damage import CASES
from mending import bill as mangled
from reference.qrbill import MOST_BYTES
from seasons import COMBINED, COMBINED_DEBTOR, GREATEST, QRR_IN_EUROS
from swift import REFERENCES, bill, longest_bills

CASE = {case.name: case.payload for case in CASES}
BASE, LONGEST = CASE['base-lf'], CASE['2.4-section-6.2-997-bytes']
READ = {
    '31 lines, LF': BASE,
    '31 lines, CR LF': CASE['base-crlf'],
    '34 lines, LF': CASE['bill-f-lf'],
    '34 lines, CR LF': CASE['bill-f-crlf'],
    'longest': LONGEST,
    'refused 6, line 1': CASE['2.4-table-8-line-1-other-type'],
    'refused 13, line 32': CASE['message-of-137-with-billing-text'],
}
LETTERS = b'LI4208810ABCDEFGHIJKL'
GLANCE = {
    **READ,
    'begins as the first': BASE.ljust(MOST_BYTES, b'x'),
    'letters, CR LF': b'\r\n'.join([*BASE.split(b'\n')[:3], LETTERS, b'']),
    '37 times CR': 37 * b'\r',
}
NUMBERS = {
    'qrr': {'26 digits': b'21000000000313947143000901', 'all zero': 26 * b'0'},
    'scor': {'12 digits': b'539007547034', '21 letters': b'ABCDEFGHIJKLMNOPQRSTU', 'one': b'1'},
    'iban': {'digits': b'CH00791123000889012', 'letters': b'LI08810ABCDEFGHIJKL'},
}
SWIFT = {
    'base bill': BASE,
    'base bill, CR LF': CASE['base-crlf'],
    '34 lines': CASE['bill-f-lf'],
    'longest texts': next(longest_bills()),
    'a message of ü': bill({30: 140 * 'ü'}),
    'no amount': bill({19: ''}),
}
SPACED = {4: b'CH58 0079 1123 0008 8901 2', 29: b'RF18 5390 0754 7034'}
MEND = {
    'base bill, as it is': BASE,
    'lone CR': mangled(brk=b'\r'),
    'CR LF, spaced, padded': mangled(SPACED, {30: b'Kurs Mai  '}, brk=b'\r\n', more=(b'', b'')),
    'each line padded': b'   \n'.join(mangled().split(b'\n')),
    '34 lines, CR': CASE['bill-f-lf'].replace(b'\n', b'\r'),
    'refused 6, line 1': mangled({1: b'SPD'}),
    '4,097 bytes': 4097 * b' ',
}
MEND_MORE = {
    'longest, CR': CASE['2-of-997-bytes'].replace(b'\n', b'\r'),
    'base and 3,962 spaces': mangled().ljust(4096),
}
HAND = {'base bill': BASE, 'longest': LONGEST}
BITS = 1, 7, 64  # bytes of each
SHORTEST = {**COMBINED, 6: 'n', 7: '', 8: 't', **REFERENCES['NON'], 30: ''}
SEASON = {
    '31 lines, LF': BASE,
    '31 lines, CR LF': CASE['base-crlf'],
    '34 lines, LF': CASE['bill-f-lf'],
    'longest': LONGEST,
    'without amount': bill({19: ''}),
    '999999999.99': bill(GREATEST),
    '0.01 EUR': bill({19: '0.01', 20: 'EUR'}),
    'QRR with EUR': bill(QRR_IN_EUROS),
    'type K': bill(COMBINED),
    'type K, 999999999.99': bill(COMBINED, GREATEST),
    'type K, shortest': bill(SHORTEST),
    'the same, 999999999.99': bill(SHORTEST, GREATEST),
    'both of type K': bill(COMBINED, COMBINED_DEBTOR),
    'type K, refused 10, line 20': bill(COMBINED, {20: 'USD'}),
    'refused 6, line 1': READ['refused 6, line 1'],
    'refused 13, line 32': READ['refused 13, line 32'],
    'no bytes': b'',
}
