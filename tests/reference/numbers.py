"""Numbers made from their parts, by the paper's request E6: the other way round than one would
reckon them. Every check pair, or every last digit, is tried; the one that passes is the answer."""

import re
from functools import cache

from reference.qrbill import mod_97_10_holds, qr_check_digit_holds

PAIRS = [f'{pair:02}' for pair in range(100)]
DIGITS = '0123456789'
BAD_FORM, NO_ROOM = 10, 15


def only(texts):
    """The one text of these."""
    text, = texts
    return text


@cache
def qrr(digits: str):
    """The QR reference of 26 digits, or None."""
    if not re.fullmatch('[0-9]{26}', digits) or digits == 26 * '0':
        return None
    return only(digits + last for last in DIGITS if qr_check_digit_holds(digits + last))


@cache
def scor(reference: str):
    """The creditor reference of 1 to 21 letters or digits, or None."""
    if not re.fullmatch('[A-Za-z0-9]{1,21}', reference):
        return None
    return only(text for pair in PAIRS if mod_97_10_holds(text := 'RF' + pair + reference))


@cache
def iban(country: str, iid: str, account: str):
    """The IBAN of CH or LI, five digits and twelve of 0-9 A-Z, or None."""
    parts = re.fullmatch('(CH|LI) ([0-9]{5}) ([0-9A-Z]{12})', f'{country} {iid} {account}')
    if not parts:
        return None
    return only(text for pair in PAIRS
                if mod_97_10_holds(text := country + pair + iid + account))


MAKERS = {'qrr': qrr, 'scor': scor, 'iban': iban}


def made(kind: str, parts: list, room: int):
    """The bytes of the number, or the refusal: 10 for the form, then 15 for the room."""
    text = MAKERS[kind](*(part.decode('latin-1') for part in parts))
    if text is None:
        return BAD_FORM
    return NO_ROOM if room < len(text) else text.encode()
