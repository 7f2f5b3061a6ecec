"""Girocodes to try from C: every case, and as many damaged ones as are asked for, near every limit.

A damaged one begins as a short girocode of either version and coding that ends with any line it may
end with. Mostly one of its limited lines is made about as long as it may be, in characters of one
byte, of two or three, or in bytes of ISO 8859-1. Then come up to three damages.
"""

from casefile import FOLDER, read_cases
from chance import Dice
from digit_texts import with_check_pair
from reference.girocode import FEWEST_LINES, MOST_BYTES, MOST_LINES, TOO_LONG

CASES = read_cases(FOLDER / 'girocode')
BREAKS = (b'\n', b'\r\n')
VERSIONS = (b'001', b'002')
SHORT = {8: b'EUR1', 9: b'A', 10: b'R', 11: b'T', 12: b'D'}  # texts of the lines that may be absent
REFERENCE, TEXT = 10, 11
CHARACTERS = {  # that a long text may have in a coding: of each width, and from A0 to FF
    b'1': tuple(sign.encode() for sign in 'nüÿ€'),
    b'2': (b'n', b'\xA0', b'\xBF', b'\xC3', b'\xFC', b'\xFF'),
}
BICS = (b'GIBAATWW', b'GENODEF1KIL', b'12345678', b'09AZ09AZ09A')


def accounts(*lengths):
    """IBANs with their due pair and so many digits, or letters, behind it."""
    return tuple(with_check_pair(b'AT', length * sign) for length in lengths for sign in (b'1', b'Z'))


IBANS = accounts(1, 2, 16, 29, 30)

# For each line texts that are right, and such as just break a rule.
TEXTS = {
    1: (b'BCD', b'BCE', b'bcd', b'BC', b'BCDE', b'BCD ', b' BCD', b''),
    2: (*VERSIONS, b'003', b'000', b'01', b'0001', b'002 ', b''),
    3: (*(b'%d' % coding for coding in range(10)), b'22', b'33', b'2 ', b'A', b''),
    4: (b'SCT', b'SDD', b'INST', b'sct', b'SCTX', b'SCT ', b''),
    5: (b'', *BICS, b'GIBAATW', b'GIBAATWWX', b'GIBAATWWXX', b'GIBAATWWXXXX', b'GIBAATWw',
        b'gENODEF1KIL'),
    6: (b'', b' ', b'A', b'A\xFC', b'A\x9F', 'A€'.encode()),
    7: (b'', *IBANS, *accounts(0, 31), b'AT682011131032423628', b'AT682011131032423629',
        b'AT972011131032423009', b'AT002011131032423009', b'AT022011131032423070',
        b'AT992011131032423070', b'A8881', b'ATA81', b'AT8A1', b'at881', b'XX14a', b'AT68 201'),
    8: (b'', b'EUR0.01', b'EUR0.2', b'EUR45', b'EUR999999999', b'EUR999999999.99', b'EUR184.60',
        b'EUR.5', b'EUR45.', b'EUR0', b'EUR0.00', b'EUR00.1', b'EUR01', b'EUR1000000000',
        b'EUR1.234', b'EUR1,5', b'eur1', b'EUR', b'1EUR'),
    9: (b'', b'GDDS', b'GDDSA', b' ~', 'ü'.encode(), b'\xA0'),
    10: (b'', b'457845789452', b' ~', 'ü'.encode(), b'\xFF'),
    11: (b'', b'Re 789452', 'ü'.encode(), b'\xFC'),
    12: (b'', b'Diverse', 'ü'.encode(), b'\xFC'),
}
SPOILERS = b'\x00\x0A\x0D\x1F\x20\x32\x41\x7F\x80\x9F\xA0\xBF\xC3\xE2\xFC\xFF'


# Where a damaged one begins.

def short(dice):
    """The lines of a short girocode that keeps the rules, up to any line that may be the last."""
    version, last = dice.pick(VERSIONS), dice.pick(range(FEWEST_LINES, MOST_LINES + 1))
    bic = dice.pick(BICS if version == b'001' else (b'', *BICS))
    lines = [b'BCD', version, dice.pick((b'1', b'2')), b'SCT', bic, b'A', dice.pick(IBANS)]
    for number, text in SHORT.items():
        lines.append(text if number == last or dice.below(3) == 0 else b'')
    stand_alone(lines, dice.pick((REFERENCE, TEXT)) if last == MOST_LINES else last)
    return lines[:last]


def stand_alone(lines, number):
    """Where a reference or a text is put, the other is taken out."""
    if number in (REFERENCE, TEXT) and len(lines) >= TEXT:
        lines[REFERENCE + TEXT - number - 1] = b''


def stretch(dice, lines):
    """A limited line, the last or one of twelve, gets as many characters as it may have, one less or
    one more: letters, and of another kind one, half of them or all."""
    number = dice.pick(tuple(TOO_LONG))
    count = TOO_LONG[number] - 1 + dice.below(3)
    others = dice.pick((1, count // 2, count))
    if len(lines) < MOST_LINES:
        lines += (number - len(lines)) * [b'']
        del lines[max(number, FEWEST_LINES):]
    lines[number - 1] = (count - others) * b'n' + others * dice.pick(CHARACTERS[lines[2]])
    stand_alone(lines, number)


# The damages. Each takes the dice and the lines, and changes those.

def change_line(dice, lines):
    """A line gets another text of its list."""
    number = 1 + dice.below(min(len(lines), MOST_LINES))
    lines[number - 1] = dice.pick(TEXTS[number])


def change_byte(dice, lines):
    """A byte of a line becomes another."""
    at = dice.below(len(lines))
    if lines[at]:
        place = dice.below(len(lines[at]))
        spoiled = bytes([dice.pick(SPOILERS)])
        lines[at] = lines[at][:place] + spoiled + lines[at][place + 1:]


def lose_line(dice, lines):
    """A line is lost."""
    if len(lines) > 1:
        del lines[dice.below(len(lines))]


def add_line(dice, lines):
    """A line comes twice, or an empty one comes in; half the time at the end."""
    at = dice.below(len(lines))
    lines.insert(dice.pick((at, len(lines))), dice.pick((lines[at], b'')))


def end_early(dice, lines):
    """The last lines are lost."""
    del lines[5 + dice.below(8):]


def fill_both(dice, lines):
    """Reference and text are both filled."""
    for number in (REFERENCE, TEXT):
        if number <= len(lines):
            lines[number - 1] = lines[number - 1] or dice.pick((b'A', b' '))


def fill_up(dice, lines):
    """Name and text are as long as they may be, and the display such that there are about as many
    bytes as there may be, with LF."""
    if len(lines) == MOST_LINES:
        lines[5], lines[9], lines[10], lines[11] = 70 * b'n', b'', 140 * b'n', b''
        lines[11] = (MOST_BYTES - 2 + dice.below(5) - len(b'\n'.join(lines))) * b'n'


DAMAGES = (change_line, change_line, change_line, change_byte, lose_line, add_line, end_early,
           fill_both, fill_up)


def damaged(seed, count):
    """So many damaged girocodes; the same for the same seed."""
    dice = Dice(seed)
    for _ in range(count):
        lines, brk = short(dice), dice.pick(BREAKS)
        if dice.below(4):
            stretch(dice, lines)
        for _ in range(dice.below(4)):
            dice.pick(DAMAGES)(dice, lines)
        payload = brk.join(lines)
        if dice.below(10) == 0:
            payload = payload.replace(brk, dice.pick(BREAKS), 1)
        if dice.below(20) == 0:
            payload = payload[:dice.below(len(payload) + 1)]
        yield payload


def payloads(seed, count):
    """Every case, and damaged ones."""
    return [case.payload for case in CASES] + list(damaged(seed, count))
