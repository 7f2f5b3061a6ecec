"""Damaged bills and other payloads to try: the same in each run.

A damaged bill is an accepted payload of the case files with one to three damages.

As a command, `python3 tests/lib/damage.py [SEED [COUNT]]`, it prints how often each answer comes.
"""

import re
import sys
from collections import Counter

from casefile import read_cases
from chance import Dice
from reference.qrbill import MOST_BYTES, MOST_CHARACTERS, Accepted, read

CASES = read_cases()
BILLS = list(dict.fromkeys(case.payload for case in CASES if case.answer.startswith('accepted')))
BASE_BILLS = [case.payload for case in CASES if case.name in ('base-lf', 'base-crlf')]
SAMPLES = [case.payload for case in CASES if case.file.startswith('published-')]

# Characters of two and three bytes: the ends of what is allowed, and their neighbours outside.
WIDE = ('\u00A0', '\u017F', '\u0218', '\u021B', '\u20AC',
        '\u009F', '\u0180', '\u0217', '\u021C', '\u20AB', '\u20AD')
HALVES = (b'\xC2', b'\xC3', b'\xC8', b'\xE2', b'\xE2\x82', b'\x82', b'\xAC', b'\xBC')
FILLS = ('x', '\u00FC', '\u20AC')


# The damages. Each takes the dice and a payload that is not empty, and gives another payload; or
# the same, where there is nothing of its kind to damage.

def change_byte(dice, payload):
    """One byte becomes any byte."""
    at = dice.below(len(payload))
    return payload[:at] + bytes([dice.below(256)]) + payload[at + 1:]


def remove_byte(dice, payload):
    """One byte is lost."""
    at = dice.below(len(payload))
    return payload[:at] + payload[at + 1:]


def double_byte(dice, payload):
    """One byte comes twice."""
    at = dice.below(len(payload))
    return payload[:at + 1] + payload[at:]


def swap_bytes(dice, payload):
    """One byte and the next change places."""
    at = dice.below(len(payload))
    return payload[:at] + payload[at + 1:at + 2] + payload[at:at + 1] + payload[at + 2:]


def change_digit(dice, payload):
    """One digit becomes any digit."""
    return replace_one(dice, payload, rb'[0-9]', b'%d' % dice.below(10))


def widen_character(dice, payload):
    """One character becomes a character of two or three bytes, allowed or not."""
    return replace_one(dice, payload, rb'[ -~]', dice.pick(WIDE).encode())


def halve_character(dice, payload):
    """One character becomes a part of a character of two or three bytes."""
    return replace_one(dice, payload, rb'[ -~]', dice.pick(HALVES))


def change_break(dice, payload):
    """One break becomes one of the other kind."""
    brk = break_of(payload)
    return replace_one(dice, payload, brk, b'\n' if brk == b'\r\n' else b'\r\n')


def remove_break(dice, payload):
    """One break is lost."""
    return replace_one(dice, payload, break_of(payload), b'')


def add_break(dice, payload):
    """A break of the same kind comes in; half the time at the end."""
    at = dice.pick([dice.below(len(payload)), len(payload)])
    return payload[:at] + break_of(payload) + payload[at:]


def remove_line(dice, payload):
    """One line is lost with its break."""
    lines = lines_of(payload)
    del lines[dice.below(len(lines))]
    return joined(lines, payload)


def double_line(dice, payload):
    """One line comes twice."""
    lines = lines_of(payload)
    at = dice.below(len(lines))
    lines.insert(at, lines[at])
    return joined(lines, payload)


def empty_line(dice, payload):
    """One line loses its text and keeps its break."""
    lines = lines_of(payload)
    lines[dice.below(len(lines))] = b''
    return joined(lines, payload)


def swap_lines(dice, payload):
    """Two lines change places."""
    lines = lines_of(payload)
    one, two = dice.below(len(lines)), dice.below(len(lines))
    lines[one], lines[two] = lines[two], lines[one]
    return joined(lines, payload)


def copy_field(dice, payload):
    """A line becomes that line of another bill; one in which the two differ, if there is one."""
    lines, others = lines_of(payload), lines_of(dice.pick(BILLS))
    both = range(min(len(lines), len(others)))
    at = dice.pick([at for at in both if lines[at] != others[at]] or both)
    lines[at] = others[at]
    return joined(lines, payload)


def copy_account(dice, payload):
    """The account becomes that of another bill."""
    return copy_lines(dice, payload, 4, 4)


def copy_reference(dice, payload):
    """The reference and its type become those of another bill."""
    return copy_lines(dice, payload, 28, 29)


def stretch_text(dice, payload):
    """A text is lengthened to its limit or one character more."""
    number = dice.pick(list(MOST_CHARACTERS))
    lines = with_line(number, payload)
    stretch(dice, lines, number, MOST_CHARACTERS[number] + dice.below(2))
    return joined(lines, payload)


def stretch_together(dice, payload):
    """The message is lengthened to the limit of lines 30 and 32 together, or one more."""
    lines = with_line(32, payload)
    lines[31] = lines[31] or b'//S1'
    stretch(dice, lines, 30, 140 + dice.below(2) - characters(lines[31]))
    return joined(lines, payload)


def lengthen(dice, payload):
    """Spaces come in, up to the most bytes of a payload or a few more."""
    at = dice.below(len(payload) + 1)
    spaces = MOST_BYTES + dice.below(4) - len(payload)
    return payload[:at] + spaces * b' ' + payload[at:]


def cut_short(dice, payload):
    """The end is lost; one time in four there is nothing left."""
    end = dice.below(len(payload)) if dice.below(4) else 0
    return payload[:end]


def glue(dice, payload):
    """Another bill follows, after a break or at once."""
    return payload + dice.pick([b'', b'\n', b'\r\n']) + dice.pick(BILLS)


DAMAGES = (
    change_byte, remove_byte, double_byte, swap_bytes,
    change_digit, widen_character, halve_character,
    change_break, remove_break, add_break,
    remove_line, double_line, empty_line, swap_lines,
    copy_field, copy_account, copy_reference,
    stretch_text, stretch_together, lengthen, cut_short, glue,
)


def replace_one(dice, payload, pattern, text):
    """The payload with a text in place of one match of a pattern."""
    found = list(re.finditer(pattern, payload))
    if not found:
        return payload
    start, end = dice.pick(found).span()
    return payload[:start] + text + payload[end:]


def break_of(payload):
    """The kind of break of a payload."""
    return b'\r\n' if b'\r\n' in payload else b'\n'


def lines_of(payload):
    """The lines of a payload."""
    return payload.split(break_of(payload))


def with_line(number, payload):
    """The lines of a payload, and empty ones up to that number."""
    lines = lines_of(payload)
    return lines + (number - len(lines)) * [b'']


def joined(lines, payload):
    """The lines with the breaks of the payload that they come from."""
    return break_of(payload).join(lines)


def copy_lines(dice, payload, first, last):
    """The payload with the first to the last line from another bill."""
    lines, others = with_line(last, payload), lines_of(dice.pick(BILLS))
    lines[first - 1:last] = others[first - 1:last]
    return joined(lines, payload)


def characters(text):
    """How many characters a text has; a bad byte counts as one."""
    return len(text.decode('utf-8', 'replace'))


def stretch(dice, lines, number, length):
    """Lengthen a line to that many characters; an empty one as billing information."""
    text = lines[number - 1] or b'//S1'
    lines[number - 1] = text + (length - characters(text)) * dice.pick(FILLS).encode()


# The payloads.

def damaged(seed, count, bills=tuple(BILLS), damages=DAMAGES):
    """So many damaged bills; the same for the same seed."""
    dice = Dice(seed)
    for _ in range(count):
        payload = dice.pick(bills)
        for _ in range(1 + dice.below(3)):
            if payload:
                payload = dice.pick(damages)(dice, payload)
        yield payload


def prefixes():
    """Every prefix of every published sample, each once."""
    found = (sample[:end] for sample in SAMPLES for end in range(len(sample) + 1))
    yield from dict.fromkeys(found)


def short():
    """All payloads of up to two bytes."""
    yield b''
    for one in range(256):
        yield bytes([one])
        for two in range(256):
            yield bytes([one, two])


def single_byte_changes():
    """Every change of one byte of the base bill, with either break."""
    for bill in BASE_BILLS:
        for at, old in enumerate(bill):
            for new in range(256):
                if new != old:
                    yield bill[:at] + bytes([new]) + bill[at + 1:]


# The command.

def distribution(payloads):
    """How often each refusal comes; 0 stands for an acceptance."""
    answers = map(read, payloads)
    return Counter(0 if isinstance(answer, Accepted) else answer.number for answer in answers)


def main(seed='1', count='20000'):
    """Print the distribution of damaged bills."""
    for number, times in sorted(distribution(damaged(int(seed), int(count))).items()):
        name = f'refused {number}' if number else 'accepted'
        print(f'{name:10} {times:8} {100 * times / int(count):6.2f} %')


if __name__ == '__main__':
    main(*sys.argv[1:])
