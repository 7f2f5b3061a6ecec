"""Payloads to glance at: about the 37 bytes that are looked at, and about what ends line 4."""

from casefile import bill_lines
from chance import Dice

BASE = bill_lines('B')
BREAKS = (b'\n', b'\r\n')
IBANS = (
    b'CH5800791123000889012', b'LI21088100002324013AA', b'LI4208810ABCDEFGHIJKL',
    b'CH580079112300088901', b'CH58007911230008890123',  # one character too few, one too many
    b'CH5800791123000889013', b'CH5800791123000889O12', b'CH580079112300088901a',
    b'LI5800791123000889012', b'DE5800791123000889012', b'ch5800791123000889012', b'',
)
ENDS = (b'', b'\r', b'\n', b'\r\n', b'\rx', b'x', b'\n\r')
FOLLOWERS = (b'', b'S', b'\nS', b'\r\nS', 20 * b'\x00', 960 * b'\xFF')
DAMAGED = 4000


def prefixes():
    """Every prefix of the base bill of up to 40 bytes, alone and followed by anything."""
    for brk in BREAKS:
        bill = brk.join(BASE)
        for end in range(41):
            for follower in FOLLOWERS:
                yield bill[:end] + follower


def accounts():
    """Accounts, right and wrong, with each kind of break after each line; the end of line 4 lies
    before, at and behind byte 37."""
    for first in BREAKS:
        for second in BREAKS:
            for third in BREAKS:
                front = b'SPC' + first + b'0200' + second + b'1' + third
                for iban in IBANS:
                    for end in ENDS:
                        yield front + iban + end


def lengths():
    """36, 37 and 38 bytes, and a CR as byte 37 with and without LF after it."""
    for front in (b'SPC\r\n0200\r\n1\r\n', b'SPC\n0200\n1\n', b'SPC\n0200\n1\r\n'):
        line = front + IBANS[0]
        for more in (b'', b'\r', b'\n', b'\r\n', b'\r\nS', b'\rS'):
            yield line + more
            padded = front + IBANS[0] + (36 - len(line)) * b'x'
            yield padded + more
    for size in (36, 37, 38):
        yield b'\n'.join(BASE)[:size]
        yield b'\r\n'.join(BASE)[:size]


def other_bytes():
    """Bytes that no bill may hold: in line 1, between the lines and after line 4."""
    for brk in BREAKS:
        for bad in (b'\x00', b'\x07', b'\xC3', b'\xFF', b'\r'):
            for number in range(4):
                lines = list(BASE)
                lines[number] += bad
                yield brk.join(lines)
            yield brk.join(BASE[:4]) + brk + bad
            yield brk.join(BASE[:4]) + brk + 900 * bad
            yield bad + brk.join(BASE)


def damaged_fronts():
    """Some bytes of the front changed, lost or doubled."""
    dice = Dice(37)
    for _ in range(DAMAGED):
        payload = bytearray(dice.pick(BREAKS).join(BASE)[:30 + dice.below(12)])
        for _ in range(1 + dice.below(3)):
            at = dice.below(len(payload))
            change = dice.below(3)
            if change == 0:
                payload[at] = dice.pick(b'\r\n019AZaz\x00\xC3')
            elif change == 1:
                del payload[at]
            else:
                payload.insert(at, payload[at])
        yield bytes(payload)


def glance_payloads():
    """All of them."""
    for some in (prefixes, accounts, lengths, other_bytes, damaged_fronts):
        yield from some()
