"""The C host that hands over payloads in bits, over a library, and the reference beside it."""

import struct
import subprocess
from pathlib import Path
from typing import NamedTuple

import kit
from chance import Dice
from damage import CASES, damaged
from reference.qrbill import LIST_NUMBERS, MOST_BYTES, Refused, read
from reference.scanner import TOO_MANY, handed

HOST = kit.ROOT / 'tests' / 'host' / 'scanning.c'

# As in scanning.c.
MARK, MOST_ROOM, MOST_BIT = b'\xAA', 1010, 8192
HEAD, LENGTH = struct.Struct('<Q2I'), struct.Struct('<Q')
CLOSING = struct.Struct(f'<2I{LIST_NUMBERS}H')

PAYLOADS = {case.name: case.payload for case in CASES}
BASE, LONGEST = PAYLOADS['base-lf'], PAYLOADS['2.4-section-6.2-997-bytes']
OVER = LONGEST + b'x'


class Scan(NamedTuple):
    """Bits, and the room and the length that the first of them is handed over with."""
    bits: list
    room: int = TOO_MANY
    length: int = 0

    def packed(self):
        """As scanning.c reads it."""
        return HEAD.pack(self.length, self.room, len(self.bits)) + b''.join(
            struct.pack('<I', len(bit)) + bit for bit in self.bits)


def pieces(payload, size):
    """A payload in bits of one size."""
    return [payload[start:start + size] for start in range(0, len(payload), size)]


def cut(payload, sizes):
    """A payload in bits of each size, and the same with an empty bit before, between and behind."""
    for size in sizes:
        bits = pieces(payload, size)
        yield bits
        yield [b'', *(one for bit in bits for one in (bit, b''))]


def cut_payloads():
    """The base bill and the longest cut into two at every place, and into bits of one size; and
    nothing, in no bit and in several."""
    for payload in (BASE, LONGEST):
        for at in range(len(payload) + 1):
            yield Scan([payload[:at], payload[at:]])
        for bits in cut(payload, (1, 2, 3, 7, 64, 500, MOST_BYTES - 1, MOST_BYTES)):
            yield Scan(bits)
    yield Scan([])
    yield Scan([b''])
    yield Scan([b'', b'', b''])


def too_long():
    """One byte too many in every way, and then more."""
    for places in ([MOST_BYTES], [1], [], [0], [MOST_BYTES, MOST_BYTES], [500]):
        bits = [OVER[start:end] for start, end in zip([0, *places], [*places, TOO_MANY])]
        for more in ([], [b''], [BASE], [b'', b'x'], [b'', b'', LONGEST], [OVER, b'']):
            yield Scan(bits + more)
    yield Scan(pieces(OVER, 1))
    yield Scan([4000 * b'x', b''])


def other_lengths():
    """Lengths that no call answers, and those at the edge, with bits that fit and that do not."""
    for length in (1, 996, 997, 998, 999, 1010, 2**16, 2**31, 2**32 - 1, 2**32, 2**63, 2**64 - 997,
                   2**64 - 1):
        for bits in ([b''], [b'x'], [b'xx'], [BASE], [LONGEST], [b'', b'x', b''], [OVER, b'']):
            yield Scan(bits, TOO_MANY, length)
            yield Scan(bits, MOST_ROOM, length)


def small_rooms():
    """Rooms of every kind: what does not fit is not held, and nothing is written past their end."""
    for room in (0, 1, 10, len(BASE) - 1, len(BASE), 500, 996, 997, 998, 999, MOST_ROOM):
        for payload in (BASE, LONGEST, OVER):
            for size in (7, 64, TOO_MANY):
                yield Scan(pieces(payload, size), room)
        for length in (0, room, room + 1, 997, 998):
            for bits in ([b''], [b'x'], [b'x', b'']):
                yield Scan(bits, room, length)


def scans():
    """All of these."""
    for some in (cut_payloads, too_long, other_lengths, small_rooms):
        yield from some()


def random_scans(seed, count):
    """Damaged bills and cases in bits by chance, one in eight in another room or with another
    length."""
    dice, spoiled = Dice(seed), damaged(seed, count)
    some = [case.payload for case in CASES if len(case.payload) <= MOST_BIT]
    for _ in range(count):
        payload = dice.pick(some) if dice.below(2) else next(spoiled)
        room, length = TOO_MANY, 0
        if dice.below(8) == 0:
            room, length = dice.below(MOST_ROOM + 1), dice.below(MOST_ROOM + 1) * dice.below(2)
        yield Scan(bits_of(dice, payload[:MOST_BIT]), room, length)


def bits_of(dice, payload):
    """A payload cut by chance, empty bits among them."""
    bits, start, most = [], 0, dice.pick((16, 64, 300, 1000))
    while start < len(payload):
        size = dice.below(most + 1) * (dice.below(4) != 0)
        bits.append(payload[start:start + size])
        start += size
    return bits


# The host.

def closing(scan, length):
    """What the host should write at the close: what the reader answers on the whole."""
    if length > scan.room:
        return CLOSING.size * MARK
    payload = min(scan.length, TOO_MANY) * MARK + b''.join(scan.bits)
    answer = read(payload)
    if isinstance(answer, Refused):
        number, unchanged = 1000 * answer.number + answer.line, LIST_NUMBERS * [0xAAAA]
        return CLOSING.pack(number, number, *unchanged)
    crlf = 100 * (answer.brk == 'CRLF')
    return CLOSING.pack(answer.lines, answer.lines + crlf, *answer.places)


def expected(scan):
    """What the host should write."""
    room, length, written = scan.room * MARK, scan.length, []
    for bit in scan.bits:
        room, length = handed(room, length, bit)
        written.append(LENGTH.pack(length) + room.rjust(MOST_ROOM, MARK))
    return b''.join(written) + closing(scan, length)


def results(program, some):
    """What the host writes for each; nothing for those that it does not come to."""
    ran = subprocess.run(kit.command(program), input=b''.join(scan.packed() for scan in some),
                         stdout=subprocess.PIPE, check=False, env=kit.environment())
    start = 0
    for scan in some:
        end = start + len(scan.bits) * (LENGTH.size + MOST_ROOM) + CLOSING.size
        yield ran.stdout[start:end]
        start = end


def built_scanner(library: Path, folder: Path) -> Path:
    """The host, linked to a library with the calls of include/qrbill.h."""
    return kit.linked(folder / 'scanning', kit.compiled(HOST, folder), library)


def differing_scans(program, some):
    """Those whose results are not the expected ones."""
    return [scan for scan, got in zip(some, results(program, some)) if got != expected(scan)]


def scan_described(program, scan):
    """A text about one whose result is not the expected one."""
    got, = results(program, [scan])
    return f'{scan}: expected {expected(scan).strip(MARK).hex()}, got {got.strip(MARK).hex()}'
