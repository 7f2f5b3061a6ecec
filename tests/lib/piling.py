"""The C host that judges piles, over a library, and the reference beside it."""

import struct
import subprocess
from pathlib import Path
from typing import NamedTuple

import kit
from chance import Dice
from damage import CASES, damaged
from reference.pile import MOST_BILLS, piled

HOST = kit.ROOT / 'tests' / 'host' / 'piling.c'

# As in pile_record.h.
MARK, MOST_PLACES, MOST_ROOM = b'\xAA', 1010, 1010
HEAD = struct.Struct('<5I')
SIZE = 4 + 2 * MOST_ROOM
LARGEST = 2**32 - 1

GOOD = next(case.payload for case in CASES if case.name == 'base-lf')
SOME = [case.payload for case in CASES if len(case.payload) < 1100][::7]


class Pile(NamedTuple):
    """A buffer, where bills lie in it, how many, and how much room there is for entries."""
    buffer: bytes
    places: list
    count: int
    room: int

    def packed(self, sums=0):
        """As a host reads it, with how many sums are lent."""
        head = HEAD.pack(len(self.buffer), len(self.places), self.count, self.room, sums)
        return head + struct.pack(f'<{len(self.places)}I', *self.places) + self.buffer


def laid_out(bills, room=None):
    """Bills one after the other, with room for their entries or as much as is said."""
    places, start = [], 0
    for bill in bills:
        places += [start, len(bill)]
        start += len(bill)
    return Pile(b''.join(bills), places, len(bills), 2 * len(bills) if room is None else room)


def piles():
    """Each count at its edge; each refusal alone, beside its neighbour in the order, and two at
    once; numbers that are as large as they can be; good and bad bills side by side."""
    for count in (0, 1, 2, 3, MOST_BILLS - 1, MOST_BILLS, MOST_BILLS + 1):
        pile = laid_out(count * [GOOD])
        yield pile
        yield pile._replace(room=MOST_ROOM)
        yield pile._replace(room=max(2 * count - 1, 0))
        yield pile._replace(room=0)
        yield pile._replace(places=pile.places[:-1])
        yield pile._replace(places=pile.places[:-1], room=0)
    yield Pile(b'', [], LARGEST, 0)
    yield Pile(b'', [], 1, MOST_ROOM)
    three = laid_out([GOOD, b'', GOOD[:-1]])
    yield three
    for place in range(6):
        for number in (0, 1, len(three.buffer), len(three.buffer) + 1, LARGEST - 1, LARGEST):
            changed = [*three.places[:place], number, *three.places[place + 1:]]
            yield three._replace(places=changed)
            yield three._replace(places=changed, room=5)
            yield three._replace(places=changed, count=4)
    yield three._replace(places=[LARGEST, LARGEST, LARGEST, 1, 1, LARGEST])
    yield laid_out(SOME[:MOST_BILLS])
    yield laid_out([bill for pair in zip(SOME[:200], 200 * [GOOD]) for bill in pair])
    yield Pile(GOOD, [number for _ in range(10) for number in (0, len(GOOD))], 10, 30)


def random_piles(seed, count, bills=None):
    """Piles of up to 12 bills by chance, that overlap, lie in any order and are damaged; one in four
    has a number changed, less room, or fewer places."""
    dice, bills = Dice(seed), bills or list(damaged(seed, 400)) + SOME
    for _ in range(count):
        pile = laid_out([dice.pick(bills) for _ in range(dice.below(13))], MOST_ROOM)
        order = list(range(pile.count)) + [dice.below(pile.count or 1) for _ in range(2)]
        places = [pile.places[2 * i + half] for i in sorted(order, key=lambda _: dice.below(99))
                  for half in (0, 1) if pile.count]
        pile = pile._replace(places=places, count=len(places) // 2)
        change = dice.below(12)
        if change == 0 and places:
            places[dice.below(len(places))] = dice.pick([0, len(pile.buffer), LARGEST])
        elif change == 1:
            pile = pile._replace(room=dice.below(2 * pile.count + 1))
        elif change == 2:
            pile = pile._replace(count=pile.count + dice.below(3))
        yield pile


def expected(pile):
    """What the host should write."""
    answer = piled(*pile)
    number, entries = (0, answer) if isinstance(answer, list) else (1000 * answer[0] + answer[1], [])
    return struct.pack('<I', number) + listed(entries, pile.room)


def listed(entries, room):
    """All numbers that are lent for a list, with those in front of them, where entries fill its front."""
    before = 2 * (MOST_ROOM - room) * MARK
    return before + struct.pack(f'<{len(entries)}H', *entries).ljust(2 * room, MARK)


def written(program, records, size):
    """What a host writes for each record; nothing for those that it does not come to."""
    ran = subprocess.run(kit.command(program), input=b''.join(records), stdout=subprocess.PIPE,
                         check=False, env=kit.environment())
    return [ran.stdout[start:start + size] for start in range(0, size * len(records), size)]


def results(program, some):
    """What the host writes for each."""
    return written(program, [pile.packed() for pile in some], SIZE)


def built_piler(library: Path, folder: Path) -> Path:
    """The host, linked to a library with the calls of include/qrbill.h."""
    return kit.linked(folder / 'piling', kit.compiled(HOST, folder), library)


def differing_piles(program, some):
    """Those whose results are not the expected ones."""
    return [pile for pile, got in zip(some, results(program, some)) if got != expected(pile)]


def pile_described(program, pile):
    """A text about one whose result is not the expected one."""
    got, = results(program, [pile])
    return f'{pile}: expected {expected(pile).strip(MARK).hex()}, got {got.strip(MARK).hex()}'
