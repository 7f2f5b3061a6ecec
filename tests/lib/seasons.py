"""The C host that tries seasons, over a library, and the reference beside it."""

import struct
from pathlib import Path
from typing import NamedTuple

import kit
from chance import Dice
from damage import damaged
from piling import MARK, MOST_ROOM, Pile, laid_out, listed, piles, random_piles, written
from reference.pile import MOST_BILLS
from reference.season import CURRENCIES, Season, tried
from swift import REFERENCES, bill

HOST = kit.ROOT / 'tests' / 'host' / 'season.c'

MOST_SUMS = 4  # as in pile_record.h
SIZE = 4 + 2 * MOST_ROOM + 8 * MOST_SUMS

# What 2.2 alone accepts, and beside it what neither does.
COMBINED = {5: 'K', 7: 'Hofweg 4', 8: '8000 Seldwyla', 9: '', 10: ''}
DEBTOR = {21: 'S', 22: 'Pia Rutschmann', 25: '9400', 26: 'Rorschach', 27: 'CH'}
COMBINED_DEBTOR = {21: 'K', 22: 'Pia Rutschmann', 24: '9400 Rorschach', 27: 'CH'}
QRR_IN_EUROS = {**REFERENCES['QRR'], 20: 'EUR'}
KINDS = (
    {}, DEBTOR, COMBINED, COMBINED_DEBTOR, {**COMBINED, **COMBINED_DEBTOR}, REFERENCES['QRR'],
    QRR_IN_EUROS, {**COMBINED, **QRR_IN_EUROS}, {20: 'EUR'}, {**COMBINED, 20: 'EUR'},
    {**COMBINED, 6: ''}, {**COMBINED, 8: ''}, {**COMBINED, 9: '8000'}, {**COMBINED, 10: 'Seldwyla'},
    {**COMBINED, 11: 'ch'}, {**COMBINED, 20: 'USD'}, {**COMBINED_DEBTOR, 25: '9400'}, {5: 'k'},
    {**COMBINED, 4: 'CH5800791123000889013'}, {**QRR_IN_EUROS, 29: '1'},
    {**QRR_IN_EUROS, 30: 140 * 'm'},
)
AMOUNTS = ('', '0.01', '0.10', '1.00', '12345678.90', '999999999.99', '0.00', '1000000000.00', '5')
GREATEST = {19: '999999999.99'}


class Try(NamedTuple):
    """A recorded pile, and how many sums are lent."""
    pile: Pile
    sums: int = len(CURRENCIES)

    def packed(self):
        """As season.c reads it."""
        return self.pile.packed(self.sums)


def old_bills():
    """Each kind of bill with each amount, with either break."""
    for kind in KINDS:
        for amount in AMOUNTS:
            made = bill(kind, {19: amount})
            yield made
            yield made.replace(b'\n', b'\r\n')


def season_of(bills, room=None):
    """Bills one after the other, with room for a position of each."""
    return laid_out(bills, len(bills) if room is None else room)


def seasons():
    """Piles at their edges, each with room for a position of each bill or less, and each count of sums;
    each old bill alone, and all of them together; 500 of the greatest amount."""
    for pile in piles():
        yield Try(pile)
        yield Try(pile._replace(room=pile.room // 2))
        for sums in (0, 1, MOST_SUMS):
            yield Try(pile._replace(room=pile.room // 2), sums)
    old = list(old_bills())
    for one in old:
        yield Try(season_of([one], 3))
    yield Try(season_of(old))
    yield Try(season_of(old[::-1], MOST_ROOM))
    for kind in KINDS:
        yield Try(season_of(MOST_BILLS * [bill(kind, GREATEST)]))
    some = [bill(kind, GREATEST) for kind in KINDS]
    yield Try(season_of((25 * some)[:MOST_BILLS]))


def random_seasons(seed, count):
    """Piles by chance of old bills, damaged or not, and of damaged new ones; one in sixteen with fewer
    sums."""
    dice, old = Dice(seed), list(old_bills())
    bills = [*old, *damaged(seed, 400, old), *damaged(seed, 400)]
    for pile in random_piles(seed, count, bills):
        yield Try(pile, dice.below(2) if dice.below(16) == 0 else len(CURRENCIES))


def expected(one):
    """What the host should write."""
    answer = tried(*one.pile, one.sums)
    if isinstance(answer, Season):
        number, positions, sums = len(answer.positions), answer.positions, answer.sums
    else:
        number, positions, sums = 1000 * answer[0] + answer[1], [], []
    told = struct.pack(f'<{len(sums)}Q', *sums).ljust(8 * one.sums, MARK)
    return struct.pack('<I', number) + listed(positions, one.pile.room) + told.rjust(8 * MOST_SUMS, MARK)


def results(program, some):
    """What the host writes for each."""
    return written(program, [one.packed() for one in some], SIZE)


def built_trier(library: Path, folder: Path) -> Path:
    """The host, linked to a library with the calls of include/qrbill.h."""
    return kit.linked(folder / 'season', kit.compiled(HOST, folder), library)


def differing_seasons(program, some):
    """Those whose results are not the expected ones."""
    return [one for one, got in zip(some, results(program, some)) if got != expected(one)]


def season_described(program, one):
    """A text about one whose result is not the expected one."""
    got, = results(program, [one])
    return f'{one}: expected {expected(one).strip(MARK).hex()}, got {got.strip(MARK).hex()}'
