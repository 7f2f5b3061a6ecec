"""Last season tried under both editions, by the paper's request E14."""

from typing import NamedTuple

from reference.pile import MOST_BILLS, entry
from reference.qrbill import Refused, read

CURRENCIES = ('CHF', 'EUR')


class Season(NamedTuple):
    """The positions, from 1, of the bills whose number or line differs, and a sum in cents for each
    currency."""
    positions: list
    sums: list


def line(bill, places, number):
    """The text of a line, by the places that the reader gives."""
    start, length = places[3 * (number - 1):3 * (number - 1) + 2]
    return bill[start:start + length].decode()


def cents(amount):
    """An amount in cents; 0 without amount."""
    francs, _, rest = amount.partition('.')
    return 100 * int(francs or '0') + int(rest or '0')


def tried(buffer, places, count, room, sums_room=2):
    """What single readings of each bill give; or the refusal and its position."""
    if count > MOST_BILLS or 2 * count > len(places):
        return 5, 0
    wanted = [(places[2 * i], places[2 * i + 1]) for i in range(count)]
    for position, (start, length) in enumerate(wanted, start=1):
        if start + length > len(buffer):
            return 14, position
    if room < count or sums_room < 2:
        return 15, 0
    positions, sums = [], dict.fromkeys(CURRENCIES, 0)
    for position, (start, length) in enumerate(wanted, start=1):
        bill = buffer[start:start + length]
        if entry(bill, '2.2') != entry(bill, '2.4'):
            positions.append(position)
        answer = read(bill, edition='2.2')
        if not isinstance(answer, Refused):
            sums[line(bill, answer.places, 20)] += cents(line(bill, answer.places, 19))
    return Season(positions, [sums[currency] for currency in CURRENCIES])
