"""What is drawn by chance, for all scripts: the same in each run and in every Python.

`random` promises that only for its method `random`, so nothing else of it is used.
"""

from hashlib import shake_256
from random import Random


class Dice:
    """Numbers in a row that looks random; the same row for the same seed."""

    def __init__(self, seed):
        self.draw = Random(seed).random

    def below(self, bound):
        """A number from 0 to bound - 1."""
        return int(self.draw() * bound)

    def pick(self, items):
        """One of the items."""
        return items[self.below(len(items))]


def drawn(name, alphabet, length):
    """Bytes of an alphabet that look random; the same for the same name, whatever was drawn before.
    The stored texts of the check digits were drawn in this way."""
    stream = shake_256(name.encode()).digest(2 * length)
    pairs = zip(stream[::2], stream[1::2])
    return bytes(alphabet[(256 * high + low) % len(alphabet)] for high, low in pairs)
