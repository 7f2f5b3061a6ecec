"""A payload that comes in bits, by the paper's request E10."""

from reference.qrbill import MOST_BYTES

TOO_MANY = MOST_BYTES + 1  # a length that notes that there were too many bytes


def handed(room, length, bit):
    """The room and the length once a bit was handed over."""
    together = length + len(bit)
    if together > MOST_BYTES or together > len(room):
        return room, TOO_MANY
    return room[:length] + bit + room[together:], together
