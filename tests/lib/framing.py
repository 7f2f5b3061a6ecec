"""Records as our programs and the hosts in C read them: a length of four bytes, and that many bytes.
The lowest byte comes first, as in every number of a record.
"""

LENGTH_BYTES = 4


def number(value, size):
    """A number of so many bytes."""
    return value.to_bytes(size, 'little')


def framed(content):
    """Some bytes behind their length."""
    return number(len(content), LENGTH_BYTES) + content


def records(stream):
    """The records of a stream, each with its length; what is left over is one more."""
    while stream:
        end = LENGTH_BYTES + int.from_bytes(stream[:LENGTH_BYTES], 'little')
        yield stream[:end]
        stream = stream[end:]
