"""The calls of include/qrbill.h for Python 3.10 and later: Swiss QR-bills and girocodes.

    >>> import pathlib, qrbill
    >>> payload = pathlib.Path('examples/bill.txt').read_bytes()
    >>> bill = qrbill.read(payload)
    >>> bill.count, bill.brk, bill.lines[3]
    (31, 'LF', b'CH5800791123000889012')
    >>> bill.lines[29] = b'Kurs Juni'
    >>> qrbill.swift(qrbill.write(bill.lines)).remittance
    ['SCOR/RF18539007547034', 'Kurs Juni']
    >>> qrbill.read(payload.replace(b'CH58', b'CH59'))
    Traceback (most recent call last):
    qrbill.Refused: refused 11 line 4: check digits are wrong

The functions are for the Swiss bill; those of `girocode` are for girocodes.

What is lent. Bytes go in and come out; a text has to be encoded first. bytes are lent as they are, a
bytearray or a memoryview as a copy, so that nothing changes it before the call returns.
What is refused. A refusal raises Refused. A TypeError, or any other ValueError, is about the call.
Threads. Any number of threads may call at once, and may share a Scan.

The library is the file that the environment variable QRBILL_LIBRARY names, or target/libqrbill.so of
the repository. It is for x86-64 Linux, and `python/build` makes it, by these commands:

    (cd crates/capi && rt lib) && (cd crates/giro_capi && rt lib) && mkdir -p target
    cc -shared -o target/libqrbill.so -Wl,--whole-archive crates/capi/out/libcapi.a \\
        crates/giro_capi/out/libgiro_capi.a -Wl,--no-whole-archive
"""

import ctypes
import os
from collections.abc import Callable, Iterable
from operator import index
from pathlib import Path
from threading import Lock
from typing import Generic, NamedTuple, TypeVar

__all__ = [
    'Accepted', 'Bytes', 'Mended', 'PileEntry', 'Place', 'Refused', 'Scan', 'Season', 'Span', 'Swift',
    'girocode', 'glance', 'line', 'make_iban', 'make_qrr', 'make_scor', 'mend', 'pile', 'places',
    'read', 'season', 'swift', 'write',
]

Bytes = bytes | bytearray | memoryview  # what may be lent


class Accepted(NamedTuple):
    """An accepted payload: how many lines it has, what parts them (LF or CRLF), and the lines."""
    count: int
    brk: str
    lines: list[bytes]


class Span(NamedTuple):
    """Where something stands in a payload: its start, and its size in bytes."""
    start: int
    size: int


class Place(NamedTuple):
    """Where a line stands in a payload: its start, its size in bytes, and its characters."""
    start: int
    size: int
    characters: int


class PileEntry(NamedTuple):
    """A bill of a pile: 0 and its line count if it is accepted, or the refusal and its line."""
    number: int
    line: int


class Season(NamedTuple):
    """The positions, from 1, of the bills that two editions differ on; and the sums in cents."""
    differing: list[int]
    chf: int
    eur: int


class Swift(NamedTuple):
    """The lines of SWIFT's fields 59a, 32B and 70; how many characters were cut, and how many of those
    kept were replaced."""
    beneficiary: list[str]
    transaction: list[str]
    remittance: list[str]
    cut: int
    replaced: int


class Mended(NamedTuple):
    """A mended payload; the breaks that were not LF, the spaces taken, and the lines dropped."""
    payload: bytes
    breaks: int
    spaces: int
    dropped: int


class Refused(ValueError):
    """A refusal: its number, the line that it names, and what it means in plain words."""

    def __init__(self, number: int, line: int, words: str) -> None:
        super().__init__(number, line, words)
        self.number, self.line, self.words = number, line, words

    def __str__(self) -> str:
        return f'refused {self.number} line {self.line}: {self.words}'


_WORDS = {
    1: 'there are no bytes',
    2: 'there are over 997 bytes',
    3: 'a character that is not allowed',
    4: 'the break that ends it is unlike the first one',
    5: 'a bill has 31 to 34 lines',
    6: 'it is not the text that always stands here',
    7: 'it must be empty',
    8: 'it must not be empty',
    9: 'it has too many characters',
    10: 'it does not have its form',
    11: 'check digits are wrong',
    12: 'account, reference and currency do not go together',
    13: 'message and billing information together have over 140 characters',
    14: 'its place lies outside what is lent',
    15: 'there is too little room',
    16: 'the bill has no amount',
    17: 'the coding is not read',
    18: 'it has another number of characters than the list says',
}
_PILE_WORDS = {**_WORDS, 5: 'there are over 500 bills'}
_GIROCODE_WORDS = {
    **_WORDS, 2: 'there are over 331 bytes', 5: 'a girocode has 7 to 12 lines',
    6: 'it is not a text that may stand here', 12: 'reference and text are both filled',
}


# The library: what is given to each call, in the order of the header.

_SIZE, _NUMBER = ctypes.c_size_t, ctypes.c_uint32
_LIST16, _LIST32, _LIST64 = map(ctypes.POINTER, (ctypes.c_uint16, _NUMBER, ctypes.c_uint64))
_LENT = (ctypes.c_char_p, _SIZE)
_WRITE = (*_LENT, _LIST16, _SIZE, _NUMBER, ctypes.c_bool, *_LENT)
_PILE = (*_LENT, _LIST32, _SIZE, _NUMBER, _LIST16, _SIZE)
_COUNTED = (*_LENT, *_LENT, _LIST16, _SIZE)
_CALLS = {
    'qrbill_read': _LENT, 'qrbill_line': (*_LENT, _NUMBER),
    'qrbill_places': (*_LENT, _LIST16, _SIZE), 'qrbill_glance': _LENT, 'qrbill_write': _WRITE,
    'qrbill_make_qrr': 2 * _LENT, 'qrbill_make_scor': 2 * _LENT, 'qrbill_make_iban': 4 * _LENT,
    'qrbill_pile': _PILE, 'qrbill_season': (*_PILE, _LIST64, _SIZE), 'qrbill_swift': _COUNTED,
    'qrbill_mend': _COUNTED, 'qrbill_hand': (*_LENT, _SIZE, *_LENT), 'girocode_read': _LENT,
    'girocode_line': (*_LENT, _NUMBER), 'girocode_places': (*_LENT, _LIST16, _SIZE),
    'girocode_write': _WRITE,
}


def _loaded() -> ctypes.CDLL:
    """The library."""
    home = Path(__file__).resolve().parent.parent
    path = os.environ.get('QRBILL_LIBRARY') or str(home / 'target' / 'libqrbill.so')
    try:
        library = ctypes.CDLL(path)
        for name, given in _CALLS.items():
            call = getattr(library, name)
            call.argtypes, call.restype = given, _SIZE if name == 'qrbill_hand' else _NUMBER
    except (OSError, AttributeError) as error:
        raise ImportError(f'the library cannot be loaded; python/build makes it: {error}') from error
    return library


_Call = Callable[..., int]
_LIBRARY = _loaded()
_LOOKED = 998  # bytes: one more than a payload may have, so that a longer one is known as such
_INNER = bytes(range(0x80, 0xC0))  # the bytes that count as no character


def _lent(data: Bytes) -> tuple[bytes, int]:
    """Bytes that stay as they are, and how many there are. Those of b'' have an address too."""
    if isinstance(data, str):
        raise TypeError('bytes are wanted, not str: encode the text first')
    if not isinstance(data, Bytes):
        raise TypeError(f'bytes are wanted, not {type(data).__name__}')
    own = data if type(data) is bytes else memoryview(data).tobytes()
    return own, len(own)


def _parts(some: Iterable[Bytes]) -> list[bytes]:
    """Lines or bills. One that is too long stays so when it is cut, and so fits every list."""
    if isinstance(some, str | Bytes):
        raise TypeError(f'a list of bytes is wanted, not {type(some).__name__}')
    return [_lent(part)[0][:_LOOKED] for part in some]


def _taken(answer: int, words: dict[int, str] = _WORDS) -> int:
    """What a call answers, unless it refuses."""
    if answer < 1000:
        return answer
    number, at = divmod(answer, 1000)
    raise Refused(number, at, words[number])


_P = TypeVar('_P', Span, Place)


class _Code(Generic[_P]):
    """A kind of code, and the four calls that each kind has."""

    def __init__(self, prefix: str, lines: int, most: int, place: type[_P],
                 words: dict[int, str]) -> None:
        """By how its calls begin, its most lines and bytes, what a list has for each line, and what its
        refusals mean."""
        self._read, self._line, self._places, self._write = (
            getattr(_LIBRARY, f'{prefix}_{name}') for name in ('read', 'line', 'places', 'write'))
        self._lines, self._most, self._words = lines, most, words
        self._place, self._each, self._room = place, len(place._fields), lines * len(place._fields)

    def read(self, payload: Bytes) -> Accepted:
        """The lines of a payload."""
        return self._accepted(*_lent(payload))

    def line(self, payload: Bytes, number: int) -> Span:
        """Where a line stands: 1 to 34, or 1 to 12 of a girocode. One that the payload does not have
        stands at its end."""
        number = index(number)
        if not 1 <= number <= self._lines:
            raise ValueError(f'a line is 1 to {self._lines}, not {number}')
        lent = _lent(payload)
        place = self._line(*lent, number)
        if place == 0:
            _taken(self._read(*lent), self._words)
        return Span(*divmod(place, 1000))

    def places(self, payload: Bytes) -> list[_P]:
        """Where each of 34 lines stands, or of 12 of a girocode. Those that the payload does not have
        stand at its end."""
        return self._found(*_lent(payload))[1]

    def write(self, lines: Iterable[Bytes], crlf: bool = False) -> bytes:
        """A payload of these lines, with LF between them or CR LF. What `read` would refuse is refused,
        and before it CR or LF in a line, under 3. Of each line 998 bytes are looked at."""
        if not isinstance(crlf, bool):
            raise TypeError(f'crlf is True or False, not {type(crlf).__name__}')
        parts, start = _parts(lines), 0
        numbers, made = (ctypes.c_uint16 * self._room)(), ctypes.create_string_buffer(self._most)
        for at, part in enumerate(parts[:self._lines]):
            place = start, len(part), len(part.translate(None, _INNER))
            numbers[self._each * at:self._each * (at + 1)] = place[:self._each]
            start += len(part)
        answer = self._write(*_lent(b''.join(parts)), numbers, self._room, len(parts), crlf, made,
                             self._most)
        return made[:_taken(answer, self._words)]

    def _found(self, data: bytes | ctypes.Array, size: int) -> tuple[int, list[_P]]:
        """What the call for all places answers of bytes that are lent, and the places."""
        numbers = (ctypes.c_uint16 * self._room)()
        answer = _taken(self._places(data, size, numbers, self._room), self._words)
        starts = range(0, self._room, self._each)
        return answer, [self._place(*numbers[at:at + self._each]) for at in starts]

    def _accepted(self, data: bytes | ctypes.Array, size: int) -> Accepted:
        """The lines of bytes that are lent."""
        answer, found = self._found(data, size)
        crlf, count = divmod(answer, 100)
        lines = [data[place.start:place.start + place.size] for place in found[:count]]
        return Accepted(count, 'CRLF' if crlf else 'LF', lines)


_swiss = _Code('qrbill', 34, 997, Place, _WORDS)
read, line, places, write = _swiss.read, _swiss.line, _swiss.places, _swiss.write
girocode = _Code('girocode', 12, 331, Span, _GIROCODE_WORDS)


def glance(payload: Bytes) -> Span | None:
    """Where the IBAN stands, by the first 37 bytes, or None for not known. The payload may still be
    refused; but the IBAN of one that is accepted is always given."""
    place = _LIBRARY.qrbill_glance(*_lent(payload))
    return Span(*divmod(place, 1000)) if place else None


def _made(call: _Call, *parts: Bytes) -> bytes:
    """A number made from its parts, of up to 27 bytes."""
    made = ctypes.create_string_buffer(27)
    return made[:_taken(call(*(given for part in parts for given in _lent(part)), made, 27))]


def make_qrr(digits: Bytes) -> bytes:
    """The QR reference of 26 digits, not all zero."""
    return _made(_LIBRARY.qrbill_make_qrr, digits)


def make_scor(reference: Bytes) -> bytes:
    """The creditor reference of 1 to 21 of A-Z a-z 0-9."""
    return _made(_LIBRARY.qrbill_make_scor, reference)


def make_iban(country: Bytes, iid: Bytes, account: Bytes) -> bytes:
    """The IBAN of CH or LI, an IID of five digits and an account of twelve of 0-9 A-Z."""
    return _made(_LIBRARY.qrbill_make_iban, country, iid, account)


def _laid(bills: Iterable[Bytes]) -> tuple[bytes, int, ctypes.Array, int, int]:
    """Bills one behind the other, and where they lie, as a pile is lent."""
    parts, start = _parts(bills), 0
    where = (ctypes.c_uint32 * (2 * len(parts) or 1))()
    for at, part in enumerate(parts):
        where[2 * at:2 * at + 2] = start, len(part)
        start += len(part)
    return *_lent(b''.join(parts)), where, 2 * len(parts), len(parts)


def pile(bills: Iterable[Bytes]) -> list[PileEntry]:
    """What `read` says of each of up to 500 bills."""
    lent = _laid(bills)
    room = 2 * lent[-1]
    answers = (ctypes.c_uint16 * (room or 1))()
    _taken(_LIBRARY.qrbill_pile(*lent, answers, room), _PILE_WORDS)
    return [PileEntry(*entry) for entry in zip(answers[:room:2], answers[1:room:2])]


def season(bills: Iterable[Bytes]) -> Season:
    """Which of up to 500 bills Guidelines 2.2 and 2.4 differ on, and the sums of the amounts that 2.2
    accepts. A bill without amount counts 0."""
    lent = _laid(bills)
    room = lent[-1]
    differing, sums = (ctypes.c_uint16 * (room or 1))(), (ctypes.c_uint64 * 2)()
    count = _taken(_LIBRARY.qrbill_season(*lent, differing, room, sums, 2), _PILE_WORDS)
    return Season(differing[:count], *sums)


def _counted(call: _Call, payload: Bytes, room: int, counts: int) -> tuple[bytes, list[int]]:
    """What is made of a payload, of up to so many bytes, and so many counts."""
    made, numbers = ctypes.create_string_buffer(room), (ctypes.c_uint16 * counts)()
    return made[:_taken(call(*_lent(payload), made, room, numbers, counts))], list(numbers)


def swift(payload: Bytes) -> Swift:
    """SWIFT's fields for a bill that is paid from abroad. Without amount it is refused under 16."""
    data, (first, second, _, cut, replaced) = _counted(_LIBRARY.qrbill_swift, payload, 298, 5)
    rows = data.decode('ascii').split('\r\n')
    return Swift(rows[:first], rows[first:first + second], rows[first + second:], cut, replaced)


def mend(payload: Bytes) -> Mended:
    """A payload of up to 4,096 bytes that a mail program mangled, mended. What `read` accepts comes
    back unchanged."""
    data, counts = _counted(_LIBRARY.qrbill_mend, payload, 997, 3)
    return Mended(data, *counts)


class Scan:
    """A payload that comes in bits, as from a serial scanner. A scan is for one payload."""

    def __init__(self) -> None:
        self._held, self._length, self._lock = ctypes.create_string_buffer(_LOOKED), 0, Lock()

    def hand(self, bit: Bytes) -> int:
        """Put a bit behind what is held. The answer is how many bytes are held now, or 998 once there
        were over 997 in all."""
        lent = _lent(bit)
        with self._lock:
            self._length = _LIBRARY.qrbill_hand(self._held, _LOOKED, self._length, *lent)
            return self._length

    def close(self) -> Accepted:
        """What `read` says of the whole payload, however it was cut."""
        with self._lock:
            return _swiss._accepted(self._held, self._length)

    def places(self) -> list[Place]:
        """What `places` says of the whole payload."""
        with self._lock:
            return _swiss._found(self._held, self._length)[1]
