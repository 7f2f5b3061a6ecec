"""The C host of calls that give counts beside their number, over a library, and a reference beside it."""

import struct
import subprocess
from pathlib import Path
from typing import Callable, NamedTuple

import kit

HOST = kit.ROOT / 'tests' / 'host' / 'counts.c'

# As in counts.c.
MARK, MOST_NUMBERS = b'\xAA', 8
HEAD = struct.Struct('<3I')


class Lent(NamedTuple):
    """A payload, room for what is made of it, and numbers for the counts."""
    payload: bytes
    room: int
    numbers: int

    def packed(self):
        """As counts.c reads it."""
        return HEAD.pack(len(self.payload), self.room, self.numbers) + self.payload


class CountedCall(NamedTuple):
    """A call: its name in C, the most bytes of a payload and of room, and what it should give for
    what is lent: the number, the bytes in the destination's front, and the counts."""
    name: str
    most_payload: int
    most_room: int
    given: Callable[..., tuple]

    @property
    def result(self):
        """What the host writes for each record."""
        return struct.Struct(f'<I{self.most_room}s{2 * MOST_NUMBERS}s')

    def expected(self, lent):
        """What the host should write."""
        answer, data, counts = self.given(*lent)
        before = (self.most_room - lent.room) * MARK
        spare = 2 * (MOST_NUMBERS - lent.numbers) * MARK
        told = struct.pack(f'<{len(counts)}H', *counts)
        return self.result.pack(answer, before + data.ljust(lent.room, MARK),
                                spare + told.ljust(2 * lent.numbers, MARK))

    def results(self, program, some):
        """What the host writes for each; nothing for those that it does not come to."""
        ran = subprocess.run(kit.command(program), input=b''.join(one.packed() for one in some),
                             stdout=subprocess.PIPE, check=False, env=kit.environment())
        size = self.result.size
        return [ran.stdout[start:start + size] for start in range(0, size * len(some), size)]

    @property
    def flags(self):
        """What a program in C that makes the call is compiled with."""
        return (f'-DCALL={self.name}', f'-DMOST_PAYLOAD={self.most_payload}',
                f'-DMOST_ROOM={self.most_room}')

    def built(self, folder: Path, *files: Path) -> Path:
        """The host, linked to a library with the calls of include/qrbill.h, or to object files."""
        folder = folder / self.name
        return kit.linked(folder / 'host', kit.compiled(HOST, folder, *self.flags), *files)

    def differing(self, program, some):
        """Those whose results are not the expected ones."""
        return [one for one, got in zip(some, self.results(program, some))
                if got != self.expected(one)]

    def described(self, program, one):
        """A text about one whose result is not the expected one."""
        return f'{one}: expected {self.expected(one)}, got {self.results(program, [one])}'
