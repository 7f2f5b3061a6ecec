"""Calls of the library and the same in plain C: programs that make them, and how the C is held to the
reference.

The hosts of tests/host hold the C, as they hold the library in tests/host/run.
"""

from functools import cache, partial
from pathlib import Path
from typing import Callable, NamedTuple

import counted_calls
import hosting
import kit
import lending
import making
import piling
import scanning
import seasons
from chance import Dice
from damage import CASES, damaged
from glance_payloads import glance_payloads
from mending import MEND, mangled, random_mangled
from plain import BENCH, FOLDER, plain
from swift import SWIFT, mappings, random_mappings

SEED, FEW = 1, 300


class Host(NamedTuple):
    """A host: its source, which of some inputs it answers otherwise than the reference, a text about
    such a one, inputs at all edges and so many by chance, how many those are in bench/check, and what
    it is compiled with."""
    source: Path
    differing: Callable[[Path, list], list]
    described: Callable[..., str]
    inputs: Callable[[int], list]
    by_chance: int
    flags: tuple = ()

    def built(self, folder, objects):
        """The host, linked to plain C."""
        return kit.linked(folder / self.source.stem, kit.compiled(self.source, folder, *self.flags),
                          *objects)

    def few(self):
        """Some hundred of the inputs."""
        dice, some = Dice(SEED), self.inputs(FEW)
        return [dice.pick(some) for _ in range(FEW)]


class Twin(NamedTuple):
    """Calls: the program here that makes them, their files of plain C, the hosts that hold these, and
    what the program is compiled with."""
    program: str
    sources: tuple
    hosts: tuple
    flags: tuple = ()


def payloads(count):
    """Every case, and bills damaged by chance."""
    return [*(case.payload for case in CASES), *damaged(SEED, count)]


def records(count):
    """The same to be read and written, half of them with one thing changed."""
    dice = Dice(SEED)
    return [lending.attempt(dice, payload) for payload in payloads(count)]


def at_edges(edges, by_chance):
    """What gives inputs at all edges and so many by chance."""
    return lambda count: [*edges(), *by_chance(SEED, count)]


def counts_host(call, inputs, by_chance):
    """The host of a call that gives counts beside its number."""
    return Host(counted_calls.HOST, call.differing, call.described, inputs, by_chance, call.flags)


READING = Host(hosting.HOST, lambda host, some: hosting.compare(host, some)[1], hosting.described,
               lambda count: [*payloads(count), *glance_payloads()], 20000)
LENDING = Host(lending.HOST, lending.differing_records,
               partial(lending.record_described, 'plain C'), records, 20000)
MAKING = Host(making.HOST, making.differing_makings, making.making_described,
              at_edges(making.makings, making.random_makings), 20000)
PILING = Host(piling.HOST, piling.differing_piles, piling.pile_described,
              at_edges(piling.piles, piling.random_piles), 2000)
TRYING = Host(seasons.HOST, seasons.differing_seasons, seasons.season_described,
              at_edges(seasons.seasons, seasons.random_seasons), 2000)
SCANNING = Host(scanning.HOST, scanning.differing_scans, scanning.scan_described,
                at_edges(scanning.scans, scanning.random_scans), 2000)

SIEVE = Twin('calls', ('sieve',), (READING, LENDING))
NUMBERS = Twin('make_calls', ('numbers',), (MAKING,))
FIELDS = Twin('counted_calls', ('swift', 'sieve'),
              (counts_host(SWIFT, at_edges(mappings, random_mappings), 20000),), SWIFT.flags)
MENDER = Twin('counted_calls', ('mender', 'sieve'),
              (counts_host(MEND, at_edges(mangled, random_mangled), 20000),), MEND.flags)
HAND = Twin('scan_calls', ('hand', 'sieve'), (SCANNING,))
PILES = Twin('pile_calls', ('pile', 'sieve'), (PILING, TRYING))
TWINS = SIEVE, NUMBERS, FIELDS, MENDER, HAND, PILES


@cache
def held(twin):
    """Hold the plain C by each compiler to the reference, on some hundred inputs for each host; once,
    however often it is asked for, as with the next."""
    for host in twin.hosts:
        some = host.few()
        for name, objects in plain(*twin.sources).items():
            if host.differing(host.built(FOLDER / name, objects), some):
                raise SystemExit(f'{twin.sources[0]}.c by {name} and the reference differ')


@cache
def programs(twin):
    """The program that makes the calls, over the library and over plain C by each compiler, by name."""
    folder = FOLDER / twin.sources[0]
    driver = kit.compiled(BENCH / f'{twin.program}.c', folder, *twin.flags)
    code = {'library': [kit.static_library('capi')], **plain(*twin.sources)}
    return {name: kit.linked(folder / f'in_{name}', driver, *files) for name, files in code.items()}
