"""Rows of instructions: a call of the library on an input, beside the same in plain C by each
compiler."""

import sys
from typing import NamedTuple

import bills
from counting import answer, count
from framing import framed
from plain import compilers
from records import record_of
from twins import held, programs


class Row(NamedTuple):
    """The call, what it is made on, and how many bytes that has; the word and the data that the program
    takes; and how many like inputs the data has, where the numbers are one's."""
    call: str
    name: str
    size: int
    word: str
    data: bytes
    parts: int = 1


def reading(kind):
    """Rows of the calls on one payload."""
    payloads = bills.GLANCE if kind == 'glance' else bills.READ
    return [Row(kind, name, len(payload), kind, record_of(payload).packed())
            for name, payload in payloads.items()]


def making(kind):
    """Rows of numbers that are made."""
    return [Row(kind, name, len(text), kind, text) for name, text in bills.NUMBERS[kind].items()]


def counted(call, payloads):
    """Rows of a call that gives counts beside its number."""
    return [Row(call, name, len(payload), call, payload) for name, payload in payloads.items()]


def handed():
    """Rows of a payload that is handed over in bits: all calls together, with the loop around them."""
    for name, payload in bills.HAND.items():
        for size in bills.BITS:
            yield Row('hand', f'{name}, bits of {size}', len(payload), str(size), payload)
        yield Row('hand', f'{name}, all at once', len(payload), str(len(payload)), payload)


def piled():
    """The row of a pile: the bills of reading, one after the other."""
    payloads = bills.READ.values()
    data = b''.join(map(framed, payloads))
    return [Row('pile', f'the {len(payloads)} of read', sum(map(len, payloads)), 'pile', data)]


def tried(parts=1):
    """Rows of seasons, each of so many like bills; the numbers are a bill's."""
    return [Row('season', name, len(payload), 'both', parts * framed(payload), parts)
            for name, payload in bills.SEASON.items()]


def show(*cells):
    """Print a row: the call, what it is made on, numbers."""
    call, name, *numbers = cells
    print(f'{call:6} {name:27}', *(f'{number:>8}' for number in numbers), flush=True)


def counts(row, made):
    """The cells of a row, by the programs that make its call: the library's instructions, those of each
    other with the library's share of them, and the library's a byte."""
    if len({answer(program, row.word, row.data) for program in made.values()}) > 1:
        raise SystemExit(f'{row.call}, {row.name}: they give different answers')
    ours, *others = (count(program, row.word, row.data) / row.parts for program in made.values())
    beside = (cell for theirs in others for cell in (round(theirs), f'{ours / theirs:.2f}'))
    return row.size, round(ours), *beside, f'{ours / row.size:.1f}' if row.size else ''


def table(wanted):
    """Print the rows of pairs of a twin and its rows, once the twin's plain C is held to the reference.
    How far it is stands on standard error, where that is a terminal."""
    heads = [head for name in compilers() for head in (name, 'ratio')]
    show('call', 'of', 'bytes', 'library', *heads, 'a byte')
    done, total = 0, sum(len(rows) for _, rows in wanted)
    for twin, rows in wanted:
        held(twin)
        made = programs(twin)
        for row in rows:
            done += 1
            if sys.stderr.isatty():
                print(f'\r{done} of {total}', end='\r', file=sys.stderr, flush=True)
            show(row.call, row.name, *counts(row, made))
