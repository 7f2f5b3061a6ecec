"""The C host over a library, and the reference beside it, for either layout."""

import subprocess
from collections import Counter
from pathlib import Path

import kit
from framing import framed
from layouts import SWISS
from shrinking import difference

HOST = kit.ROOT / 'tests' / 'host' / 'host.c'


def built_host(library: Path, folder: Path, layout=SWISS) -> Path:
    """The host, linked to a library with the calls of include/qrbill.h."""
    folder = folder / layout.name
    return kit.linked(folder / 'host', kit.compiled(HOST, folder, *layout.flags), library)


def host_lines(program, payloads):
    """What the host writes for each payload. Where one ends the host, this says how, and another
    host goes on after it."""
    lines = []
    while len(lines) < len(payloads):
        records = b''.join(map(framed, payloads[len(lines):]))
        ran = subprocess.run(kit.command(program), input=records, stdout=subprocess.PIPE,
                             check=False, env=kit.environment())
        lines += ran.stdout.decode().split('\n')[:-1]
        if len(lines) < len(payloads):
            lines.append(f'the end, with status {ran.returncode}')
    return lines


def refusal(line):
    """The number of the refusal that a line of the host speaks of; 0 if the payload is accepted."""
    return int(line.split()[0]) // 1000


def compare(program, payloads, layout=SWISS):
    """How often each refusal should come (0: accepted), and the payloads that differ."""
    expected = [layout.host_line(payload) for payload in payloads]
    got = host_lines(program, payloads)
    differing = [payload for payload, one, other in zip(payloads, expected, got) if one != other]
    return Counter(map(refusal, expected)), differing


def described(program, payload, layout=SWISS):
    """A text about a payload that differs, made smaller."""
    return difference(payload, layout.host_line, lambda some: host_lines(program, [some])[0])
