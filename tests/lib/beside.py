"""The C host that damages payloads and calls the library and the plain C of bench/ for each."""

import subprocess
from collections import Counter
from pathlib import Path

import kit
from damage import BILLS, CASES
from framing import framed

FOLDER = kit.ROOT / 'tests' / 'host'
SIEVE = kit.ROOT / 'bench' / 'sieve.c'
CALLS = ('read', 'line', 'places', 'glance', 'write')

REFUSALS = range(19)  # 0: none

# Those that have to come at least once. No bytes (1) and a break unlike the first one (4) never come
# of the writer, which lays 30 breaks or more, all alike. 16 and 17 are told by other calls.
MUST_COME = {
    'read': range(14),
    'places': (*range(14), 15),
    'write': (0, 2, 3, *range(5, 16), 18),
}

# Accepted bills come more often, so that most payloads stay near one. What is longer than the host
# has room for is left out.
MOST_PAYLOAD = 2000  # as in damages.h
TIMES = 4
STARTS = [payload for payload in [*(case.payload for case in CASES), *TIMES * BILLS]
          if len(payload) <= MOST_PAYLOAD]


def built_beside(library: Path, folder: Path, sieve: Path = SIEVE) -> Path:
    """The host, linked to a library with the calls of include/qrbill.h and to a sieve in plain C,
    whose calls get names of their own."""
    folder = folder / 'beside'
    renamed = [f'-Dqrbill_{call}=plain_{call}' for call in CALLS]
    return kit.linked(folder / 'beside', kit.compiled(FOLDER / 'beside.c', folder),
                      kit.compiled(FOLDER / 'damages.c', folder),
                      kit.compiled(sieve, folder, *renamed), library)


def times_each(lines):
    """How often each refusal came, by call and number, from the lines of the host."""
    words = (line.split() for line in lines)
    return Counter({(call, int(number)): int(times) for call, number, times in words})


def table(times):
    """A line for each refusal: how often it came of each call."""
    for number in REFUSALS:
        cells = ', '.join(f'{call} {times[call, number]}' for call in MUST_COME)
        yield f'refused {number}: {cells}' if number else f'accepted: {cells}'


def compare_beside(count, program, seed, rounds):
    """Count rounds, in which both sides agree on all calls, and that each refusal came; print how
    often it did. The host ends at the first difference, and says what it is."""
    ran = subprocess.run(kit.command(program, str(seed), str(rounds)), check=False,
                         input=b''.join(map(framed, STARTS)), stdout=subprocess.PIPE,
                         env=kit.environment())
    told = ran.stdout.decode()
    if ran.returncode != 0:
        count.fail(f'beside the plain C, seed {seed}: status {ran.returncode}\n{told}')
        return
    times = times_each(told.splitlines())
    count.compared(sum(times['read', number] for number in REFUSALS), [], str)
    print(*table(times), sep='\n', flush=True)
    count.add((f'{call}, refusal {number}: comes at all', True, times[call, number] > 0)
              for call, numbers in MUST_COME.items() for number in numbers)
