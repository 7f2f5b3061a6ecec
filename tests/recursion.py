"""Check that no function of the code calls itself, by itself or by way of others.

The prover says nothing of the stack. Where no call comes back to the function that made it, a call
takes as much of it as the code has, whatever it is handed. A crate calls only those below it, which
`rt` asks for; so it is enough to follow the calls within each crate.
Prints a line for each failure and at the end `N passed, M failed`.
"""

import re
import sys
from pathlib import Path

sys.path.insert(0, str(Path(__file__).resolve().parent / 'lib'))

from claims import CRATES
from telling import told
from wrong_programs import FUNCTION

CALL = re.compile(r'(?:\b(?P<of>\w+)::)?\b(?P<name>[a-z_]\w*)\(')


def bodies(text):
    """Each function of a source text with its own text, up to the next one."""
    heads = list(FUNCTION.finditer(text))
    ends = [head.start() for head in heads[1:]] + [len(text)]
    return [(head['name'], text[head.end():end]) for head, end in zip(heads, ends)]


def calls_of(crate):
    """For each function of a crate those of the crate that it calls."""
    files = sorted((crate / 'src').glob('**/*.rt'))
    found = [pair for file in files for pair in bodies(file.read_text('utf-8'))]
    names = {name for name, _ in found}
    others = {path.name for path in CRATES.iterdir()} - {file.stem for file in files}
    return {name: {call['name'] for call in CALL.finditer(text) if call['of'] not in others} & names
            for name, text in found}


def reached(calls, name):
    """All functions that a function comes to, by any number of calls."""
    seen, left = set(), list(calls[name])
    while left:
        one = left.pop()
        if one not in seen:
            seen.add(one)
            left += calls[one]
    return seen


def checks():
    """For each function that it does not come to itself."""
    for crate in sorted(path for path in CRATES.iterdir() if (path / 'src').exists()):
        calls = calls_of(crate)
        for name in calls:
            yield f'{crate.name}::{name} comes to itself', False, name in reached(calls, name)


if __name__ == '__main__':
    sys.exit(told(checks()))
