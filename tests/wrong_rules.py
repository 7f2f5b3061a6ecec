"""Try wrong rules: the definitions of a layout with one place changed. A table must refuse each.

    python3 tests/wrong_rules.py [swiss|girocode] [WORD]

tries those of one layout or of both (tests/lib/wrong_swiss.py, tests/lib/wrong_girocode.py, and with each
tests/lib/wrong_shared.py), or only those whose name has that word. Each is tried on a copy that has the
definitions of `sieve` and of the layout and its two tables, and no other claim, no proof, no function
and no worked example. There the prover is asked to show that a row of the tables is wrong: it must
fail for the rules as they are, and succeed for each wrong rule. The girocode's take 15 minutes of
processor time; it is no part of the gate. Prints a line for each failure and at the end `N passed,
M failed`.
"""

import re
import shutil
import subprocess
import sys
import tempfile
from multiprocessing import Pool
from pathlib import Path

sys.path.insert(0, str(Path(__file__).resolve().parent / 'lib'))

import wrong_girocode
import wrong_swiss
from claims import CRATES
from telling import told
from wrong_shared import SHARED

LAYOUTS = {'swiss': wrong_swiss, 'girocode': wrong_girocode}
CLAIM = re.compile(r'\npub \S+ : T \(right \w+ (?P<rows>\w+)\)\nunfolding (?P<opened>.*)\n.*\n')
ROW = re.compile(r'^    (?:∷ )?(?:good|bad|case|record)', re.MULTILINE)
SIZES = re.compile(r'\n.*\npub base_sizes .*\n.*\n')
ERROR = re.compile(r'^(\S+?):\d+:\d+: error:', re.MULTILINE)
TABLES = ('Table', 'SecondTable')
ASKED = 'Asked.antt'
PROCESSES = 2


# The copy, and what the prover says of it.

def definitions_alone(copy, layout):
    """Copy the two crates: the definitions and the tables alone."""
    (copy / 'crates.txt').write_text(f'sieve:\n{layout}: sieve\n', 'utf-8')
    for name in ('sieve', layout):
        crate = copy / 'crates' / name
        for part in ('specs', 'src'):
            shutil.copytree(CRATES / name / part, crate / part)
        (crate / 'proofs').mkdir()
        (crate / 'proofs' / 'Lib.antt').touch()
    leave_out(copy / 'crates/sieve/specs', 'Examples')
    leave_out(copy / 'crates' / layout / 'specs', 'Order')
    if layout == 'swiss':
        leave_out(copy / 'crates' / layout / 'specs', 'EditionTable')
    source = copy / 'crates/sieve/src/lib.rt'
    source.write_text(source.read_text('utf-8').partition('\npub fn ')[0] + '\n', 'utf-8')
    tables_alone(copy / 'crates' / layout / 'specs')


def leave_out(specs, name):
    """Leave out a module of the definitions."""
    change(specs / 'Lib.antt', f'pub mod {name}\n', '')
    (specs / f'{name}.antt').unlink()


def tables_alone(specs):
    """Leave the tables without their claims, and make a module that can ask about all their rows."""
    base, *tables = (specs / f'{name}.antt' for name in ('Base', *TABLES))
    base.write_text(SIZES.sub('', base.read_text('utf-8')), 'utf-8')
    for table in tables:
        text = table.read_text('utf-8')
        rows = CLAIM.search(text)['rows']
        table.write_text(CLAIM.sub('', text).replace(f'\npub {rows} :', f'\nunfoldable pub {rows} :'), 'utf-8')
    change(specs / 'Lib.antt', 'pub mod SecondTable\n', 'pub mod SecondTable\npub mod Asked\n')


def ask(copy, layout, comment):
    """Ask for a wrong row of the two tables, first among those of the second from a comment on."""
    texts = [(CRATES / layout / 'specs' / f'{name}.antt').read_text('utf-8') for name in TABLES]
    first, second = (CLAIM.search(text)['rows'] for text in texts)
    opened = CLAIM.search(texts[1])['opened']
    skipped = len(ROW.findall(texts[1].partition(f'    -- {comment}')[0] if comment else texts[1]))
    claim = [
        '-- A row is wrong. Assumes nothing.', *(line for line in texts[1].splitlines() if line.startswith('use ')),
        *(f'use Rattle.{layout}.specs.{name}.{{{rows}}}' for name, rows in zip(TABLES, (first, second))),
        f'pub asked : T (mathlib.Core.Bool.not (right {layout} (lib.ListN.drop {skipped} {second} ++ ({first} ++ {second}))))',
        f'unfolding {first} {opened}', 'asked = tt', '']
    (copy / 'crates' / layout / 'specs' / ASKED).write_text('\n'.join(claim), 'utf-8')


def change(file, old, new):
    """Change a text that stands once in a file, and give the file's text as it was."""
    text = file.read_text('utf-8')
    if text.count(old) != 1:
        raise ValueError(f'{old!r} stands {text.count(old)} times in {file.name}')
    file.write_text(text.replace(old, new), 'utf-8')
    return text


def failing(copy, layout):
    """The files in which the prover found an error."""
    run = subprocess.run(['rt', 'check'], cwd=copy / 'crates' / layout, capture_output=True, text=True, check=False)
    found = {Path(file).name for file in ERROR.findall(run.stdout + run.stderr)}
    return found if found or run.returncode == 0 else {run.stdout + run.stderr}


# The tries, each process with a copy of its own.

class Copies:
    """The copies of a process."""
    folder = Path()

    @classmethod
    def begin(cls, folder):
        """Begin a process."""
        cls.folder = Path(tempfile.mkdtemp(dir=folder))

    @classmethod
    def of(cls, layout):
        """The copy of a layout, made once."""
        copy = cls.folder / layout
        if not copy.exists():
            copy.mkdir()
            definitions_alone(copy, layout)
        return copy


def tried(layout, wrong=None):
    """The rules as they are, or with one wrong, as a check: its name, where the prover should fail to
    find a wrong row, and where it fails."""
    copy = Copies.of(layout)
    ask(copy, layout, wrong.rows if wrong else '')
    if wrong is None:
        return f'{layout}: the rules as they are', {ASKED}, failing(copy, layout)
    file = copy / 'crates' / wrong.file
    before = change(file, wrong.old, wrong.new)
    files = failing(copy, layout)
    file.write_text(before, 'utf-8')
    return f'{layout}: {wrong.file}: {wrong.name}: a row refuses it', set(), files


def wanted(layouts, word):
    """Each layout as it is, and then each wrong rule of it that has a word in its name."""
    for layout in layouts:
        yield layout, None
        for wrong in (*LAYOUTS[layout].wrong_rules(), *SHARED):
            if word in wrong.name:
                yield layout, wrong


def main(words):
    """Try them; the exit status is 1 if any is not refused."""
    if any(word in ('-h', '--help') for word in words):
        print(__doc__)
        return 0
    layouts = [words.pop(0)] if words and words[0] in LAYOUTS else list(LAYOUTS)
    with tempfile.TemporaryDirectory() as folder, Pool(PROCESSES, Copies.begin, [folder]) as pool:
        tries = [pool.apply_async(tried, one) for one in wanted(layouts, ' '.join(words))]
        return told(one.get() for one in tries)


if __name__ == '__main__':
    sys.exit(main(sys.argv[1:]))
