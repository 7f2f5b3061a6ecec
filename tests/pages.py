"""Hold the pages to the tree.

In CLAIMS, DECISIONS, ONE_ANSWER, SOURCES, TOUR, RULES and README every path that begins with a folder of the
repository is there, and so is every name that stands before its path in brackets, as `name` (`path`).
Commands of README, TOUR and CHECK-US that stand behind a dollar sign answer what the page says. Each landing's note has
the check's time before it and another, and no word in capitals alone that waits to be filled in.
Prints a line for each failure and at the end `N passed, M failed`.
"""

import re
import subprocess
import sys
from pathlib import Path

sys.path.insert(0, str(Path(__file__).resolve().parent / 'lib'))

from claims import ROOT
from telling import told

DOCS = ROOT / 'docs'
PAGES = [ROOT / 'README.md', *(DOCS / f'{name}.md' for name in (
    'CLAIMS', 'DECISIONS', 'ONE_ANSWER', 'SOURCES', 'TOUR', 'RULES', 'CHECK-US', 'COST', 'SPEED'))]
FOLDERS = 'crates|docs|tests|bench|examples|include|python|.ci'
PATH = re.compile(rf'`((?:{FOLDERS})/[\w./*-]+)`')
# `name` (`path`), also `name`, `other` (`path`): names, and the path in brackets behind them
NAMED = re.compile(rf'((?:`[^`\n]+`(?:, | and | or )?)+) \(`((?:{FOLDERS})/[\w./-]+)`')
NAME = re.compile(r'`([^`]+)`')
WORD = re.compile(r'[\w·-]+$')
RUN = re.compile(r'^    \$ (.+)\n((?:    [^$\n].*\n)*)', re.MULTILINE)
WAITING = re.compile(r'\b(?:TODO|TBD|FIXME|XXX|TIMES|HERE|LATER)\b')


def text_of(path):
    """What stands in a file, or in all files of a folder."""
    if path.is_dir():
        return '\n'.join(text_of(one) for one in sorted(path.rglob('*')) if one.suffix in ('.rt', '.antt'))
    return path.read_text('utf-8')


def checks_of_paths(page):
    """The checks of each path on a page, and of each name that stands before one."""
    text = page.read_text('utf-8')
    for path in sorted(set(PATH.findall(text))):
        there = list(ROOT.glob(path)) if '*' in path else [ROOT / path] if (ROOT / path).exists() else []
        built = path.startswith('target/')
        yield f'{page.name}: {path} is there', True, bool(there) or built
    for names, path in NAMED.findall(text):
        if not (ROOT / path).exists():
            continue
        words = text_of(ROOT / path)
        for name in NAME.findall(names):
            last = re.split(r'[ .:(]', name.strip())[-1] if '::' in name else re.split(r'[ (]', name)[0]
            if WORD.match(last) and '/' not in name:
                yield f'{page.name}: {name} stands in {path}', True, last in words


def checks_of_commands():
    """The commands of README, TOUR and CHECK-US that show an answer, each with that."""
    for page in (ROOT / 'README.md', DOCS / 'TOUR.md', DOCS / 'CHECK-US.md'):
        for command, answer in RUN.findall(page.read_text('utf-8')):
            ran = subprocess.run(command, shell=True, cwd=ROOT, stdout=subprocess.PIPE, text=True, check=False)
            yield f'{page.name}: {command}', re.sub('(?m)^    ', '', answer), ran.stdout


def checks_of_landings():
    """The checks of each landing's note."""
    notes = sorted((DOCS / 'landings').glob('E*.md'))
    yield 'there are landings', 14, len(notes)
    for note in notes:
        text = note.read_text('utf-8')
        check = text.partition('**The check.**')[2].partition('\n\n')[0]
        yield f'{note.name}: two times, one of them before', True, (
            'before' in check and len(re.findall(r'\d+ s\b', check)) > 1)
        yield f'{note.name}: no word waits', [], WAITING.findall(text)


def all_checks():
    """The checks of every page."""
    for page in PAGES:
        yield from checks_of_paths(page)
        yield f'{page.name}: no word waits', [], WAITING.findall(page.read_text('utf-8'))
    yield from checks_of_commands()
    yield from checks_of_landings()


if __name__ == '__main__':
    sys.exit(told(all_checks()))
