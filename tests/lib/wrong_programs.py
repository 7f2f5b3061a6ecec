"""The wrong programs that the prover must refuse: crates/CRATE/must-fail/*.edit.

A file that holds one wrong program is named after it. A file that holds several tries them in one
check: each changes one function, and stands behind a line `# FUNCTION, NAME: why it is wrong`.

Where a wrong program is shown to answer wrongly (tests/wrong_answers), a line says on what, and both
answers. It stands before the program's texts, and where there are several behind that line:
`# On QUESTION it answers "WRONG"; right is "RIGHT".`
"""

import re
from pathlib import Path
from typing import NamedTuple

from claims import CRATES

HEAD = re.compile(r'^# (?P<function>\w+), (?P<name>\w+): \S')
SHOWN = re.compile(r'^# On (?P<question>.+) it answers "(?P<wrong>.*)"; right is "(?P<right>.*)"\.$')
FUNCTION = re.compile(r'^(?P<indent> *)(?:#\[.*\]\n *)*(?:pub )?(?:extern "C" )?fn (?P<name>\w+)', re.MULTILINE)


class Replacement(NamedTuple):
    """A text of a file that is taken out, and the one that is put in."""

    file: str
    old: str
    new: str


class WrongProgram(NamedTuple):
    """A wrong program; its function is empty where its file holds no other."""

    edit: Path
    function: str
    name: str
    replacements: list[Replacement]

    @property
    def crate(self):
        """The crate that it is a wrong program of."""
        return self.edit.parent.parent.name

    @property
    def check(self):
        """The check that it is tried in, as CRATE/EDIT."""
        return f'{self.crate}/{self.edit.stem}'


class Shown(NamedTuple):
    """A question that a wrong program answers wrongly, with both answers."""

    question: str
    wrong: str
    right: str


def edits():
    """The files of wrong programs."""
    return sorted(CRATES.glob('*/must-fail/*.edit'))


def parts(edit):
    """The replacements of a file, each with the function and the name that stand before it."""
    head, file, old = ('', edit.stem), '', ''
    for line in edit.read_text('utf-8').splitlines():
        if found := HEAD.match(line):
            head = (found['function'], found['name'])
        elif line.startswith('file: '):
            file = line.removeprefix('file: ')
        elif line.startswith('old: '):
            old = line.removeprefix('old: ')
        elif line.startswith('new:'):
            yield head, Replacement(file, old, line.removeprefix('new:').removeprefix(' '))


def programs_of(edit):
    """The wrong programs of a file."""
    found = {}
    for head, replacement in parts(edit):
        found.setdefault(head, []).append(replacement)
    return [WrongProgram(edit, *head, replacements) for head, replacements in found.items()]


def wrong_programs():
    """All wrong programs."""
    return [program for edit in edits() for program in programs_of(edit)]


def answers_of(edit):
    """What a file says of answers, each with the function and the name that stand before it."""
    head = '', edit.stem
    for line in edit.read_text('utf-8').splitlines():
        if found := HEAD.match(line):
            head = (found['function'], found['name'])
        elif found := SHOWN.match(line):
            yield head, Shown(**found.groupdict())


def shown_programs():
    """The wrong programs that are shown to answer wrongly, each with its question."""
    for edit in edits():
        programs = {(program.function, program.name): program for program in programs_of(edit)}
        for head, shown in answers_of(edit):
            yield programs[head], shown


def function_at(text, place):
    """The function of a source text that a place lies in; none if it lies outside all of them."""
    heads = [head for head in FUNCTION.finditer(text) if head.start() <= place]
    if not heads:
        return ''
    end = re.compile(rf'^{heads[-1]["indent"]}}}$', re.MULTILINE).search(text, heads[-1].start())
    return heads[-1]['name'] if end and place < end.end() else ''


def function_at_line(text, line):
    """The function that a line of a source text lies in, counted from 1."""
    return function_at(text, sum(len(one) + 1 for one in text.split('\n')[:line - 1]))


def changed_functions(program):
    """The functions that a wrong program changes, by where its texts stand in the sources."""
    for replacement in program.replacements:
        text = (CRATES / program.crate / replacement.file).read_text('utf-8')
        yield function_at(text, text.index(replacement.old)) if replacement.old in text else ''
