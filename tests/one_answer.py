"""Check that no public function of a library is without its proof of one answer and a wrong program.

Public is what another crate can call: a `pub fn` of a library's lib.rt, or of a file that is
declared there by `pub mod`. Each has an `ensures`; a theorem in its crate's proofs/OneAnswer.antt
whose statement is `OneAnswer` of it and of its contract, with few exceptions, which are listed
below; and a row in the table of docs/ONE_ANSWER.md, which has no other rows and names one or more wrong
programs of its crate. Every wrong program that the claims name, as CRATE/NAME, is there. That the
theorems are proved and the wrong programs refused is for `rt` to say.
Prints a line for each failure and at the end `N passed, M failed`.
"""

import re
import sys
from pathlib import Path
from typing import NamedTuple

sys.path.insert(0, str(Path(__file__).resolve().parent / 'lib'))

from claims import CLAIMS, CRATES, ONE_ANSWER, ROOT
from telling import told
from wrong_programs import wrong_programs

CRATE = re.compile(r'^(\w+)(?: staticlib)?:', re.MULTILINE)
PUBLIC_MODULE = re.compile(r'^pub mod (\w+);', re.MULTILINE)
PUBLIC_USE = re.compile(r'^ *pub use .*', re.MULTILINE)
# The contract ends where the body begins, or at an empty line.
PUBLIC_FUNCTION = re.compile(r'^ *pub (?:[\w"]+ )*fn (\w+)(.*?)^ *(?:[{}]|$)',
                             re.MULTILINE | re.DOTALL)
ENSURES = re.compile(r'^ *ensures\b', re.MULTILINE)
THEOREM = re.compile(r'^pub (one_\S+) :(.*?)^\S', re.MULTILINE | re.DOTALL)
METHOD_OF = r'(?:[A-Z]\w*\.)?'  # the type of a method stands before its name
NAMED_FUNCTION = re.compile(rf'\b(?:fn|contracts)\.{METHOD_OF}(\w+)\.')
NAME = re.compile(r'`([^`]+)`')
NAMED_PROGRAM = re.compile(r'`(\w+)/(\w+)`')
NAMED_CONTRACT = re.compile(rf'\b(?:fn|contracts)\.{METHOD_OF}(\w+)\.(?:Reads\.Learnt|clauses)\b')

# Functions that take or make a struct which holds a reference: their theorems take a reading of the
# contract that stands in the same file, which shows that the contract says just that.
OWN_READINGS = {('viewer', name) for name in ('open', 'done', 'line', 'next')}
# Functions that hand out a part of what they were lent. Two such parts are compared by what a
# program has of them, and not by the ghost name of the reference (docs/ONE_ANSWER.md).
PARTS = {('viewer', 'line'), ('viewer', 'line_after'), ('places', 'line'), ('pile', 'bill')}
# Functions that read an input: what they answer hangs on what comes, and not on their arguments alone.
OF_INPUT = {('intake', 'read_all')}


class Function(NamedTuple):
    """A public function."""

    crate: str
    name: str
    contract: str

    @property
    def theorem(self):
        """The name of its theorem."""
        return 'one_' + self.name

    @property
    def key(self):
        """What a row of the table begins with, and its theorem."""
        return self.crate, self.name, self.theorem


class Row(NamedTuple):
    """A row of the table."""

    crate: str
    function: str
    theorem: str
    wrong: list[str]

    @property
    def key(self):
        """The function that it is about, as Function gives it."""
        return self.crate, self.function, self.theorem

    @property
    def programs(self):
        """The wrong programs that it names, each with its crate."""
        return {(self.crate, name) for name in self.wrong}


def libraries():
    """The names of the crates that are no programs."""
    names = CRATE.findall((ROOT / 'crates.txt').read_text('utf-8'))
    return [name for name in names if (CRATES / name / 'src' / 'lib.rt').exists()]


def public_texts(file, modules):
    """What stands in a source file, and in each that it declares public."""
    text = file.read_text('utf-8')
    yield text
    for name in PUBLIC_MODULE.findall(text):
        yield from public_texts(modules / f'{name}.rt', modules / name)


def public_text(crate):
    """All that another crate can see of a library."""
    source = CRATES / crate / 'src'
    return '\n'.join(public_texts(source / 'lib.rt', source))


def is_of_form(function, statement):
    """Whether a theorem says that the function's contract, and no other, leaves one answer: of a generic
    function, at each type."""
    key = function.crate, function.name
    if key in PARTS:
        return True
    contract = rf'contracts\.{METHOD_OF}{function.name}\.ended'
    reading = rf'fn\.{METHOD_OF}{function.name}\.Reads\.Learnt'
    at_a_type = r'(?:\(\w+ : [\w. ]+\) )+→ '
    generic = rf'\s*{at_a_type}OneAnswer \({contract}(?: \w+)+\) \({reading}(?: \w+)+\)\s*'
    own = r'\w+' if key in OWN_READINGS else reading
    plain = rf'\s*OneAnswer {contract} {own}\s*'
    return re.fullmatch(generic, statement) is not None or re.fullmatch(plain, statement) is not None


def public_functions(crate):
    """The public functions of a library whose answer their arguments leave, in the order of its source."""
    functions = [Function(crate, *found) for found in PUBLIC_FUNCTION.findall(public_text(crate))]
    return [function for function in functions if (crate, function.name) not in OF_INPUT]


def proof_text(crate):
    """The file of a crate's theorems that there is one answer."""
    file = CRATES / crate / 'proofs' / 'OneAnswer.antt'
    return file.read_text('utf-8') if file.exists() else ''


def table():
    """The rows of the table: crate, function, what its contract fixes, theorem, wrong programs."""
    for line in ONE_ANSWER.read_text('utf-8').splitlines():
        if line.startswith('| `'):
            crate, function, _, theorem, wrong = (NAME.findall(cell) for cell in line.split('|')[1:-1])
            yield Row(*crate, *function, *theorem, wrong)


def checks_of_library(crate, rows):
    """The checks of each public function of a library."""
    proofs = proof_text(crate)
    statements = dict(THEOREM.findall(proofs))
    contracts = NAMED_CONTRACT.findall(proofs)
    yield f'{crate}: functions under other names', [], PUBLIC_USE.findall(public_text(crate))
    for function in public_functions(crate):
        name = f'{crate}::{function.name}'
        yield f'{name}: has an ensures', True, bool(ENSURES.search(function.contract))
        named = NAMED_FUNCTION.findall(statements.get(function.theorem, ''))
        yield f'{name}: {function.theorem} names', {function.name}, set(named)
        yield f'{name}: its contract is named', True, function.name in contracts
        form = is_of_form(function, statements.get(function.theorem, ''))
        yield f'{name}: {function.theorem} has the form of such theorems', True, form
        yield f'{name}: rows in {ONE_ANSWER.name}', 1, [row.key for row in rows].count(function.key)


def checks_of_claims(rows):
    """The checks that the wrong programs which the claims name are there."""
    there = {(program.crate, program.name) for program in wrong_programs()}
    for row in rows:
        name = f'the row of {row.crate}::{row.function}'
        yield f'{name} names a wrong program', True, bool(row.wrong)
        yield f'{name} names none that is not there', set(), row.programs - there
    named = {one for one in NAMED_PROGRAM.findall(CLAIMS.read_text('utf-8')) if one[0] in libraries()}
    yield 'wrong programs of the claims that are not there', set(), named - there


def all_checks():
    """The checks of every library, and of every row of the table."""
    rows = list(table())
    functions = [function for crate in libraries() for function in public_functions(crate)]
    yield 'there are public functions', True, bool(functions)
    for crate in libraries():
        yield from checks_of_library(crate, rows)
    known = [function.key for function in functions]
    for row in rows:
        name = f'the row of {row.crate}::{row.function}'
        yield f'{name} is about a public function', True, row.key in known
    yield from checks_of_claims(rows)


if __name__ == '__main__':
    sys.exit(told(all_checks()))
