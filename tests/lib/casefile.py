r"""The reader of case files: payloads to try, each with the answer it should get.

    # a line that begins with # and an empty line are passed over
    bill B
    SPC|0200|1|CH5800791123000889012|S|Schule Muster|...

    case two-breaks-after-a-name-of-70-umlauts
    from B
    break CRLF
    6: {ü*70}
    then ||
    refused 8 line 33

A bill is `bill NAME` and one line of TEXT; cases of any file may start from it. A case is these
lines in this order, of which only the first two and the last have to be there:

    case NAME           a single word that no other case has
    from BILL           start from a bill, or from `text TEXT`
    break LF            or `break CRLF`; LF where it is not said
    N: TEXT             set line N, or add it if it is one more than the lines so far; any number
    lines N             keep only the first N lines, after all settings; adds none
    then TEXT           put this after the last line
    refused 8 line 33   the answer, as the program writes it

TEXT is UTF-8 and may be empty. In it `|` is a break of the case's kind, `\xHH` the byte HH, `\\`
a backslash, and `{X*n}` is X n times. A bar or a brace itself is written \x7C, \x7B or \x7D.
Exactly one space after `text`, `N:` and `then` is dropped; the rest counts. A break inside
`N: TEXT` moves the later lines only once all are joined.

Anything else is an error.
"""

import re
from functools import cache
from pathlib import Path
from typing import NamedTuple

FOLDER = Path(__file__).resolve().parent.parent / 'cases'
BREAKS = {'LF': b'\n', 'CRLF': b'\r\n'}

HEAD = re.compile(r'(bill|case) (\S+)')
FROM_BILL = re.compile(r'from \S+')
FROM_TEXT = re.compile(r'text( .*)?')
BREAK = re.compile(r'break (LF|CRLF)')
SETTING = re.compile(r'[0-9]+:( .*)?')
LINES = re.compile(r'lines [0-9]+')
THEN = re.compile(r'then( .*)?')
ANSWER = re.compile(r'accepted [0-9]+ lines (LF|CRLF)'
                    r'|refused 3 line [0-9]+ byte [0-9]+|refused (?!3 )[0-9]+ line [0-9]+')

SIGN = r'([^\\{}]|\\x[0-9A-Fa-f]{2}|\\\\)'
TEXT = re.compile(r'(%s|\{%s+\*[0-9]+\})*' % (SIGN, SIGN))
REPEATED = re.compile(r'\{([^{}]+)\*([0-9]+)\}')
ESCAPE = re.compile(rb'\\(x..|\\)')


class FileLine(NamedTuple):
    """A line of a case file, and where it stands."""
    file: str
    number: int
    text: str


class Case(NamedTuple):
    """A payload to try, and the answer it should get."""
    file: str
    name: str
    payload: bytes
    answer: str


class CaseFileError(Exception):
    """Something in a case file that is not of the format."""

    def __init__(self, line, fault):
        super().__init__(f'{line.file}:{line.number}: {fault}')


def read_cases(folder: Path = FOLDER) -> list[Case]:
    """All cases of a folder's case files, in the order of the files' names."""
    bills, cases = read_files(folder)
    # Only now are all the bills known that a case may start from.
    return [make_case(name, steps, bills) for name, steps in cases.items()]


def bill_lines(name: str, folder: Path = FOLDER) -> list[bytes]:
    """The lines of the bill of that name."""
    bills, _ = read_files(folder)
    return [to_bytes(line, b'') for line in bills[name].split('|')]


@cache
def base_lines():
    """The lines of the base bill, read once."""
    return tuple(bill_lines('B'))


def base_bill(lines):
    """The base bill, parted by LF, with other texts for some lines; as long as the last one asks."""
    absent = (max(lines) - len(base_lines())) * (b'',)
    texts = enumerate(base_lines() + absent, start=1)
    return b'\n'.join(lines.get(number, text) for number, text in texts)


def read_files(folder):
    """The text of each bill and the steps of each case of a folder's case files."""
    bills = {}
    cases = {}
    for path in sorted(folder.glob('*.txt')):
        collect(file_lines(path), bills, cases)
    return bills, cases


def file_lines(path):
    """The lines of a case file, but not those to be passed over."""
    lines = []
    for number, data in enumerate(path.read_bytes().split(b'\n'), start=1):
        try:
            text = data.decode('utf-8')
        except UnicodeDecodeError:
            raise CaseFileError(FileLine(path.name, number, ''), 'this is not UTF-8') from None
        if text != '' and not text.startswith('#'):
            lines.append(FileLine(path.name, number, text))
    return lines


def collect(lines, bills, cases):
    """Enter the text of each bill and the steps of each case under their names."""
    while lines:
        line = lines.pop(0)
        head = HEAD.fullmatch(line.text)
        if head is None:
            raise CaseFileError(line, 'a bill or a case should begin here')
        kind, name = head.groups()
        if name in (bills if kind == 'bill' else cases):
            raise CaseFileError(line, f'there is a {kind} {name} already')
        if kind == 'bill':
            bills[name] = take_bill(line, lines)
        else:
            cases[name] = take_steps(line, lines)


def take_bill(head, lines):
    """The text of a bill: one line."""
    if not lines:
        raise CaseFileError(head, 'this bill has no text')
    line = lines.pop(0)
    return written_out(line, line.text)


def take_steps(head, lines):
    """The steps of a case: all lines up to its answer, which is the last step."""
    steps = []
    while lines:
        steps.append(lines.pop(0))
        if ANSWER.fullmatch(steps[-1].text):
            return steps
    raise CaseFileError(head, 'this case has no answer')


def make_case(name, steps, bills):
    """Follow the steps of a case in their order."""
    lines = starting_text(steps.pop(0), bills).split('|')
    brk = 'LF'
    if BREAK.fullmatch(steps[0].text):
        brk = steps.pop(0).text.removeprefix('break ')
    while SETTING.fullmatch(steps[0].text):
        set_line(lines, steps.pop(0))
    if LINES.fullmatch(steps[0].text):
        keep = int(steps.pop(0).text.removeprefix('lines '))
        lines = lines[:keep]
    text = '|'.join(lines)
    if THEN.fullmatch(steps[0].text):
        text += text_after('then', steps.pop(0))
    if len(steps) > 1:
        raise CaseFileError(steps[0], 'this cannot stand here')
    return Case(steps[0].file, name, to_bytes(text, BREAKS[brk]), steps[0].text)


def starting_text(line, bills):
    """The text that the first step starts from."""
    if FROM_TEXT.fullmatch(line.text):
        return text_after('text', line)
    if not FROM_BILL.fullmatch(line.text):
        raise CaseFileError(line, 'a case begins with `from` or `text`')
    name = line.text.removeprefix('from ')
    if name not in bills:
        raise CaseFileError(line, f'there is no bill {name}')
    return bills[name]


def set_line(lines, line):
    """Set line N, or add it."""
    digits = line.text.split(':')[0]
    number = int(digits)
    if not 1 <= number <= len(lines) + 1:
        raise CaseFileError(line, f'there are {len(lines)} lines so far')
    # Where the line is one more than there are, this adds it.
    lines[number - 1:number] = [text_after(digits + ':', line)]


def text_after(word, line):
    """The TEXT after the first word of a line, without the one space between them."""
    return written_out(line, line.text[len(word) + 1:])


def written_out(line, text):
    """A TEXT with each {X*n} written out."""
    if not TEXT.fullmatch(text):
        raise CaseFileError(line, 'there is a wrong backslash or brace in this text')
    return REPEATED.sub(lambda found: found[1] * int(found[2]), text)


def to_bytes(text, brk):
    """The bytes that a written out TEXT stands for."""
    parts = [ESCAPE.sub(escaped_byte, part.encode('utf-8')) for part in text.split('|')]
    return brk.join(parts)


def escaped_byte(found):
    """The byte that an escape stands for."""
    if found[1] == b'\\':
        return b'\\'
    return bytes([int(found[1][1:], 16)])
