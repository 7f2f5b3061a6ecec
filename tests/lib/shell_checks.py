"""What a shell asks of ./qrbill beyond one line of one bill: many files, girocodes, lines, mending, SWIFT
fields, what is made, a season; each held to the references, with its status, its words and its manners."""

import json
import os
import pty
import re
import subprocess
import tempfile
from pathlib import Path
from typing import NamedTuple

from casefile import BREAKS, bill_lines, read_cases
from kit import ROOT
from mending import mangled
from reference import girocode, qrbill
from reference.mender import Mended, mended
from reference.numbers import made
from reference.season import tried
from reference.swift import Fields, fields

PROGRAM = ROOT / 'qrbill'
GIROCODES = read_cases(ROOT / 'tests' / 'cases' / 'girocode')
MANY = 1000


class Ran(NamedTuple):
    """What a run wrote, on standard output and standard error, and its exit status."""
    out: bytes
    error: bytes
    status: int


def ran(*words, program=PROGRAM, **given):
    """A run with these words, and with this input."""
    done = subprocess.run([program, *words], stdout=subprocess.PIPE, stderr=subprocess.PIPE,
                          check=False, **given)
    return Ran(done.stdout, done.stderr, done.returncode)


def in_shell(text, *words, **given):
    """A run that a shell starts, with the program as $1."""
    done = subprocess.run(['bash', '-c', text, 'bash', PROGRAM, *words], stdout=subprocess.PIPE,
                          stderr=subprocess.PIPE, check=False, **given)
    return Ran(done.stdout, done.stderr, done.returncode)


def row(name, text):
    """The line of --each for a file, by what the reference says of it."""
    said, first, *rest = text.split()
    if said == 'refused':
        return f"{name}\trefused\t{first}\t{rest[1]}\t{rest[3] if rest[2:] else ''}\t\n"
    return f'{name}\taccepted\t0\t{first}\t\t{rest[1]}\n'


def each_of(folder, payloads, reference, *words):
    """The checks of --each over payloads of a layout, as files of a folder."""
    wanted = ''
    for number, payload in enumerate(payloads):
        (folder / f'{number:04}').write_bytes(payload)
        wanted += row(f'{number:04}', reference.answer_text(reference.read(payload)))
    files = [f'{number:04}' for number in range(len(payloads))]
    status = 1 if 'refused' in wanted else 0
    name = ' '.join(['--each', *words])
    got = ran('--each', *words, *files, cwd=folder)
    yield f'{name}: {len(files)} files', (wanted.encode(), b'', status), tuple(got)
    zeros = '\0'.join(files).encode() + b'\0'
    yield f'{name} -0', (wanted.encode(), b'', status), tuple(ran('--each', '-0', *words, cwd=folder, input=zeros))


def odd_files(folder, bill):
    """Names and files of all sorts, in one call."""
    names = {'a\tb': 'a\\x09b', 'c\nd': 'c\\x0Ad', 'e\\f': 'e\\x5Cf', 'ü': 'ü', '-g': '-g', ' ': ' '}
    for name in names:
        (folder / name).write_bytes(bill)
    (folder / 'sub').mkdir()
    wanted = ''.join(f'{shown}\taccepted\t0\t31\t\tLF\n' for shown in names.values()).encode()
    got = ran('--each', '--', *names, cwd=folder)
    yield 'names with odd characters', (wanted, b'', 0), tuple(got)
    got = ran('--each', '--', *names, 'sub', 'not here', cwd=folder)
    error = b'qrbill: cannot be read: sub\nqrbill: cannot be read: not here\n'
    yield 'files that cannot be read', (wanted, error, 2), tuple(got)
    yield '--each without a file', 2, ran('--each', input=bill).status
    yield '-0 without --each', 2, ran('-0', input=bill).status
    yield '--each -0 of nothing', 0, ran('--each', '-0', input=b'').status


def many_files(folder, bill):
    """A thousand files, a pipe that closes, a full disk, and a terminal."""
    names = [f'{number}' for number in range(MANY)]
    for name in names:
        (folder / name).write_bytes(bill)
    got = ran('--each', *names, cwd=folder)
    yield 'a thousand files', (MANY, b'', 0), (got.out.count(b'\taccepted\t0\t31\t\tLF\n'), got.error, got.status)
    got = in_shell('"$@" | head -n 1', '--each', *names, cwd=folder)
    yield 'a pipe that closes', (b'0\taccepted\t0\t31\t\tLF\n', b''), (got.out, got.error)
    got = in_shell('"$@" >/dev/full', '--each', *names, cwd=folder)
    yield 'a full disk', (b'qrbill: the answer cannot be written\n', 2), (got.error, got.status)
    ours, its = pty.openpty()
    with subprocess.Popen([PROGRAM, '--each', *names], cwd=folder, stdout=subprocess.DEVNULL, stderr=its) as running:
        os.close(its)
        shown = b''
        while chunk := read_some(ours):
            shown += chunk
    os.close(ours)
    yield 'how far it is, at a terminal', True, b'qrbill: 64 of 1000' in shown and running.returncode == 0


def read_some(terminal):
    """What a terminal has; nothing at its end."""
    try:
        return os.read(terminal, 4096)
    except OSError:
        return b''


def girocodes():
    """One girocode at a time, in words and by lines."""
    for case in GIROCODES[::20]:
        answer = girocode.answer_text(girocode.read(case.payload))
        got = ran('--girocode', input=case.payload)
        status = 0 if answer.startswith('accepted') else 1
        yield f'--girocode {case.name}', (f'{answer}\n'.encode(), b'', status), tuple(got)
        got = ran('--girocode', '--explain', input=case.payload)
        yield f'--girocode --explain {case.name}', (answer, b'', status), (
            got.out.decode().split('\n')[0], got.error, got.status)
        yield f'--girocode --explain {case.name}: no control byte', [], controls(got.out)
        if status == 0:
            yield from lines_of(case, 'girocode', '--girocode')


def controls(text):
    """The control bytes but LF in a text, C1 ones in UTF-8 too."""
    return re.findall(rb'[\x00-\x09\x0B-\x1F\x7F]|\xC2[\x80-\x9F]', text)


def swiss_lines():
    """What stands in accepted bills."""
    for case in read_cases()[::40]:
        if isinstance(qrbill.read(case.payload), qrbill.Accepted):
            yield from lines_of(case, 'swiss')


def lines_of(case, layout, *words):
    """The checks of --lines and --json of an accepted payload."""
    brk = b'\r\n' if b'\r\n' in case.payload else b'\n'
    parts = case.payload.split(brk)
    coding = 'latin-1' if layout == 'girocode' and parts[2] == b'2' else 'utf-8'
    texts = [part.decode(coding) for part in parts]
    got = ran('--lines', *words, input=case.payload)
    shown = [line.partition(': ')[2] for line in got.out.decode().split('\n')[:-1]]
    yield f'--lines {case.name}', (texts, b'', 0), (shown, got.error, got.status)
    yield f'--lines {case.name}: no control byte', [], controls(got.out)
    got = ran('--lines', '--json', *words, input=case.payload)
    told = json.loads(got.out)
    yield f'--json {case.name}', (len(texts), 0), (told['lines'], got.status)
    account, name = (4, 6) if layout == 'swiss' else (7, 6)
    yield f'--json {case.name}: fields', (texts[account - 1], texts[name - 1]), (told['account'], told['name'])


def mendings():
    """Mangled payloads, and what is said of them."""
    for number, payload in enumerate([one.payload for one in list(mangled())[::200]]):
        answer = mended(payload, 997)
        got = ran('--mend', input=payload)
        if isinstance(answer, Mended):
            words = 'qrbill: mended: breaks that were not LF {}, spaces taken {}, lines dropped {}\n'.format(*answer.counts)
            yield f'--mend {number}', (answer.data, words.encode(), 0), tuple(got)
        else:
            yield f'--mend {number}', (b'', True, 1), (
                got.out, got.error.startswith(f'qrbill: refused {answer.number} line {answer.line}'.encode()), got.status)


def swift_fields():
    """SWIFT fields of some cases, with and without tags."""
    for case in read_cases()[::60]:
        answer = fields(case.payload, 302)
        got = ran('--swift', input=case.payload)
        if isinstance(answer, Fields):
            yield f'--swift {case.name}', (answer.data, 0), (got.out, got.status)
            tagged = ran('--swift', '--tags', input=case.payload)
            bare = re.sub(rb'(?m)^:(?:59|32B|70):', b'', tagged.out)
            yield f'--swift --tags {case.name}', (answer.data.replace(b'\r', b'') + b'\n', 3, 0), (
                bare, len(re.findall(rb'(?m)^:(?:59|32B|70):', tagged.out)), tagged.status)
        else:
            yield f'--swift {case.name}', (b'', True, 1), (
                got.out, got.error.startswith(f'qrbill: refused {answer.number} line {answer.line}'.encode()), got.status)


MADE = (
    ('qrr', '21000000000313947143000901'), ('qrr', '0' * 26), ('qrr', '1'), ('qrr',), ('qrr', 'x' * 26),
    ('scor', '539007547034'), ('scor', 'A'), ('scor', ''), ('scor', 'a-b'), ('scor', 22 * '1'), ('scor', 100 * '1'),
    ('iban', 'CH', '00791', '123000889012'), ('iban', 'LI', '08810', 'ABCDEFGHIJKL'), ('iban', 'DE', '00791', '123000889012'),
    ('iban', 'CH', '00791'),
)
PARTS = {'qrr': 1, 'scor': 1, 'iban': 3}


def numbers_made():
    """References and accounts, from their parts."""
    for kind, *parts in MADE:
        wanted = made(kind, [*map(str.encode, parts), *3 * [b'']][:PARTS[kind]], 40)
        got = ran('make', kind, *parts)
        name = ' '.join(['make', kind, *parts])
        if isinstance(wanted, bytes):
            yield name, (wanted + b'\n', b'', 0), tuple(got)
        else:
            yield name, (b'', True, 1), (got.out, got.error.startswith(b'qrbill: refused 10 line 0: it takes '), got.status)
    for words in ((), ('cheque',)):
        yield f'make {words}', 2, ran('make', *words).status


GIVEN = {4: 'account', 6: 'name', 7: 'street', 8: 'house', 9: 'postcode', 10: 'town', 11: 'country', 19: 'amount',
         20: 'currency', 21: 'debtor-address-type', 22: 'debtor-name', 23: 'debtor-street', 24: 'debtor-house',
         25: 'debtor-postcode', 26: 'debtor-town', 27: 'debtor-country', 28: 'type', 29: 'reference', 30: 'message',
         32: 'billing', 33: 'procedure', 34: 'procedure-2'}


def bills_made():
    """Bills from fields: each accepted case is made again, and a wrong field is told in words."""
    for case in read_cases()[::50]:
        answer = qrbill.read(case.payload)
        if not isinstance(answer, qrbill.Accepted) or case.payload.endswith(b'\n'):
            continue
        texts = case.payload.split(BREAKS[answer.brk])
        words = [f'{GIVEN[line]}='.encode() + text for line, text in enumerate(texts, start=1) if line in GIVEN and text]
        got = ran('make', 'bill', *(['--crlf'] if answer.brk == 'CRLF' else []), *words)
        yield f'make bill {case.name}', (case.payload, b'', 0), tuple(got)
    good = ['account=CH5800791123000889012', 'name=Schule Muster', 'postcode=8000', 'town=Seldwyla', 'country=CH',
            'currency=CHF', 'type=NON']
    for words, error in (
            (['account=CH5800791123000889013'], 'refused 11 line 4: account: check digits are wrong'),
            (['country=ch'], 'refused 10 line 11: country: it does not have its form (two letters A-Z)'),
            (['house=12345678901234567'], 'refused 9 line 8: house: it has too many characters (at most 16)'),
            (['debtor-name=Pia'], 'refused 8 line 25: debtor-postcode: it must not be empty'),
            (['message=two\nlines'], 'refused 3 line 30 byte 95: message: a character that is not allowed')):
        got = ran('make', 'bill', *good, *words)
        yield f'make bill {words}', (b'', f'qrbill: {error}\n'.encode(), 1), tuple(got)
    for word in ('colour=red', 'name', '--colour'):
        yield f'make bill {word}', 2, ran('make', 'bill', word).status


def seasons(folder):
    """A folder of old and new bills under both editions."""
    cases = [case.payload for case in read_cases()[::9]][:200] + [(ROOT / 'examples' / 'type-k.txt').read_bytes()]
    places, start = [], 0
    for number, payload in enumerate(cases):
        (folder / f'{number:03}').write_bytes(payload)
        cut = payload[:998]
        places += [start, len(cut)]
        start += len(cut)
    answer = tried(b''.join(payload[:998] for payload in cases), places, len(cases), len(cases))
    wanted = ''.join(f'./{position - 1:03}\n' for position in answer.positions)
    wanted += 'CHF {}.{:02}\nEUR {}.{:02}\n'.format(*divmod(answer.sums[0], 100), *divmod(answer.sums[1], 100))
    yield 'season of a folder', (wanted.encode(), b'', 1), tuple(ran('season', '.', cwd=folder))
    with tempfile.TemporaryDirectory() as empty:
        yield 'season of nothing', (b'CHF 0.00\nEUR 0.00\n', b'', 0), tuple(ran('season', empty))
        yield 'season of no folder', 2, ran('season', f'{empty}/x').status
        for number in range(501):
            (Path(empty) / str(number)).write_bytes(b'')
        yield 'season of 501 files', 2, ran('season', empty).status


def nothing_left():
    """No file is left behind by any command."""
    with tempfile.TemporaryDirectory() as name:
        given = {**os.environ, 'TMPDIR': name}
        bill = (ROOT / 'examples' / 'bill.txt').read_bytes()
        for words in ((), ('--explain',), ('--lines',), ('--mend',), ('--swift', '--tags'), ('--girocode', '--explain')):
            ran(*words, input=bill, env=given)
        yield 'files left behind', [], os.listdir(name)


def checks():
    """All of these checks."""
    bill = b'\n'.join(bill_lines('B'))
    payloads = [case.payload for case in read_cases()[::4]]
    for some in (lambda folder: each_of(folder, payloads, qrbill),
                 lambda folder: each_of(folder, [case.payload for case in GIROCODES[::4]], girocode, '--girocode'),
                 lambda folder: odd_files(folder, bill), lambda folder: many_files(folder, bill), seasons):
        with tempfile.TemporaryDirectory() as name:
            yield from some(Path(name))
    for some in (girocodes, swiss_lines, mendings, swift_fields, numbers_made, bills_made, nothing_left):
        yield from some()
