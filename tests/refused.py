"""Check where the prover refused each wrong program.

A wrong program keeps the code's shape and changes its meaning. So what is refused first is a fact
of the proof, and not a name or a field that the change took away. `rt ci` says of each wrong program
that it tries where it was refused first, and says so where that was only a name, or only a limit of
the prover. What it said last stands in target/ci.log, where `.ci/run` puts it; a crate that is as it
was when it last passed on this machine is not tried again, and has no line there.

    tests/refused.py                    holds that log, and the table of lazy programs, to this
    tests/refused.py --try [CRATE/EDIT..]   tries these wrong programs, or all, one check after the
                                        other, in a copy, and holds all that the prover says to it

Only the second sees all that is refused in a check. Where several wrong programs are tried in one
(tests/lib/wrong_programs.py), it asks this of each function that is changed, and that no other
function has a refusal of its own. It takes as long as `rt must-fail`, and is no part of the gate.

A refusal shows that this program is not the proved one, and no more: a program of the same meaning
that is written otherwise may be refused at the same place. That no other program gives another answer
is what the contract says, with its theorem of one answer. That these programs answer wrongly,
tests/wrong_answers shows on an input each.
Prints a line for each failure and at the end `N passed, M failed`.
"""

import re
import shutil
import subprocess
import sys
import tempfile
from pathlib import Path

sys.path.insert(0, str(Path(__file__).resolve().parent / 'lib'))

from claims import CRATES, ROOT, section
from telling import told
from wrong_programs import changed_functions, edits, function_at_line, programs_of

LOGS = ROOT / 'target' / 'must-fail'
SAID = ROOT / 'target' / 'ci.log'

# The prover says of a refusal where it stands, and what is wrong there.
REFUSAL = re.compile(r'^(?:note: )?(?P<file>\S+?):(?P<line>\d+):\d+: (?P<error>error: )?(?P<wrong>.*)', re.MULTILINE)
CONSEQUENCE = re.compile(r'was not admitted|was rejected|was not checked|^note: ')  # of another refusal, or a remark
UNPROVED = re.compile(r'it is not proved that')  # what a note says of code that no proof file speaks of
NOT_A_FACT = re.compile(r'has no (?:field )?`|cannot be named|not in scope|pattern needs a function')
ENDED = re.compile(r'^fn \w+::(?P<function>[\w:]+): (?P<end>.*)', re.MULTILINE)
PROVED = re.compile(r'proved$|.*it calls .* not proved$')  # or held up by one that is not proved
PROOF = re.compile(r'proofs/(?:\w+/)*(?P<function>\w+)/(?:Answers|Invariants)\.antt$')
TRIED = re.compile(r'^rt: must-fail (?P<check>\w+/\w+)\.edit: (?P<how>.*)', re.MULTILINE)
REFUSED = re.compile(r'^rt: ok\b.*must-fail edits: (\d+) refused', re.MULTILINE)
AT_A_FACT = re.compile(r'refused, as it must be: (?:note: )?(?:\./)?(?P<place>\S+?:\d+):')
ROW = re.compile(r'^\| [^|]+ \| `(?P<edit>[^`]+)` \| `(?P<place>[^`]+)`', re.MULTILINE)


def named(edit):
    """A file of wrong programs, as CRATE/EDIT."""
    return f'{edit.parent.parent.name}/{edit.stem}'


def is_refusal(one):
    """Whether a line of a log refuses something by itself: an error, or a note that code is not proved."""
    return not CONSEQUENCE.search(one['wrong']) and bool(one['error'] or UNPROVED.search(one['wrong']))


def refusals(text):
    """What a log refuses, but for consequences of other refusals."""
    return [one for one in REFUSAL.finditer(text) if is_refusal(one)]


def log_of(check):
    """What the prover said of a check."""
    log = LOGS / check / '.log'
    return log.read_text('utf-8') if log.exists() else ''


def file_of(refusal):
    """The file of a refusal, below the crate's folder."""
    return refusal['file'].removeprefix('./')


def first_refusal(check):
    """Where a check was refused first, as FILE:LINE, and what was wrong there: the first error that
    is no consequence of another, or the first note where the prover's own search found no proof."""
    found = next(iter(refusals(log_of(check))), None)
    if found is None:
        return 'nowhere', ''
    return f'{file_of(found)}:{found["line"]}', found['wrong']


def place_of(refusal, check):
    """The function that a refusal is about, by its proof or its source; else the file."""
    file = file_of(refusal)
    if found := PROOF.match(file):
        return found['function']
    if file.startswith('src/'):
        return function_at_line((LOGS / check / f'{file}.txt').read_text('utf-8'), int(refusal['line']))
    return file


def own_refusals(check):
    """Of each function, or file of lemmas, that has a refusal of its own in a log, the first one:
    what is wrong there, and all that the log says of it."""
    text = log_of(check)
    found = refusals(text)
    ends = [one.start() for one in found[1:]] + [len(text)]
    first = {}
    for one, end in zip(found, ends):
        first.setdefault(place_of(one, check), (one['wrong'], text[one.start():end]))
    return first


def checks_of_one(check):
    """The checks of a wrong program that is tried by itself."""
    place, wrong = first_refusal(check)
    yield f'{check} is refused somewhere', True, place != 'nowhere'
    yield f'{check} is refused at a fact ({place}: {wrong[:120]})', None, NOT_A_FACT.search(wrong)


def checks_of_several(check, programs):
    """The checks of wrong programs that are tried together."""
    refused = own_refusals(check)
    ended = {one['function'].rpartition('::')[2]: one['end'] for one in ENDED.finditer(log_of(check))}
    functions = [program.function for program in programs]
    yield f'{check} changes each function once', len(functions), len(set(functions))
    yield f'{check} is refused in what it changes, and nowhere else', sorted(functions), sorted(refused)
    for program in programs:
        name = f'{check}, {program.name}'
        wrong, _ = refused.get(program.function, ('nothing', ''))
        yield f'{name} changes', {program.function}, set(changed_functions(program))
        yield f'{name}: not proved', False, ended.get(program.function, 'proved') == 'proved'
        yield f'{name} is refused at a fact ({wrong[:120]})', None, NOT_A_FACT.search(wrong)
    for function in sorted(set(ended) - set(functions)):
        yield f'{check}: {function} is proved', True, bool(PROVED.match(ended[function]))


def lazy_programs():
    """The edit and the place in each row of the table of lazy programs."""
    return [(row['edit'], row['place']) for row in ROW.finditer(section('Lazy programs'))]


def checks_of_all():
    """The checks of every wrong program that was tried in a copy."""
    for edit in edits():
        if log_of(named(edit)):
            programs = programs_of(edit)
            alone = len(programs) == 1
            yield from checks_of_one(named(edit)) if alone else checks_of_several(named(edit), programs)


def checks_of_log():
    """The checks of what `rt ci` said, and of every row of the table whose wrong program it tried."""
    said = {one['check']: one['how'] for one in TRIED.finditer(SAID.read_text('utf-8'))}
    places = {}
    for check, how in said.items():
        found = AT_A_FACT.match(how)
        yield f'{check} is refused at a fact', True, bool(found) or how == 'refused, as it must be'
        places[check] = found['place'] if found else ''
    counted = REFUSED.findall(SAID.read_text('utf-8'))
    yield 'wrong programs that are refused, in files', [str(len(list(edits())))], counted[-1:]
    programs = lazy_programs()
    yield 'there are lazy programs', True, bool(programs)
    known = {named(edit) for edit in edits()}
    for edit, place in programs:
        yield f'{edit} is a wrong program', True, edit in known
        if edit in places:
            yield f'{edit} is refused first at', place, places[edit]


def try_in_copy(names, tries):
    """Try wrong programs in a copy, and keep all that the prover says of each, with the sources that it
    says it of. (They end in .txt: `rt ci` has no source stand outside a crate.)"""
    shutil.rmtree(LOGS, ignore_errors=True)
    shutil.copytree(CRATES, tries / 'crates')
    shutil.copy(ROOT / 'crates.txt', tries)
    for edit in edits():
        if names and named(edit) not in names:
            continue
        crate = tries / 'crates' / edit.parent.parent.name
        kept = {}
        for program in programs_of(edit):
            for change in program.replacements:
                text = (crate / change.file).read_text('utf-8')
                kept.setdefault(change.file, text)
                (crate / change.file).write_text(text.replace(change.old, change.new), 'utf-8')
        ran = subprocess.run(['rt', 'check'], cwd=crate, stdin=subprocess.DEVNULL, stdout=subprocess.PIPE,
                             stderr=subprocess.STDOUT, text=True, check=False)
        for source in (crate / 'src').glob('**/*.rt'):
            copy = LOGS / named(edit) / f'{source.relative_to(crate)}.txt'
            copy.parent.mkdir(parents=True, exist_ok=True)
            shutil.copy(source, copy)
        (LOGS / named(edit) / '.log').write_text(ran.stdout, 'utf-8')
        for file, text in kept.items():
            (crate / file).write_text(text, 'utf-8')


if __name__ == '__main__':
    if sys.argv[1:2] == ['--try']:
        with tempfile.TemporaryDirectory() as folder:
            try_in_copy(sys.argv[2:], Path(folder))
        sys.exit(told(checks_of_all()))
    sys.exit(told(checks_of_log()))
