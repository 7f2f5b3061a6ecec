"""Run the reference over every case, and check what follows from each of its answers; and hold it to
other ways of reckoning, on texts for the check digits and runs of characters and breaks.

Prints a line for each failure and at the end `N passed, M failed`.
"""

import sys
from pathlib import Path

sys.path.insert(0, str(Path(__file__).resolve().parent / 'lib'))

from casefile import BREAKS, FOLDER, CaseFileError, read_cases
from digit_texts import digit_checks
from layouts import GIROCODE, SWISS
from telling import Count
from text_payloads import text_checks
from writer_order import writer_checks


FOLDERS = {SWISS: FOLDER, GIROCODE: FOLDER / 'girocode'}


def checks_of_case(case, paper):
    """Each check of a case as its name, what should come out, and what does, by a reference."""
    answer = paper.read(case.payload)
    yield 'answer', case.answer, paper.answer_text(answer)
    if isinstance(answer, paper.Accepted):
        yield from checks_of_accepted(case.payload, answer, paper)
    else:
        # Too small a list is told only when nothing else is wrong.
        short = paper.LIST_NUMBERS - 1
        yield f'read with {short} numbers', answer, paper.read(case.payload, short)


def checks_of_accepted(payload, answer, paper):
    """The places give the payload back, by hand and by the writer; too little room does not."""
    count, brk, places = answer
    no_room, short = paper.Refused(15, 0), paper.LIST_NUMBERS - 1
    each = paper.LIST_NUMBERS // paper.MOST_LINES  # numbers of a line
    cut = [payload[places[each * line]:places[each * line] + places[each * line + 1]]
           for line in range(count)]
    yield 'lines joined', payload, BREAKS[brk].join(cut)
    yield 'absent lines', (paper.MOST_LINES - count) * [len(payload), 0, 0][:each], places[each * count:]
    yield f'read with {short} numbers', no_room, paper.read(payload, short)
    exact = len(payload)
    yield 'write', paper.Written(payload), paper.write(payload, places, count, brk, exact)
    yield 'write with a byte less', no_room, paper.write(payload, places, count, brk, exact - 1)


def all_checks():
    """The checks of all cases, of the writer and of texts, each with where it comes from."""
    for layout, folder in FOLDERS.items():
        cases = read_cases(folder)
        if not cases:
            yield folder.name, 'at least one case', 'none'
        for case in cases:
            for name, expected, got in checks_of_case(case, layout.reference):
                yield f'{case.file}: {case.name}: {name}', expected, got
    for some in (writer_checks, digit_checks, text_checks):
        for name, expected, got in some():
            yield f'{some.__module__}.py: {name}', expected, got


def main():
    """Count and print; the exit status is 1 if anything failed."""
    count = Count()
    try:
        count.add(all_checks())
    except CaseFileError as error:
        count.fail(error)
    return count.closed()


if __name__ == '__main__':
    sys.exit(main())
