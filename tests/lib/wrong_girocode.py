"""Wrong rules of the girocode: each a definition with one place changed."""

from wrong_shared import Wrong, wrong_limits

LIMITS = 'girocode/specs/Limits.antt'
CODING = 'girocode/specs/Coding.antt'
FORMS = 'girocode/specs/Forms.antt'
GIROCODE = 'girocode/specs/Girocode.antt'
ISO8859 = 'sieve/specs/Iso8859.antt'

# Names that a changed file may not have at hand.
LENGTH, TAKE, DROP, GET = (f'lib.ListN.{name}' for name in ('length', 'take', 'drop', 'get_or'))
EQUAL, AT_MOST, MINUS = 'lib.Dec.eqb', 'lib.Dec.leb', 'Prim.Native.Nat.◌-◌'
TRUE, FALSE = 'mathlib.Core.Bool.true', 'mathlib.Core.Bool.false'
SAME, ASCII, WITHIN, EVERY = (f'Rattle.sieve.specs.Bytes.{name}' for name in ('same', 'ascii', 'within', 'every'))
CHARACTERS = 'Rattle.sieve.specs.Characters.characters'
ALPHANUMERIC = 'Rattle.sieve.specs.Letters.alphanumeric'
LINE = 'Rattle.sieve.specs.Rules.line'
LETTER = '(λ x. capital x || Rattle.sieve.specs.Letters.small x)'
AUSTRIAN = f'{SAME} ({TAKE} 2 l) ({ASCII} "AT")'

# Numbers, each one less and one more; and texts. Each limit is one line's.

NUMBERS = {
    'most_bytes': 331, 'fewest_lines': 7, 'most_lines': 12, 'name_most': 70, 'purpose_most': 4,
    'reference_most': 35, 'text_most': 140, 'display_most': 70,
}
TEXTS = {
    'service_tag': ('BCD', 'bcd'), 'version001': ('001', '1'), 'version002': ('002', '003'),
    'utf8': ('1', '0'), 'iso8859_1': ('2', '3'), 'credit_transfer': ('SCT', 'INST'), 'euro': ('EUR', 'eur'),
}

# The rules as they stand, line by line; then 12.

LINES = (
    ('fixed 1 service_tag',),
    ('fixed_as 2 (λ ls. is 2 version001 ls || is 2 version002 ls)',),
    ('fixed_as 3 (λ ls. is 3 utf8 ls || is 3 iso8859_1 ls || has 3 unread_coding ls)', 'unread 3 (has 3 unread_coding)'),
    ('fixed 4 credit_transfer',),
    ('filled 5 (is 2 version001)', 'formed 5 (has 5 bic)'),
    ('filled 6 always', 'sized name_most 6'),
    ('filled 7 always', 'formed 7 (has 7 iban)', 'checked 7 (has 7 checks97)'),
    ('filled 8 (is_last 8)', 'formed 8 (has 8 amount)'),
    ('filled 9 (is_last 9)', 'sized purpose_most 9', 'formed 9 (has 9 basic)'),
    ('filled 10 (is_last 10)', 'sized reference_most 10', 'formed 10 (has 10 basic)'),
    ('filled 11 (is_last 11)', 'sized text_most 11'),
    ('filled 12 (is_last 12)', 'sized display_most 12'),
)
BOTH_FILLED = 'not (is_empty 10 ls) && not (is_empty 11 ls)'
EXCLUSIVE = f'record {{ number = 12; line = 11; broken = λ ls. {BOTH_FILLED} }}'
LAST_LINES = range(8, 13)


def without_rule():
    """Each rule of the list left out."""
    for line in LINES:
        for rule in line:
            after = '\n    ∷ ' if rule == line[-1] else ' ∷ '
            yield Wrong(f'without {rule}', GIROCODE, rule + after, '')
    yield Wrong('without exclusive', GIROCODE, '(exclusive ∷ [])', '[]')


def sooner(later, rule):
    """A later rule asked before a rule; that it is asked again does not matter."""
    return Wrong(f'{"12" if later == EXCLUSIVE else later} before {rule}', GIROCODE, rule, f'{later} ∷ {rule}', 'the order')


def other_orders():
    """Each rule of a line before each of the line before it, and 12 before each; on one line, before
    each that can be broken with it. A last line has no line after it."""
    for line, after in zip(LINES, LINES[1:]):
        for rule in line:
            if 'is_last' not in rule:
                yield from (sooner(later, rule) for later in after)
    for rule in (rule for line in LINES for rule in line):
        if 'is_last' not in rule or '12' in rule:
            yield sooner(EXCLUSIVE, rule)
    for earlier, later in (LINES[6][::2], LINES[6][1:], LINES[8][1:], LINES[9][1:]):
        yield sooner(later, earlier)


CONDITIONS = {
    'under 001 alone': (2, 'is 2 version001 ls'), 'under 002 alone': (2, 'is 2 version002 ls'),
    'under coding 1 alone': (3, 'is 3 utf8 ls'), 'under coding 2 alone': (3, 'is 3 iso8859_1 ls'),
}


# The rows that break a line's rules in one version or coding.
UNDER = {
    **dict.fromkeys((1, 2, 3, 4), 'the same under 002, and'), 5: 'other lengths under 002', 6: 'a name and an IBAN', 7: 'a name and an IBAN',
    8: 'an empty last line', 9: 'an empty last line', 10: 'an empty last line', 11: 'an empty last line', 12: 'an empty last line',
}


def under_a_condition():
    """Each rule asked in one version or one coding alone; a BIC is asked for in one version anyway."""
    for number, line in enumerate(LINES, start=1):
        for rule in line:
            for name, (asked, condition) in CONDITIONS.items():
                if number != asked and not (asked == 2 and 'version001' in rule):
                    new = f'record {{ number = ({rule}).number; line = {number}; broken = λ ls. {condition} && ({rule}).broken ls }}'
                    yield Wrong(f'{rule} {name}', GIROCODE, rule, new, UNDER[number])
    for name, (_, condition) in CONDITIONS.items():
        yield Wrong(f'exclusive {name}', GIROCODE, BOTH_FILLED, f'{condition} && {BOTH_FILLED}', '12: ')


def other_last_lines():
    """An empty line asked about by another number of lines, or by the line before it."""
    for number in LAST_LINES:
        rule = f'filled {number} (is_last {number})'
        yield Wrong(f'line {number} is always filled', GIROCODE, rule, f'filled {number} always', 'an empty last')
        for other in range(number + 1, 14):
            yield Wrong(f'line {number} as if {other} were last', GIROCODE, rule, f'filled {number} (is_last {other})', 'an empty last')
        for other in range(number + 1, 13):
            yield Wrong(f'line {number} is filled if {other} is last', GIROCODE, rule,
                        f'filled {number} (λ ls. is_last {number} ls || is_last {other} ls)', 'a last line')
        for name, when in (('filled', f'not (is_empty {number - 1} ls)'), ('empty', f'is_empty {number - 1} ls')):
            if (number, name) != (8, 'filled'):  # an IBAN is always filled
                yield Wrong(f'line {number} if the one before is {name}', GIROCODE, rule,
                            f'filled {number} (λ ls. is_last {number} ls && {when})', 'an empty last')


# Lengths of one line alone, and what the third line chooses.

def other_sizes():
    """Each length in bytes, and in characters of 01, under both codings."""
    for rule in (rule for line in LINES for rule in line if rule.startswith('sized ')):
        for name, size in (('in bytes', LENGTH), ('by 01', CHARACTERS)):
            yield Wrong(f'{rule} {name}', GIROCODE, rule, rule.replace('sized', f'sized_at_most (λ ls. {size})'), '9: ')


THIRD = f'({LINE} 3 ls)'
IS_2 = 'is 3 iso8859_1 ls'
TESTS = {
    'never': FALSE, 'always': TRUE, **{f'by line {number}': f'is {number} iso8859_1 ls' for number in (1, 2, 4, 5, 12)},
    'by version 002': 'is 2 "002" ls', 'by version 001': 'is 2 "001" ls', 'if it is 1': 'is 3 "1" ls',
    'if it is not 1': f'cond (is 3 "1" ls) {FALSE} {TRUE}',
    'if it is not 1 or 3': f'cond (is 3 "1" ls) {FALSE} (cond (is 3 "3" ls) {FALSE} {TRUE})',
    'if it begins with 2': f'{EQUAL} ({GET} {THIRD} 0 0) 50',
    'if all of it is 2': f'{EVERY} ({WITHIN} 50 50) {THIRD}',
    'if it is 2 to 8': f'cond ({EQUAL} (length {THIRD}) 1) ({EVERY} ({WITHIN} 50 56) {THIRD}) {FALSE}',
    **{f'if it is 2 or "{other}"': f'cond ({IS_2}) {TRUE} (is 3 "{other}" ls)'
       for other in ('', '0', *'456789', 'A', ' 2', '2 ', '02', '20', '12', '21', '22')},
    'of a right line 1 alone': f'cond ({IS_2}) (is 1 "BCD" ls) {FALSE}',
    'of a right line 2 alone': f'cond ({IS_2}) (cond (is 2 "001" ls) {TRUE} (is 2 "002" ls)) {FALSE}',
    'of a right line 4 alone': f'cond ({IS_2}) (is 4 "SCT" ls) {FALSE}',
    'under 001 alone': f'cond ({IS_2}) (is 2 "001" ls) {FALSE}',
    'under 002 alone': f'cond ({IS_2}) (is 2 "002" ls) {FALSE}',
    'of 7 lines and more alone': f'cond ({IS_2}) ({AT_MOST} 7 (length ls)) {FALSE}',
    'of at most 12 lines alone': f'cond ({IS_2}) ({AT_MOST} (length ls) 12) {FALSE}',
}
SIZE_TESTS = ('never', 'always', 'by version 002', 'by version 001', 'if it is 1', 'under 001 alone', 'under 002 alone')


def other_choices():
    """Characters and lengths chosen by another test. Lengths are asked only where the third line is 1
    or 2, so that fewer tests make a difference there."""
    for name, test in TESTS.items():
        yield Wrong(f'characters of ISO 8859-1 {name}', CODING, 'cond (read_as_iso ls) iso8859', f'cond ({test}) iso8859', 'the third line')
    for name in SIZE_TESTS:
        yield Wrong(f'lengths by ISO 8859-1 {name}', CODING, 'cond (read_as_iso ls) (length', f'cond ({TESTS[name]}) (length')


# Fixed texts, and what could pass for them.

def near(text):
    """What could pass for a text of three, as tests of a line `l`."""
    right = f'({ASCII} {text})'
    yield 'and more behind', f'{SAME} ({TAKE} 3 l) {right}'
    yield 'and more before', f'{SAME} ({DROP} ({MINUS} ({LENGTH} l) 3) l) {right}'
    yield 'or its beginning', f'{SAME} l ({TAKE} ({LENGTH} l) {right})'
    yield 'or nothing', f'{SAME} l {right} || {EQUAL} ({LENGTH} l) 0'
    for place in range(3):
        front, rest = (f'{SAME} ({part} {count} l) ({part} {count} {right})' for part, count in ((TAKE, place), (DROP, place + 1)))
        yield f'with anything as place {place + 1}', f'{EQUAL} ({LENGTH} l) 3 && {front} && {rest}'


def other_texts():
    """Each fixed text with what could pass for it."""
    for number, text in ((1, 'service_tag'), (4, 'credit_transfer')):
        for name, test in near(text):
            yield Wrong(f'{text} {name}', GIROCODE, f'fixed {number} {text}', f'fixed_as {number} (has {number} (λ l. {test}))', '6: ')
    for text in ('version001', 'version002'):
        for name, test in near(text):
            yield Wrong(f'{text} {name}', GIROCODE, LINES[1][0], f'fixed_as 2 (λ ls. is 2 version001 ls || is 2 version002 ls || has 2 (λ l. {test}) ls)', '6: ')
    for text in ('000', '003', '004', '1', '2', '01', '02', '011', '012', '101', '102', '00A'):
        yield Wrong(f'version {text} too', GIROCODE, 'is 2 version002 ls)', f'is 2 version002 ls || is 2 "{text}" ls)', '6: ')
    for text in ('0', '9', '01', '02', '10', '11', '12', '20', '21', '22', '33', 'A', ' ', '1 ', ' 1', '2 ', ' 2', '3 ', ' 3'):
        yield Wrong(f'coding {text!r} too', GIROCODE, 'is 3 utf8 ls ||', f'is 3 utf8 ls || is 3 "{text}" ls ||', '6: ')
        yield Wrong(f'coding {text!r} under 17', FORMS, 'unread_coding s = ', f'unread_coding s = same s (ascii "{text}") || ', '6: ')


OTHER_RULES = (
    Wrong('only 001', GIROCODE, 'is 2 version001 ls || is 2 version002 ls', 'is 2 version001 ls'),
    Wrong('only 002', GIROCODE, 'is 2 version001 ls || is 2 version002 ls', 'is 2 version002 ls'),
    Wrong('only coding 1', GIROCODE, 'is 3 utf8 ls || is 3 iso8859_1 ls', 'is 3 utf8 ls'),
    Wrong('only coding 2', GIROCODE, 'is 3 utf8 ls || is 3 iso8859_1 ls', 'is 3 iso8859_1 ls'),
    Wrong('a coding not read told as 6', GIROCODE, 'is 3 iso8859_1 ls || has 3 unread_coding ls', 'is 3 iso8859_1 ls'),
    Wrong('17 told as 6', GIROCODE, 'number = 17', 'number = 6'),
    Wrong('17 told as 10', GIROCODE, 'number = 17', 'number = 10'),
    Wrong('17 told at line 4', GIROCODE, 'unread 3 (has', 'unread 4 (has'),
    # BIC
    Wrong('a BIC always', GIROCODE, 'filled 5 (is 2 version001)', 'filled 5 always'),
    Wrong('a BIC under 002', GIROCODE, 'filled 5 (is 2 version001)', 'filled 5 (is 2 version002)'),
    Wrong('a BIC under coding 1', GIROCODE, 'filled 5 (is 2 version001)', 'filled 5 (is 3 utf8)'),
    Wrong('a BIC if there is an amount', GIROCODE, 'filled 5 (is 2 version001)', 'filled 5 (λ ls. is 2 version001 ls && not (is_empty 8 ls))'),
    Wrong('no BIC for AT', GIROCODE, 'filled 5 (is 2 version001)', f'filled 5 (λ ls. is 2 version001 ls && not (has 7 (λ l. {AUSTRIAN}) ls))'),
    Wrong('a BIC for all but AT', GIROCODE, 'filled 5 (is 2 version001)', f'filled 5 (λ ls. is 2 version001 ls || not (has 7 (λ l. {AUSTRIAN}) ls))'),
    # name and IBAN
    Wrong('a name if there is an IBAN', GIROCODE, 'filled 6 always', 'filled 6 (λ ls. not (is_empty 7 ls))'),
    Wrong('a name if there is no IBAN', GIROCODE, 'filled 6 always', 'filled 6 (is_empty 7)'),
    Wrong('an IBAN unless it is last', GIROCODE, 'filled 7 always', 'filled 7 (λ ls. not (is_last 7 ls))'),
    Wrong('an IBAN if it is last', GIROCODE, 'filled 7 always', 'filled 7 (is_last 7)'),
    Wrong('a name of plain bytes', GIROCODE, 'sized name_most 6', 'sized name_most 6 ∷ formed 6 (has 6 basic)'),
    Wrong('a text of plain bytes', GIROCODE, 'sized text_most 11', 'sized text_most 11 ∷ formed 11 (has 11 basic)'),
    Wrong('a display of plain bytes', GIROCODE, 'sized display_most 12', 'sized display_most 12 ∷ formed 12 (has 12 basic)'),
    # reference and text
    Wrong('either filled', GIROCODE, BOTH_FILLED, 'not (is_empty 10 ls) || not (is_empty 11 ls)'),
    Wrong('neither filled', GIROCODE, BOTH_FILLED, 'is_empty 10 ls && is_empty 11 ls'),
    *(Wrong(f'lines {one} and {two} both filled', GIROCODE, BOTH_FILLED, f'not (is_empty {one} ls) && not (is_empty {two} ls)')
      for one, two in ((8, 10), (8, 11), (9, 10), (9, 11), (9, 12), (10, 12), (11, 12))),
    *(Wrong(f'both filled, and line {other} {name}', GIROCODE, BOTH_FILLED, f'{BOTH_FILLED} && {test}')
      for other in (5, 8, 9, 12) for name, test in (('empty', f'is_empty {other} ls'), ('filled', f'not (is_empty {other} ls)'))),
    *(Wrong(f'both filled in {number} lines', GIROCODE, BOTH_FILLED, f'{BOTH_FILLED} && is_last {number} ls') for number in (11, 12)),
    Wrong('both filled and alike', GIROCODE, BOTH_FILLED, f'{BOTH_FILLED} && {SAME} ({LINE} 10 ls) ({LINE} 11 ls)'),
    Wrong('both filled and unlike', GIROCODE, BOTH_FILLED, f'{BOTH_FILLED} && not ({SAME} ({LINE} 10 ls) ({LINE} 11 ls))'),
    Wrong('both longer than a character', GIROCODE, BOTH_FILLED, f'not ({AT_MOST} ({LENGTH} ({LINE} 10 ls)) 1) && not ({AT_MOST} ({LENGTH} ({LINE} 11 ls)) 1)'),
    Wrong('12 told at line 10', GIROCODE, 'number = 12; line = 11', 'number = 12; line = 10'),
    Wrong('12 told at line 12', GIROCODE, 'number = 12; line = 11', 'number = 12; line = 12'),
    Wrong('12 told as 11', GIROCODE, 'number = 12; line = 11', 'number = 11; line = 11'),
    Wrong('12 told as 7', GIROCODE, 'number = 12; line = 11', 'number = 7; line = 11'),
    # the order of groups
    Wrong('lines 5 to 7 before 1 to 4', GIROCODE, 'header ∷ receiver', 'receiver ∷ header'),
    Wrong('lines 8 and 9 before 5 to 7', GIROCODE, 'receiver ∷ payment', 'payment ∷ receiver'),
    Wrong('lines 10 to 12 before 8 and 9', GIROCODE, 'payment ∷ information', 'information ∷ payment'),
    Wrong('12 before lines 10 to 12', GIROCODE, 'information ∷ (exclusive ∷ [])', '(exclusive ∷ []) ∷ information'),
    Wrong('12 before all lines', GIROCODE, 'flatten (header', 'flatten ((exclusive ∷ []) ∷ header'),
)

# Forms, with a part left out, loosened or tightened, at each place.

BIC, EIGHT_OR_ELEVEN = 'every digit_or_capital s', '(eqb (length s) 8 || eqb (length s) 11)'
REST = 'every digit_or_capital (drop 4 s)'
DIGITS, POINT, LAST = 'every digit s', 'eqb (get_or s 0 0) 46', 'not (eqb (get_or s (length s - 1) 0) 48)'


def other_places():
    """Each place of a BIC, and of an IBAN behind its pair, of anything; of a BIC also of letters or of
    digits alone; each of nine digits of an amount of anything."""
    for place in range(11):
        yield Wrong(f'anything as place {place + 1} of a BIC', FORMS, f'&& {BIC}',
                    f'&& every digit_or_capital (take {place} s) && every digit_or_capital (drop {place + 1} s)', 'a bad character at each place of either')
        yield Wrong(f'a letter as place {place + 1} of a BIC', FORMS, f'&& {BIC}', f'&& {BIC} && capital (get_or s {place} 65)', '10: ')
        yield Wrong(f'a digit as place {place + 1} of a BIC', FORMS, f'&& {BIC}', f'&& {BIC} && digit (get_or s {place} 48)', '10: ')
    for place in range(4, 34):
        yield Wrong(f'anything as place {place + 1} of an IBAN', FORMS, REST,
                    f'every digit_or_capital (take {place - 4} (drop 4 s)) && every digit_or_capital (drop {place + 1} s)', 'a bad character at each place of the longest')
    for place in range(9):
        yield Wrong(f'anything as digit {place + 1}', FORMS, f'&& {DIGITS} &&',
                    f'&& every digit (take {place} s) && every digit (drop {place + 1} s) &&', 'a bad character at each place of nine')


OTHER_FORMS = (
    # codings that are not read
    *(Wrong(f'codings {name}', FORMS, 'within 51 56', f'within {low} {high}')
      for name, low, high in (('2 to 8', 50, 56), ('4 to 8', 52, 56), ('3 to 7', 51, 55), ('3 to 9', 51, 57), ('and letters', 51, 90))),
    *(Wrong(f'no coding {digit - 48}', FORMS, 'every (within 51 56) s', f'every (λ x. within 51 56 x && not (eqb x {digit})) s') for digit in range(52, 56)),
    Wrong('codings of any length', FORMS, 'eqb (length s) 1 && every (within', 'every (within'),
    Wrong('codings of two digits', FORMS, 'eqb (length s) 1 && every (within', 'within 1 2 (length s) && every (within'),
    Wrong('codings of one digit and more', FORMS, 'eqb (length s) 1 && every (within', f'{AT_MOST} 1 (length s) && every (within'),
    Wrong('a coding or none', FORMS, 'eqb (length s) 1 && every (within', f'{AT_MOST} (length s) 1 && every (within'),
    Wrong('a coding by its first digit', FORMS, 'eqb (length s) 1 && every (within 51 56) s', 'within 51 56 (get_or s 0 0)'),
    Wrong('a coding by its last digit', FORMS, 'eqb (length s) 1 && every (within 51 56) s', 'within 51 56 (get_or s (length s - 1) 0)'),
    # BIC
    *(Wrong(f'a BIC of {name}', FORMS, EIGHT_OR_ELEVEN, new) for name, new in (
        ('7 too', '(within 7 8 (length s) || eqb (length s) 11)'), ('9 too', '(within 8 9 (length s) || eqb (length s) 11)'),
        ('10 too', '(eqb (length s) 8 || within 10 11 (length s))'), ('12 too', '(eqb (length s) 8 || within 11 12 (length s))'),
        ('8 alone', 'eqb (length s) 8'), ('11 alone', 'eqb (length s) 11'), ('8 to 11', 'within 8 11 (length s)'),
        ('8 and more', f'{AT_MOST} 8 (length s)'), ('11 and less', f'{AT_MOST} (length s) 11'))),
    Wrong('a BIC of any length', FORMS, f'{EIGHT_OR_ELEVEN} && ', ''),
    Wrong('a BIC of anything', FORMS, f' && {BIC}', ''),
    Wrong('a BIC with small letters', FORMS, f'&& {BIC}', f'&& every {ALPHANUMERIC} s'),
    Wrong('a BIC of letters alone', FORMS, f'&& {BIC}', '&& every capital s'),
    Wrong('a BIC of digits alone', FORMS, f'&& {BIC}', '&& every digit s'),
    Wrong('a BIC of six letters first', FORMS, f'&& {BIC}', f'&& {BIC} && every capital (take 6 s)'),
    Wrong('the first 8 of a BIC', FORMS, f'&& {BIC}', '&& every digit_or_capital (take 8 s)'),
    Wrong('all but the last of a BIC', FORMS, f'&& {BIC}', '&& every digit_or_capital (take (length s - 1) s)'),
    # IBAN
    *(Wrong(f'an IBAN of {low} to {high}', FORMS, 'within iban_fewest iban_most', f'within {low} {high}') for low, high in ((4, 34), (6, 34), (5, 33), (5, 35), (15, 34))),
    Wrong('an IBAN of 5 and more', FORMS, 'within iban_fewest iban_most (length s)', f'{AT_MOST} 5 (length s)'),
    Wrong('an IBAN of any length', FORMS, 'within iban_fewest iban_most (length s) && ', ''),
    *(Wrong(f'an IBAN with {name}', FORMS, 'every capital (take 2 s)', new) for name, new in (
        ('anything first', 'every capital (take 1 (drop 1 s))'), ('anything second', 'every capital (take 1 s)'),
        ('digits first', 'every digit_or_capital (take 2 s)'), ('small letters first', f'every {LETTER} (take 2 s)'),
        ('AT alone', 'same (take 2 s) (ascii "AT")'), ('AT or DE alone', '(same (take 2 s) (ascii "AT") || same (take 2 s) (ascii "DE"))'))),
    Wrong('an IBAN of any country', FORMS, 'every capital (take 2 s) && ', ''),
    *(Wrong(f'an IBAN with {name}', FORMS, 'every digit (take 2 (drop 2 s))', new) for name, new in (
        ('anything third', 'every digit (take 1 (drop 3 s))'), ('anything fourth', 'every digit (take 1 (drop 2 s))'),
        ('a letter in its pair', 'every digit_or_capital (take 2 (drop 2 s))'), ('a digit as fifth', 'every digit (take 3 (drop 2 s))'))),
    Wrong('an IBAN with any pair', FORMS, 'every digit (take 2 (drop 2 s)) && ', ''),
    *(Wrong(f'an IBAN with {name}', FORMS, REST, new) for name, new in (
        ('small letters', f'every {ALPHANUMERIC} (drop 4 s)'), ('digits alone', 'every digit (drop 4 s)'), ('letters alone', 'every capital (drop 4 s)'),
        ('anything as last', 'every digit_or_capital (take (length s - 5) (drop 4 s))'), ('a letter as fifth', f'{REST} && capital (get_or s 4 0)'),
        ('a digit as last', f'{REST} && digit (get_or s (length s - 1) 0)'), ('a letter as last', f'{REST} && capital (get_or s (length s - 1) 0)'),
        ('spaces', 'every (λ x. digit_or_capital x || eqb x 32) (drop 4 s)'))),
    Wrong('an IBAN of anything', FORMS, f' && {REST}', ''),
    # whole euros
    *(Wrong(f'{low} to {high} digits', FORMS, 'within 1 9', f'within {low} {high}') for low, high in ((0, 9), (2, 9), (1, 8), (1, 10))),
    Wrong('any number of digits', FORMS, 'within 1 9 (length s) && ', ''),
    Wrong('letters before the point', FORMS, f'&& {DIGITS} &&', '&& every digit_or_capital s &&'),
    Wrong('anything before the point', FORMS, f'&& {DIGITS} &&', '&&'),
    Wrong('leading zeros', FORMS, ' && (eqb (length s) 1 || not (eqb (get_or s 0 0) 48))', ''),
    Wrong('a leading zero of two digits', FORMS, '(eqb (length s) 1 || not', f'({AT_MOST} (length s) 2 || not'),
    Wrong('leading zeros of three digits', FORMS, '(eqb (length s) 1 || not', f'(eqb (length s) 1 || {AT_MOST} 3 (length s) || not'),
    Wrong('no amount below 1', FORMS, '(eqb (length s) 1 || not (eqb (get_or s 0 0) 48))', 'not (eqb (get_or s 0 0) 48)'),
    # what stands behind them
    Wrong('any point', FORMS, f'{POINT} && ', ''),
    *(Wrong(f'{name} for a point', FORMS, POINT, f'within {low} {high} (get_or s 0 0)') for name, low, high in (('a comma', 44, 46), ('a hyphen', 45, 46), ('a slash', 46, 47))),
    Wrong('a comma alone', FORMS, POINT, 'eqb (get_or s 0 0) 44'),
    Wrong('a colon for a point', FORMS, POINT, f'({POINT} || eqb (get_or s 0 0) 58)'),
    Wrong('a space for a point', FORMS, POINT, f'({POINT} || eqb (get_or s 0 0) 32)'),
    Wrong('a letter for a point', FORMS, POINT, f'({POINT} || capital (get_or s 0 0))'),
    Wrong('anything behind the point', FORMS, 'every digit (drop 1 s) && ', ''),
    Wrong('anything as the first behind the point', FORMS, 'every digit (drop 1 s)', 'every digit (drop 2 s)'),
    Wrong('anything as the last behind the point', FORMS, 'every digit (drop 1 s)', 'every digit (take (length s - 2) (drop 1 s))'),
    Wrong('letters behind the point', FORMS, 'every digit (drop 1 s)', 'every digit_or_capital (drop 1 s)'),
    Wrong('a last 0', FORMS, f' && {LAST}', ''),
    Wrong('a last 0 of two', FORMS, LAST, f'(eqb (length s) 3 || {LAST})'),
    Wrong('a last 0 of one', FORMS, LAST, f'(eqb (length s) 2 || {LAST})'),
    Wrong('00 but no single last 0', FORMS, LAST, f'(same (drop 1 s) (ascii "00") || {LAST})'),
    Wrong('no 0 behind the point', FORMS, LAST, 'not (eqb (get_or s 1 0) 48)'),
    # the amount
    Wrong('an amount with a point alone', FORMS, 'whole v || with_fraction 2 v', 'with_fraction 2 v'),
    Wrong('an amount with no single digit behind the point', FORMS, ' || with_fraction 2 v', ''),
    Wrong('an amount with no two digits behind the point', FORMS, ' || with_fraction 3 v', ''),
    Wrong('an amount with a last point', FORMS, 'whole v || with_fraction 2 v', 'whole v || with_fraction 1 v || with_fraction 2 v'),
    Wrong('an amount with three digits behind the point', FORMS, ' || with_fraction 3 v', ' || with_fraction 3 v || with_fraction 4 v'),
    Wrong('an amount in any currency', FORMS, 'same (take 3 s) (ascii euro) && ', ''),
    Wrong('an amount in three capitals', FORMS, 'same (take 3 s) (ascii euro)', 'every capital (take 3 s)'),
    *(Wrong(f'anything as place {place + 1} of EUR', FORMS, 'same (take 3 s) (ascii euro)',
            f'same (take {place} s) (take {place} (ascii euro)) && same (drop {place + 1} (take 3 s)) (drop {place + 1} (ascii euro))') for place in range(3)),
    *(Wrong(f'an amount in {other}', FORMS, 'same (take 3 s) (ascii euro)', f'(same (take 3 s) (ascii euro) || same (take 3 s) (ascii "{other}"))')
      for other in ('eur', 'CHF', 'eUR', 'EuR', 'EUr')),
    Wrong('an amount with no currency', FORMS, 'same (take 3 s) (ascii euro) && (whole v', '(whole s || same (take 3 s) (ascii euro)) && (whole s || whole v'),
    Wrong('an amount of 0', FORMS, ' && not (same v (ascii "0"))', ''),
    Wrong('no amount of 1', FORMS, 'not (same v (ascii "0"))', 'not (same v (ascii "0")) && not (same v (ascii "1"))'),
    Wrong('no amount of 0.01', FORMS, 'not (same v (ascii "0"))', 'not (same v (ascii "0")) && not (same v (ascii "0.01"))'),
    # purpose and reference
    *(Wrong(f'basic: {name}', FORMS, 'basic s = every in_one s', f'basic s = {new}') for name, new in (
        ('no space', 'every (within 0x21 0x7E) s'), ('no tilde', 'every (within 0x20 0x7D) s'), ('A0 too', 'every (within 0x20 0xA0) s'),
        ('FF too', 'every (λ x. in_one x || eqb x 0xFF) s'), ('umlauts too', 'every (λ x. in_one x || eqb x 0xC3 || eqb x 0xBC) s'),
        ('euros too', 'every (λ x. in_one x || eqb x 0xE2 || eqb x 0x82 || eqb x 0xAC) s'), ('anything', 'every (within 0 255) s'),
        ('anything first', 'every in_one (drop 1 s)'), ('anything last', 'in_one (get_or s 0 0)'),
        ('anything but its ends', 'in_one (get_or s 0 0) && in_one (get_or s (length s - 1) 0)'), ('letters and digits', f'every {ALPHANUMERIC} s'),
        ('no signs before 0', f'every (λ x. {ALPHANUMERIC} x || within 58 126 x || eqb x 32) s'), ('no small letters', 'every (λ x. in_one x && not (within 97 122 x)) s'),
        ('no brackets', 'every (λ x. in_one x && not (within 91 96 x)) s'))),
    Wrong('the purpose by the form of the reference', GIROCODE, 'formed 9 (has 9 basic)', 'formed 9 (has 10 basic)'),
    Wrong('the reference by the form of the purpose', GIROCODE, 'formed 10 (has 10 basic)', 'formed 10 (has 9 basic)'),
)

# What is shared, and only the girocode asks for.

ASKED_HERE_ALONE = (
    Wrong('ISO byte 1F', ISO8859, 'within 0x20 0x7E', 'within 0x1F 0x7E'),
    Wrong('no ISO space', ISO8859, 'within 0x20 0x7E', 'within 0x21 0x7E'),
    Wrong('ISO byte 7F', ISO8859, 'within 0x20 0x7E', 'within 0x20 0x7F'),
    Wrong('no ISO tilde', ISO8859, 'within 0x20 0x7E', 'within 0x20 0x7D'),
    Wrong('ISO byte 9F', ISO8859, 'within 0xA0 0xFF', 'within 0x9F 0xFF'),
    Wrong('ISO bytes from 80', ISO8859, 'within 0xA0 0xFF', 'within 0x80 0xFF'),
    Wrong('no ISO byte A0', ISO8859, 'within 0xA0 0xFF', 'within 0xA1 0xFF'),
    Wrong('no ISO byte FF', ISO8859, 'within 0xA0 0xFF', 'within 0xA0 0xFE'),
    Wrong('no ISO bytes A0 to BF', ISO8859, 'within 0xA0 0xFF', 'within 0xC0 0xFF'),
    Wrong('no ISO soft hyphen', ISO8859, 'within 0xA0 0xFF x', 'within 0xA0 0xAC x || within 0xAE 0xFF x'),
    Wrong('no ISO division sign', ISO8859, 'within 0xA0 0xFF x', 'within 0xA0 0xF6 x || within 0xF8 0xFF x'),
    Wrong('no ISO bytes past 7E', ISO8859, ' || within 0xA0 0xFF x', ''),
    Wrong('an ISO tab', ISO8859, 'within 0xA0 0xFF x', 'within 0xA0 0xFF x || within 9 9 x'),
    Wrong('two bytes an ISO character', ISO8859, '1 0', '2 0'),
)


def wrong_rules():
    """All of them; those of crate `girocode` first, since another `sieve` has to be made again."""
    yield from wrong_limits(LIMITS, NUMBERS, TEXTS)
    for some in (without_rule, other_orders, under_a_condition, other_last_lines, other_sizes, other_choices, other_texts):
        yield from some()
    yield from OTHER_RULES
    yield from other_places()
    yield from (wrong._replace(rows='10: ') for wrong in OTHER_FORMS)
    yield from ASKED_HERE_ALONE
