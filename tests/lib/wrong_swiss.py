"""Wrong rules of the Swiss bill: each a definition with one place changed."""

from wrong_shared import KINDS, LETTERS, MOD97, Wrong, wrong_limits

LIMITS = 'swiss/specs/Limits.antt'
FORMS = 'swiss/specs/Forms.antt'
SWISS = 'swiss/specs/Swiss.antt'
MOD10 = 'sieve/specs/Mod10.antt'

# Numbers, each one less and one more; and texts.

NUMBERS = {
    'most_bytes': 997, 'fewest_lines': 31, 'most_lines': 34, 'name_most': 70, 'street_most': 70,
    'house_number_most': 16, 'postcode_most': 16, 'town_most': 35, 'amount_most': 12,
    'message_most': 140, 'billing_most': 140, 'together_most': 140, 'procedure_most': 100,
    'first_qr_iid': 30000, 'last_qr_iid': 31999,
}
TEXTS = {
    'qr_type': ('SPC', 'spc'), 'version': ('0200', '0100'), 'coding': ('1', '2'),
    'trailer': ('EPD', 'epd'), 'structured': ('S', 'K'), 'francs': ('CHF', 'chf'),
    'euros': ('EUR', 'eur'), 'qr_reference': ('QRR', 'qrr'), 'creditor_reference': ('SCOR', 'scor'),
    'no_reference': ('NON', 'non'),
}


# Limits of one line alone. An address begins at line 5 or 21.

ADDRESS = {1: 'name_most', 2: 'street_most', 4: 'postcode_most', 5: 'town_most'}
FOURTH = 'at_most_of (λ ls. fourth_most (ofK ls)) (n + 3)'  # a house number, or address line 2
OTHERS = {30: 'message_most', 32: 'billing_most', 33: 'procedure_most', 34: 'procedure_most'}


def wrong_lines():
    """The limit of one line alone off by one."""
    for after, name in ADDRESS.items():
        for first in (5, 21):
            for other in (NUMBERS[name] - 1, NUMBERS[name] + 1):
                yield Wrong(f'line {first + after} at most {other}', SWISS, f'at_most {name} (n + {after})',
                            f'at_most (cond (lib.Dec.eqb n {first}) {other} {name}) (n + {after})')
    for first in (5, 21):
        for other in (15, 17):
            yield Wrong(f'line {first + 3} at most {other}', SWISS, FOURTH,
                        f'at_most_of (λ ls. cond (lib.Dec.eqb n {first}) {other} (fourth_most (ofK ls))) (n + 3)')
    for line, name in OTHERS.items():
        for other in (NUMBERS[name] - 1, NUMBERS[name] + 1):
            yield Wrong(f'line {line} at most {other}', SWISS, f'at_most {name} {line}', f'at_most {other} {line}')


# Rules left out.

DROPPED = (
    'fixed 1 qr_type ∷ ', 'fixed 2 version ∷ ', 'fixed 3 coding ∷ ',
    'filled 4 always ∷ ', 'formed 4 (has 4 iban) ∷ ', 'checked 4 (has 4 checks97) ∷ ',
    'filled n (unless absent) ∷ ', 'formed n (either ofK (is n structured))\n    ∷ ',
    *(f'empty (n + {after}) absent ∷ ' for after in (1, 2, 3, 6)),
    *(f'empty (n + {after}) townless ∷ ' for after in (4, 5)),
    *(f'filled (n + {after}) (unless absent) ∷ ' for after in (1, 6)),
    *(f'filled (n + {after}) (unless townless) ∷ ' for after in (4, 5)),
    *(f'at_most {name} (n + {after})\n    ∷ ' for after, name in ADDRESS.items()), f'{FOURTH}\n    ∷ ',
    'formed (n + 6) (has (n + 6) country)\n    ∷ ',
    *(f'empty {line} always ∷ ' for line in range(12, 19)),
    'at_most amount_most 19 ∷ ', 'formed 19 (has 19 amount)\n    ∷ ', 'filled 20 always ∷ ',
    'filled 28 always ∷ ', 'empty 29 (is 28 no_reference) ∷ ', 'formed 29 (under28 qrr scor) ∷ ',
    'at_most message_most 30 ∷ ', 'fixed 31 trailer ∷ ', 'at_most billing_most 32 ∷ ', 'formed 32 (has 32 billing) ∷ ',
    'filled 33 (is_last 33) ∷ ', 'at_most procedure_most 33 ∷ ', 'filled 34 (is_last 34) ∷ ', 'at_most procedure_most 34 ∷ ',
    'pairing e ∷ ', 'together ∷ ',
)


def without_rule():
    """Each rule of the list left out."""
    for rule in DROPPED:
        yield Wrong(f'without {rule.partition(chr(10))[0].strip(" ∷")}', SWISS, rule, '')


# Other rules, conditions and orders of the Swiss bill.

OTHER_RULES = (
    Wrong('a creditor may be absent', SWISS, 'address e 5 never', 'address e 5 (is_empty 5)'),
    Wrong('a debtor may not be absent', SWISS, 'address e 21 (is_empty 21)', 'address e 21 never'),
    Wrong('a debtor is absent without a name', SWISS, 'address e 21 (is_empty 21)', 'address e 21 (is_empty 22)'),
    Wrong('a debtor is always absent', SWISS, 'address e 21 (is_empty 21)', 'address e 21 always'),
    Wrong('line 23 must be filled', SWISS, 'empty (n + 2) absent ∷ ', 'empty (n + 2) absent ∷ filled (n + 2) (λ ls. is 21 structured ls && lib.Dec.eqb n 21) ∷ '),
    Wrong('line 8 must be filled', SWISS, 'empty (n + 3) absent ∷ ', 'empty (n + 3) absent ∷ filled (n + 3) (unless absent) ∷ '),
    Wrong('line 22 may be empty', SWISS, 'filled (n + 1) (unless absent)', 'filled (n + 1) (λ ls. lib.Dec.eqb n 5)'),
    Wrong('line 25 may be empty', SWISS, 'filled (n + 4) (unless townless)', 'filled (n + 4) (λ ls. lib.Dec.eqb n 5)'),
    Wrong('line 9 may be empty', SWISS, 'filled (n + 4) (unless townless)', 'filled (n + 4) (λ ls. not (absent ls) && lib.Dec.eqb n 21)'),
    Wrong('line 26 may be empty', SWISS, 'filled (n + 5) (unless townless)', 'filled (n + 5) (λ ls. lib.Dec.eqb n 5)'),
    Wrong('line 27 may be empty', SWISS, 'filled (n + 6) (unless absent)', 'filled (n + 6) (λ ls. lib.Dec.eqb n 5)'),
    Wrong('line 23 may be filled with no debtor', SWISS, 'empty (n + 2) absent', 'empty (n + 2) never'),
    Wrong('line 16 may be filled', SWISS, 'empty 16 always', 'empty 15 always'),
    Wrong('line 18 may be filled', SWISS, 'empty 18 always', 'empty 17 always'),
    Wrong('a town as long as a name', SWISS, 'at_most town_most (n + 5)', 'at_most name_most (n + 5)'),
    Wrong('type K of the debtor', SWISS, 'formed n (either ofK (is n structured))', 'formed n (λ ls. is n structured ls || (is n "K" ls && lib.Dec.eqb n 21))'),
    Wrong('no form for the debtor country', SWISS, 'formed (n + 6) (has (n + 6) country)', 'formed (n + 6) (λ ls. lib.Dec.eqb n 21 || has (n + 6) country ls)'),
    Wrong('an amount must be there', SWISS, 'at_most amount_most 19 ∷', 'filled 19 always ∷ at_most amount_most 19 ∷'),
    Wrong('only CHF', SWISS, 'is 20 francs ls || is 20 euros ls', 'is 20 francs ls'),
    Wrong('CHF with SCOR alone', SWISS, 'is 20 francs ls || is 20 euros ls', 'is 20 euros ls || (is 20 francs ls && is 28 creditor_reference ls)'),
    Wrong('no SCOR', SWISS, 'is 28 qr_reference ls || is 28 creditor_reference ls || is 28 no_reference ls', 'is 28 qr_reference ls || is 28 no_reference ls'),
    Wrong('no NON', SWISS, 'is 28 creditor_reference ls || is 28 no_reference ls', 'is 28 creditor_reference ls'),
    Wrong('no QRR', SWISS, 'is 28 qr_reference ls || is 28 creditor_reference ls || is 28 no_reference ls', 'is 28 creditor_reference ls || is 28 no_reference ls'),
    Wrong('empty under QRR', SWISS, 'empty 29 (is 28 no_reference)', 'empty 29 (is 28 qr_reference)'),
    Wrong('empty under SCOR', SWISS, 'empty 29 (is 28 no_reference)', 'empty 29 (is 28 creditor_reference)'),
    Wrong('filled under QRR alone', SWISS, 'filled 29 (λ ls. is 28 qr_reference ls || is 28 creditor_reference ls)', 'filled 29 (is 28 qr_reference)'),
    Wrong('filled under SCOR alone', SWISS, 'filled 29 (λ ls. is 28 qr_reference ls || is 28 creditor_reference ls)', 'filled 29 (is 28 creditor_reference)'),
    Wrong('filled always', SWISS, 'filled 29 (λ ls. is 28 qr_reference ls || is 28 creditor_reference ls)', 'filled 29 always'),
    Wrong('forms of QRR and SCOR swapped', SWISS, 'under28 qrr scor', 'under28 scor qrr'),
    Wrong('no form under QRR', SWISS, 'under28 qrr scor', 'under28 (λ s. true) scor'),
    Wrong('no form under SCOR', SWISS, 'under28 qrr scor', 'under28 qrr (λ s. true)'),
    Wrong('checks of QRR and SCOR swapped', SWISS, 'under28 checks10 checks97', 'under28 checks97 checks10'),
    Wrong('no check under QRR', SWISS, 'under28 checks10 checks97', 'under28 (λ s. true) checks97'),
    Wrong('no check under SCOR', SWISS, 'under28 checks10 checks97', 'under28 checks10 (λ s. true)'),
    Wrong('no check of line 29', SWISS, ' ∷ checked 29 (under28 checks10 checks97)', ''),
    Wrong('no rule for line 29 to be filled', SWISS, ' ∷ filled 29 (λ ls. is 28 qr_reference ls || is 28 creditor_reference ls)', ''),
    Wrong('line 32 must be filled if last', SWISS, 'at_most billing_most 32 ∷', 'filled 32 (is_last 32) ∷ at_most billing_most 32 ∷'),
    Wrong('line 33 must be filled', SWISS, 'filled 33 (is_last 33)', 'filled 33 (λ ls. is_last 33 ls || is_last 34 ls)'),
    Wrong('line 33 if 34 is last', SWISS, 'filled 33 (is_last 33)', 'filled 33 (is_last 34)'),
    Wrong('line 34 if 33 is last', SWISS, 'filled 34 (is_last 34)', 'filled 34 (is_last 33)'),
    Wrong('a message must be there', SWISS, 'at_most message_most 30 ∷', 'filled 30 always ∷ at_most message_most 30 ∷'),
    Wrong('billing information of any form', SWISS, 'formed 32 (has 32 billing)', 'formed 32 always'),
    Wrong('the form of billing information asked of line 33', SWISS, 'formed 32 (has 32 billing)', 'formed 33 (has 33 billing)'),
    Wrong('a procedure in the form of billing information', SWISS, 'filled 34 (is_last 34)', 'formed 33 (has 33 billing) ∷ filled 34 (is_last 34)'),
    # the pairing
    Wrong('QRR with any IBAN', SWISS, '(qr_iban account && (permits_qrr_in_euros e || same currency (ascii francs)))', '(same currency (ascii francs))'),
    Wrong('QRR in any currency', SWISS, '(qr_iban account && (permits_qrr_in_euros e || same currency (ascii francs)))', '(qr_iban account)'),
    Wrong('QRR in EUR', SWISS, 'same currency (ascii francs)', 'same currency (ascii euros)'),
    Wrong('a QR-IBAN or CHF', SWISS, 'qr_iban account && (permits_qrr_in_euros e ||', 'qr_iban account || (permits_qrr_in_euros e ||'),
    Wrong('a QR-IBAN without QRR', SWISS, '(not (qr_iban account))', 'true'),
    Wrong('a QR-IBAN with NON', SWISS, '(not (qr_iban account))', '(not (qr_iban account) || same kind (ascii no_reference))'),
    Wrong('a QR-IBAN with SCOR', SWISS, '(not (qr_iban account))', '(not (qr_iban account) || same kind (ascii creditor_reference))'),
    Wrong('SCOR only in CHF', SWISS, '(not (qr_iban account))', '(not (qr_iban account) && (same currency (ascii francs) || same kind (ascii no_reference)))'),
    Wrong('NON only in CHF', SWISS, '(not (qr_iban account))', '(not (qr_iban account) && (same currency (ascii francs) || same kind (ascii creditor_reference)))'),
    Wrong('the pairing told at line 4', SWISS, 'number = 12; line = 28', 'number = 12; line = 4'),
    Wrong('the pairing told at line 29', SWISS, 'number = 12; line = 28', 'number = 12; line = 29'),
    Wrong('the pairing told as 11', SWISS, 'number = 12; line = 28', 'number = 11; line = 28'),
    Wrong('the pairing looks at line 21', SWISS, '(line 20 ls) (line 28 ls)', '(line 21 ls) (line 28 ls)'),
    # message and billing information together
    Wrong('line 32 forgotten', SWISS, 'characters (line 30 ls) + characters (line 32 ls)', 'characters (line 30 ls)'),
    Wrong('line 30 forgotten', SWISS, 'characters (line 30 ls) + characters (line 32 ls)', 'characters (line 32 ls)'),
    Wrong('lines 30 and 33', SWISS, 'characters (line 30 ls) + characters (line 32 ls)', 'characters (line 30 ls) + characters (line 33 ls)'),
    Wrong('a message in bytes', SWISS, 'characters (line 30 ls) + characters (line 32 ls)', 'lib.ListN.length (line 30 ls) + characters (line 32 ls)'),
    Wrong('billing information in bytes', SWISS, 'characters (line 30 ls) + characters (line 32 ls)', 'characters (line 30 ls) + lib.ListN.length (line 32 ls)'),
    Wrong('the break counted', SWISS, 'characters (line 30 ls) + characters (line 32 ls)', 'characters (line 30 ls) + 1 + characters (line 32 ls)'),
    Wrong('together told at line 30', SWISS, 'number = 13; line = 32', 'number = 13; line = 30'),
    Wrong('together told as 9', SWISS, 'number = 13; line = 32', 'number = 9; line = 32'),
    # the order
    Wrong('line 2 before 1', SWISS, 'fixed 1 qr_type ∷ fixed 2 version', 'fixed 2 version ∷ fixed 1 qr_type'),
    Wrong('line 3 before 2', SWISS, 'fixed 2 version ∷ fixed 3 coding', 'fixed 3 coding ∷ fixed 2 version'),
    Wrong('lines 4 before 1 to 3', SWISS, '(header\n    ∷ account\n', '(account\n    ∷ header\n'),
    Wrong('11 before 10 on line 4', SWISS, 'formed 4 (has 4 iban) ∷ checked 4 (has 4 checks97)', 'checked 4 (has 4 checks97) ∷ formed 4 (has 4 iban)'),
    Wrong('lines 5 to 11 before 4', SWISS, '∷ account\n    ∷ address e 5 never\n', '∷ address e 5 never\n    ∷ account\n'),
    Wrong('lines 12 to 18 before 5 to 11', SWISS, '∷ address e 5 never\n    ∷ reserved\n', '∷ reserved\n    ∷ address e 5 never\n'),
    Wrong('lines 19 and 20 before 12 to 18', SWISS, '∷ reserved\n    ∷ payment\n', '∷ payment\n    ∷ reserved\n'),
    Wrong('lines 21 to 27 before 19 and 20', SWISS, '∷ payment\n    ∷ address e 21 (is_empty 21)\n', '∷ address e 21 (is_empty 21)\n    ∷ payment\n'),
    Wrong('lines 28 and 29 before 21 to 27', SWISS, '∷ address e 21 (is_empty 21)\n    ∷ reference\n', '∷ reference\n    ∷ address e 21 (is_empty 21)\n'),
    Wrong('lines 30 to 32 before 28 and 29', SWISS, '∷ reference\n    ∷ information\n', '∷ information\n    ∷ reference\n'),
    Wrong('lines 33 and 34 before 30 to 32', SWISS, '∷ information\n    ∷ procedures\n', '∷ procedures\n    ∷ information\n'),
    Wrong('the pairing before lines 33 and 34', SWISS, '∷ procedures\n    ∷ (pairing e ∷ together ∷ [])\n', '∷ (pairing e ∷ together ∷ [])\n    ∷ procedures\n'),
    Wrong('13 before 12', SWISS, 'pairing e ∷ together', 'together ∷ pairing e'),
    Wrong('9 before 7 on lines 6 and 22', SWISS, 'empty (n + 1) absent ∷ filled (n + 1) (unless absent) ∷ at_most name_most (n + 1)', 'at_most name_most (n + 1) ∷ empty (n + 1) absent ∷ filled (n + 1) (unless absent)'),
    Wrong('9 before 7 on lines 7 and 23', SWISS, 'empty (n + 2) absent ∷ at_most street_most (n + 2)', 'at_most street_most (n + 2) ∷ empty (n + 2) absent'),
    Wrong('9 before 7 on lines 8 and 24', SWISS, 'empty (n + 3) absent ∷ filled (n + 3) ofK ∷ at_most_of (λ ls. fourth_most (ofK ls)) (n + 3)', 'at_most_of (λ ls. fourth_most (ofK ls)) (n + 3) ∷ empty (n + 3) absent ∷ filled (n + 3) ofK'),
    Wrong('10 before 7 on lines 11 and 27', SWISS, 'empty (n + 6) absent ∷ filled (n + 6) (unless absent) ∷ formed (n + 6) (has (n + 6) country)', 'formed (n + 6) (has (n + 6) country) ∷ empty (n + 6) absent ∷ filled (n + 6) (unless absent)'),
    Wrong('lines 8 and 24 before 7 and 23', SWISS, 'empty (n + 2) absent ∷ at_most street_most (n + 2)\n    ∷ empty (n + 3) absent ∷ filled (n + 3) ofK ∷ at_most_of (λ ls. fourth_most (ofK ls)) (n + 3)', 'empty (n + 3) absent ∷ filled (n + 3) ofK ∷ at_most_of (λ ls. fourth_most (ofK ls)) (n + 3)\n    ∷ empty (n + 2) absent ∷ at_most street_most (n + 2)'),
    Wrong('line 14 before 13', SWISS, 'empty 13 always ∷ empty 14 always', 'empty 14 always ∷ empty 13 always'),
    Wrong('line 18 before 17', SWISS, 'empty 17 always ∷ empty 18 always', 'empty 18 always ∷ empty 17 always'),
    Wrong('10 before 9 on line 19', SWISS, 'at_most amount_most 19 ∷ formed 19 (has 19 amount)', 'formed 19 (has 19 amount) ∷ at_most amount_most 19'),
    Wrong('line 20 before 19', SWISS, 'at_most amount_most 19 ∷ formed 19 (has 19 amount)\n    ∷ filled 20 always', 'filled 20 always ∷ at_most amount_most 19 ∷ formed 19 (has 19 amount)\n'),
    Wrong('11 before 10 on line 29', SWISS, 'formed 29 (under28 qrr scor) ∷ checked 29 (under28 checks10 checks97)', 'checked 29 (under28 checks10 checks97) ∷ formed 29 (under28 qrr scor)'),
    Wrong('line 31 before 30', SWISS, 'at_most message_most 30 ∷ fixed 31 trailer', 'fixed 31 trailer ∷ at_most message_most 30'),
    Wrong('10 before 9 on line 32', SWISS, 'at_most billing_most 32 ∷ formed 32 (has 32 billing)', 'formed 32 (has 32 billing) ∷ at_most billing_most 32'),
    Wrong('line 32 before 31', SWISS, 'fixed 31 trailer ∷ at_most billing_most 32 ∷ formed 32 (has 32 billing)', 'at_most billing_most 32 ∷ formed 32 (has 32 billing) ∷ fixed 31 trailer'),
    Wrong('line 34 before 33', SWISS, 'at_most procedure_most 33 ∷ filled 34 (is_last 34) ∷ at_most procedure_most 34', 'filled 34 (is_last 34) ∷ at_most procedure_most 34 ∷ at_most procedure_most 33'),
)

# Forms, with a part left out, loosened or tightened.

OTHER_FORMS = (
    Wrong('an IBAN of 20', FORMS, 'eqb (length s) iban_length && iban_country', '(eqb (length s) iban_length || eqb (length s) 20) && iban_country'),
    Wrong('an IBAN of 21 and more', FORMS, 'eqb (length s) iban_length && iban_country', 'leb 21 (length s) && iban_country'),
    Wrong('no IBAN of LI', FORMS, 'same c (ascii switzerland) || same c (ascii liechtenstein)', 'same c (ascii switzerland)'),
    Wrong('an IBAN of DE', FORMS, 'same c (ascii liechtenstein)', 'same c (ascii liechtenstein) || same c (ascii "DE")'),
    Wrong('an IBAN of any country', FORMS, 'same c (ascii switzerland) || same c (ascii liechtenstein)', 'every capital c'),
    Wrong('an IBAN by its first letter', FORMS, 'same c (ascii switzerland)', 'same (take 1 c) (ascii "C")'),
    Wrong('an IBAN with a small li', FORMS, 'same c (ascii liechtenstein)', 'same c (ascii liechtenstein) || same c (ascii "li")'),
    Wrong('any pair', FORMS, 'every digit (take 7 (drop 2 s))', 'every digit (take 5 (drop 4 s))'),
    Wrong('a letter as third', FORMS, 'every digit (take 7 (drop 2 s))', 'every digit (take 6 (drop 3 s))'),
    Wrong('a letter as ninth', FORMS, 'every digit (take 7 (drop 2 s))', 'every digit (take 6 (drop 2 s))'),
    Wrong('a digit as tenth', FORMS, 'every digit (take 7 (drop 2 s))', 'every digit (take 8 (drop 2 s))'),
    Wrong('letters in the IID', FORMS, 'every digit (take 7 (drop 2 s))', 'every digit_or_capital (take 7 (drop 2 s))'),
    Wrong('digits alone in the last twelve', FORMS, 'every digit_or_capital (take 12 (drop 9 s))', 'every digit (take 12 (drop 9 s))'),
    Wrong('small letters in the last twelve', FORMS, 'every digit_or_capital (take 12 (drop 9 s))', 'every alphanumeric (take 12 (drop 9 s))'),
    Wrong('anything as last', FORMS, 'every digit_or_capital (take 12 (drop 9 s))', 'every digit_or_capital (take 11 (drop 9 s))'),
    Wrong('anything as tenth', FORMS, 'every digit_or_capital (take 12 (drop 9 s))', 'every digit_or_capital (take 11 (drop 10 s))'),
    Wrong('an IID one place before', FORMS, 'numeral 0 (take 5 (drop 4 s))', 'number 0 (take 5 (drop 3 s))'),
    Wrong('an IID one place on', FORMS, 'numeral 0 (take 5 (drop 4 s))', 'number 0 (take 5 (drop 5 s))'),
    Wrong('a QR-IBAN by two digits', FORMS, 'within first_qr_iid last_qr_iid (numeral 0 (take 5 (drop 4 s)))', 'within 30 32 (numeral 0 (take 2 (drop 4 s)))'),
    Wrong('a QR-IBAN by its first digit', FORMS, 'within first_qr_iid last_qr_iid (numeral 0 (take 5 (drop 4 s)))', 'eqb (get_or s 4 0) 51'),
    Wrong('a QR-IBAN of CH alone', FORMS, 'qr_iban s = within', 'qr_iban s = eqb (get_or s 0 0) 67 && within'),
    Wrong('a country of one or two letters', FORMS, 'eqb (length s) 2 && every capital s', 'leb (length s) 2 && every capital s'),
    Wrong('a country of two or three letters', FORMS, 'eqb (length s) 2 && every capital s', 'within 2 3 (length s) && every capital s'),
    Wrong('a country of any two', FORMS, 'eqb (length s) 2 && every capital s', 'eqb (length s) 2'),
    Wrong('a country with a digit', FORMS, 'eqb (length s) 2 && every capital s', 'eqb (length s) 2 && every digit_or_capital s'),
    Wrong('a country with a small letter', FORMS, 'eqb (length s) 2 && every capital s', 'eqb (length s) 2 && capital (get_or s 0 0)'),
    Wrong('a country that begins small', FORMS, 'eqb (length s) 2 && every capital s', 'eqb (length s) 2 && capital (get_or s 1 0)'),
    Wrong('an amount of .50', FORMS, 'leb 4 (length s) && every digit whole', 'leb 3 (length s) && every digit whole'),
    Wrong('an amount of two digits and more', FORMS, 'leb 4 (length s) && every digit whole', 'leb 5 (length s) && every digit whole'),
    Wrong('letters before the point', FORMS, '&& every digit whole &&', '&& every digit_or_capital whole &&'),
    Wrong('anything before the point', FORMS, '&& every digit whole &&', '&&'),
    Wrong('any point', FORMS, ' && eqb (get_or s (length s - 3) 0) 46', ''),
    Wrong('a comma too', FORMS, 'eqb (get_or s (length s - 3) 0) 46', 'within 44 46 (get_or s (length s - 3) 0)'),
    Wrong('anything after the point', FORMS, ' && every digit (drop (length s - 2) s)', ''),
    Wrong('a last letter', FORMS, 'every digit (drop (length s - 2) s)', 'digit (get_or s (length s - 2) 0)'),
    Wrong('a first letter after the point', FORMS, 'every digit (drop (length s - 2) s)', 'digit (get_or s (length s - 1) 0)'),
    Wrong('leading zeros', FORMS, '(eqb (length whole) 1 || not (eqb (get_or whole 0 0) 48)) && ', ''),
    Wrong('a leading zero below 100.00', FORMS, 'eqb (length whole) 1 ||', 'leb (length whole) 2 ||'),
    Wrong('no amount below 1.00', FORMS, '(eqb (length whole) 1 || not (eqb (get_or whole 0 0) 48))', 'not (eqb (get_or whole 0 0) 48)'),
    Wrong('0.00', FORMS, ' && not (same s (ascii nothing_due))', ''),
    Wrong('no 0.01', FORMS, 'not (same s (ascii nothing_due))', 'not (same s (ascii nothing_due)) && not (same s (ascii "0.01"))'),
    Wrong('billing information of 3', FORMS, 'leb 4 (length s) && same (take 2 s) (ascii billing_mark)', 'leb 3 (length s) && same (take 2 s) (ascii billing_mark)'),
    Wrong('billing information of 5 and more', FORMS, 'leb 4 (length s) && same (take 2 s) (ascii billing_mark)', 'leb 5 (length s) && same (take 2 s) (ascii billing_mark)'),
    Wrong('one slash', FORMS, 'same (take 2 s) (ascii billing_mark)', 'same (take 1 s) (ascii "/")'),
    Wrong('a slash as second', FORMS, 'same (take 2 s) (ascii billing_mark)', 'eqb (get_or s 1 0) 47'),
    Wrong('no slash', FORMS, 'same (take 2 s) (ascii billing_mark) && ', ''),
    Wrong('anything after two slashes', FORMS, ' && every alphanumeric (take 2 (drop 2 s))', ''),
    Wrong('anything as fourth', FORMS, 'every alphanumeric (take 2 (drop 2 s))', 'every alphanumeric (take 1 (drop 2 s))'),
    Wrong('anything as third', FORMS, 'every alphanumeric (take 2 (drop 2 s))', 'every alphanumeric (take 1 (drop 3 s))'),
    Wrong('capitals alone', FORMS, 'every alphanumeric (take 2 (drop 2 s))', 'every digit_or_capital (take 2 (drop 2 s))'),
    Wrong('letters and digits to the end', FORMS, 'every alphanumeric (take 2 (drop 2 s))', 'every alphanumeric (drop 2 s)'),
    Wrong('a QR reference of 26', FORMS, 'eqb (length s) qrr_length', 'within 26 27 (length s)'),
    Wrong('a QR reference of 28', FORMS, 'eqb (length s) qrr_length', 'within 27 28 (length s)'),
    Wrong('a QR reference with letters', FORMS, 'every digit s && not', 'every digit_or_capital s && not'),
    Wrong('anything as last of a QR reference', FORMS, 'every digit s && not', 'every digit (take 26 s) && not'),
    Wrong('anything as first of a QR reference', FORMS, 'every digit s && not', 'every digit (drop 1 s) && not'),
    Wrong('27 zeros', FORMS, ' && not (every (λ x. eqb x 48) s)', ''),
    Wrong('26 zeros', FORMS, 'not (every (λ x. eqb x 48) s)', 'not (every (λ x. eqb x 48) (take 26 s))'),
    Wrong('SCOR of 4', FORMS, 'within scor_fewest scor_most', 'within 4 25'),
    Wrong('SCOR of 6 and more', FORMS, 'within scor_fewest scor_most', 'within 6 25'),
    Wrong('SCOR of 24', FORMS, 'within scor_fewest scor_most', 'within 5 24'),
    Wrong('SCOR of 26', FORMS, 'within scor_fewest scor_most', 'within 5 26'),
    Wrong('SCOR without RF', FORMS, ' && same (take 2 s) (ascii creditor_mark)', ''),
    Wrong('SCOR by its first letter', FORMS, 'same (take 2 s) (ascii creditor_mark)', 'same (take 1 s) (ascii "R")'),
    Wrong('SCOR with a small rf', FORMS, 'same (take 2 s) (ascii creditor_mark)', '(same (take 2 s) (ascii creditor_mark) || same (take 2 s) (ascii "rf"))'),
    Wrong('SCOR with any pair', FORMS, ' && every digit (take 2 (drop 2 s))', ''),
    Wrong('SCOR with a letter as third', FORMS, 'every digit (take 2 (drop 2 s))', 'every digit (take 1 (drop 3 s))'),
    Wrong('SCOR with a letter as fourth', FORMS, 'every digit (take 2 (drop 2 s))', 'every digit (take 1 (drop 2 s))'),
    Wrong('SCOR with no small letters', FORMS, 'every alphanumeric (drop 4 s)', 'every digit_or_capital (drop 4 s)'),
    Wrong('SCOR of digits alone', FORMS, 'every alphanumeric (drop 4 s)', 'every digit (drop 4 s)'),
    Wrong('SCOR of anything', FORMS, ' && every alphanumeric (drop 4 s)', ''),
    Wrong('SCOR with anything as fifth', FORMS, 'every alphanumeric (drop 4 s)', 'every alphanumeric (drop 5 s)'),
    Wrong('SCOR with anything as last', FORMS, 'every alphanumeric (drop 4 s)', 'every alphanumeric (take (length s - 5) (drop 4 s))'),
)

# What is shared, and only the Swiss bill asks for.

ASKED_HERE_ALONE = (
    Wrong('small letters from b', LETTERS, 'within 97 122', 'within 98 122'),
    Wrong('small letters from the grave', LETTERS, 'within 97 122', 'within 96 122'),
    Wrong('small letters to y', LETTERS, 'within 97 122', 'within 97 121'),
    Wrong('small letters to the brace', LETTERS, 'within 97 122', 'within 97 123'),
    Wrong('a is 11', MOD97, 'x - 87', 'x - 86'),
    Wrong('small letters after capitals', MOD97, 'x - 87', 'x - 61'),
    Wrong('small letters are 0', MOD97, '(cond (small x) (x - 87) 0)', '0'),
    Wrong('two entries swapped', MOD10, '0 ∷ 9 ∷ 4', '0 ∷ 4 ∷ 9'),
    Wrong('the last entries swapped', MOD10, '3 ∷ 5 ∷ []', '5 ∷ 3 ∷ []'),
    Wrong('an entry missing', MOD10, '3 ∷ 5 ∷ []', '3 ∷ []'),
    Wrong('a first carry of 1', MOD10, 'carry 0 s', 'carry 1 s'),
    Wrong('a carry of 0 asks for 10', MOD10, '48 + (10 - carry 0 s) % 10', '48 + (10 - carry 0 s)'),
    Wrong('the carry itself', MOD10, '48 + (10 - carry 0 s) % 10', '48 + carry 0 s % 10'),
    Wrong('the digit of 25', MOD10, 'take 26 s', 'take 25 s'),
    Wrong('the digit before', MOD10, 'get_or s 26 0', 'get_or s 25 0'),
    Wrong('7 told as 8', KINDS, 'number = 7;', 'number = 8;'),
    Wrong('lengths in bytes', KINDS, 'sized_at_most (λ ls. characters)', 'sized_at_most (λ ls. lib.ListN.length)'),
)


def wrong_rules():
    """All of them; those of crate `swiss` first, since another `sieve` has to be made again."""
    yield from wrong_limits(LIMITS, NUMBERS, TEXTS)
    yield from wrong_lines()
    yield from without_rule()
    yield from OTHER_RULES
    yield from OTHER_FORMS
    yield from ASKED_HERE_ALONE
