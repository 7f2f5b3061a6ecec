"""What a wrong rule is, and the wrong rules of what every layout shares, in crate `sieve`: a table of
each layout must refuse each of these."""

from typing import NamedTuple

LETTERS = 'sieve/specs/Letters.antt'
LATIN = 'sieve/specs/Latin.antt'
CHARACTERS = 'sieve/specs/Characters.antt'
MOD97 = 'sieve/specs/Mod97.antt'
KINDS = 'sieve/specs/Kinds.antt'
RULES = 'sieve/specs/Rules.antt'
LINES = 'sieve/specs/Lines.antt'
VERDICT = 'sieve/specs/Verdict.antt'


class Wrong(NamedTuple):
    """A wrong rule: in a file, what a text that stands there once is changed to; and which rows of the
    second table are tried first, by the beginning of the comment before them, which saves time."""
    name: str
    file: str
    old: str
    new: str
    rows: str = ''


def wrong_limits(file, numbers, texts):
    """Each number of a layout's limits one less and one more, and each text another."""
    for name, value in numbers.items():
        for other in (value - 1, value + 1):
            yield Wrong(f'{name} {other}', file, f'{name} = {value}', f'{name} = {other}')
    for name, (text, other) in texts.items():
        yield Wrong(f'{name} {other}', file, f'{name} = "{text}"', f'{name} = "{other}"')


SHARED = (
    Wrong('digits from 1', LETTERS, 'within 48 57', 'within 49 57'),
    Wrong('digits from the slash', LETTERS, 'within 48 57', 'within 47 57'),
    Wrong('digits to 8', LETTERS, 'within 48 57', 'within 48 56'),
    Wrong('digits to the colon', LETTERS, 'within 48 57', 'within 48 58'),
    Wrong('capitals from B', LETTERS, 'within 65 90', 'within 66 90'),
    Wrong('capitals from the at sign', LETTERS, 'within 65 90', 'within 64 90'),
    Wrong('capitals to Y', LETTERS, 'within 65 90', 'within 65 89'),
    Wrong('capitals to the bracket', LETTERS, 'within 65 90', 'within 65 91'),
    Wrong('no space', LATIN, 'within 0x20 0x7E', 'within 0x21 0x7E'),
    Wrong('byte 1F', LATIN, 'within 0x20 0x7E', 'within 0x1F 0x7E'),
    Wrong('byte 7F', LATIN, 'within 0x20 0x7E', 'within 0x20 0x7F'),
    Wrong('no tilde', LATIN, 'within 0x20 0x7E', 'within 0x20 0x7D'),
    Wrong('a tab', LATIN, 'within 0x20 0x7E x', 'within 0x20 0x7E x || eqb x 9'),
    Wrong('no backslash', LATIN, 'within 0x20 0x7E x', 'within 0x20 0x5B x || within 0x5D 0x7E x'),
    Wrong('C2 9F', LATIN, 'within 0xA0 0xBF', 'within 0x9F 0xBF'),
    Wrong('no C2 A0', LATIN, 'within 0xA0 0xBF', 'within 0xA1 0xBF'),
    Wrong('no C2 BF', LATIN, 'within 0xA0 0xBF', 'within 0xA0 0xBE'),
    Wrong('no C2', LATIN, '(eqb x 0xC2 && within 0xA0 0xBF y) || ', ''),
    Wrong('C1', LATIN, 'eqb x 0xC2', 'within 0xC1 0xC2 x'),
    Wrong('C6', LATIN, 'within 0xC3 0xC5', 'within 0xC3 0xC6'),
    Wrong('no C5', LATIN, 'within 0xC3 0xC5', 'within 0xC3 0xC4'),
    Wrong('no C4', LATIN, 'within 0xC3 0xC5 x', '(eqb x 0xC3 || eqb x 0xC5)'),
    Wrong('no C3 80', LATIN, 'within 0x80 0xBF', 'within 0x81 0xBF'),
    Wrong('C3 7F', LATIN, 'within 0x80 0xBF', 'within 0x7F 0xBF'),
    Wrong('C3 C0', LATIN, 'within 0x80 0xBF', 'within 0x80 0xC0'),
    Wrong('no multiplication sign', LATIN, 'within 0x80 0xBF y', '(within 0x80 0x96 y || within 0x98 0xBF y)'),
    Wrong('C8 97', LATIN, 'within 0x98 0x9B', 'within 0x97 0x9B'),
    Wrong('C8 9C', LATIN, 'within 0x98 0x9B', 'within 0x98 0x9C'),
    Wrong('no C8 9B', LATIN, 'within 0x98 0x9B', 'within 0x98 0x9A'),
    Wrong('no C8', LATIN, ' || (eqb x 0xC8 && within 0x98 0x9B y)', ''),
    Wrong('C9', LATIN, 'eqb x 0xC8', 'within 0xC8 0xC9 x'),
    Wrong('E2 82 AB', LATIN, 'eqb z 0xAC', 'within 0xAB 0xAC z'),
    Wrong('E2 82 and anything', LATIN, ' && eqb z 0xAC', ''),
    Wrong('E2 83 AC', LATIN, 'eqb y 0x82', 'within 0x82 0x83 y'),
    Wrong('E3 82 AC', LATIN, 'eqb x 0xE2', 'within 0xE2 0xE3 x'),
    Wrong('no euro sign', LATIN, 'eqb x 0xE2', 'eqb x 0xE3'),
    Wrong('a lone CR passes', CHARACTERS, 'eqb (get_or s 0 0) 13 && eqb (get_or s 1 0) 10) 2 0', 'eqb (get_or s 0 0) 13) 1 0'),
    Wrong('no CR LF', CHARACTERS, 'eqb (get_or s 1 0) 10) 2 0', 'eqb (get_or s 1 0) 13) 2 0'),
    Wrong('CR LF and the byte after', CHARACTERS, 'eqb (get_or s 1 0) 10) 2 0', 'eqb (get_or s 1 0) 10) 3 0'),
    Wrong('bytes counted', CHARACTERS, 'cond (within 0x80 0xBF x) 0 1', 'cond (within 0x80 0xBF x) 1 1'),
    Wrong('80 counted', CHARACTERS, 'within 0x80 0xBF x', 'within 0x81 0xBF x'),
    Wrong('BF counted', CHARACTERS, 'within 0x80 0xBF x', 'within 0x80 0xBE x'),
    Wrong('wide characters not counted', CHARACTERS, 'within 0x80 0xBF x', 'within 0x80 0xFF x'),
    Wrong('CR counted as a line', CHARACTERS, 'eqb x 10) 1 0', 'within 10 13 x) 1 0'),
    Wrong('remainder 0', MOD97, 'eqb (remainder97 s) 1', 'eqb (remainder97 s) 0'),
    Wrong('remainder 0 too', MOD97, 'eqb (remainder97 s) 1', 'lib.Dec.leb (remainder97 s) 1'),
    Wrong('remainder 2 too', MOD97, 'eqb (remainder97 s) 1', 'cond (eqb (remainder97 s) 2) mathlib.Core.Bool.true (eqb (remainder97 s) 1)'),
    Wrong('pair 01 passes', MOD97, 'within 2 98', 'within 1 98'),
    Wrong('pair 99 passes', MOD97, 'within 2 98', 'within 2 99'),
    Wrong('pair 98 barred', MOD97, 'within 2 98', 'within 2 97'),
    Wrong('pair 02 barred', MOD97, 'within 2 98', 'within 3 98'),
    Wrong('any pair', MOD97, 'within 2 98 (numeral 0 (pair s)) && ', ''),
    Wrong('the pair one later', MOD97, 'take 2 (drop 2 s)', 'take 2 (drop 3 s)'),
    Wrong('by 96', MOD97, '% 97', '% 96'),
    Wrong('nothing moved', MOD97, 'drop 4 s ++ take 4 s', 's'),
    Wrong('three moved', MOD97, 'drop 4 s ++ take 4 s', 'drop 3 s ++ take 3 s'),
    Wrong('two moved', MOD97, 'drop 4 s ++ take 4 s', 'drop 2 s ++ take 2 s'),
    Wrong('A is 9', MOD97, 'x - 55', 'x - 56'),
    Wrong('letters of one digit', MOD97, 'cond (digit x) 10 100', 'cond (digit x) 10 10'),
    Wrong('6 told as 7', KINDS, 'number = 6;', 'number = 7;'),
    Wrong('8 told as 7', KINDS, 'number = 8;', 'number = 7;'),
    Wrong('9 told as 10', KINDS, 'number = 9;', 'number = 10;'),
    Wrong('10 told as 9', KINDS, 'number = 10;', 'number = 9;'),
    Wrong('11 told as 10', KINDS, 'number = 11;', 'number = 10;'),
    Wrong('as long as allowed is too long', KINDS, 'ltb most (size ls (line n ls))', 'lib.Dec.leb most (size ls (line n ls))'),
    Wrong('an empty line needs a form', KINDS, 'not (is_empty n ls) && not (right ls)', 'not (right ls)'),
    Wrong('a last line is one of at least n', RULES, 'is_last n ls = eqb (length ls) n', 'is_last n ls = lib.Dec.leb n (length ls)'),
    Wrong('an absent line has a byte', RULES, 'get_or ls (n - 1) []', 'get_or ls (n - 1) (ascii "A")'),
    Wrong('a line of one byte is empty', RULES, 'eqb (length l) 0', 'lib.Dec.leb (length l) 1'),
    Wrong('the second break is asked', LINES, 'kind (k ∷ ks) = k', 'kind (k ∷ ks) = lib.ListN.get_or ks 0 k'),
    Wrong('the CR kept', LINES, 'record { first = []; rest = with_cr c.rest }', 'record { first = x ∷ []; rest = with_cr c.rest }'),
    Wrong('the line after the unlike break', VERDICT, "(λ k. not (same_break (kind ks) k)) 1 ks", "(λ k. not (same_break (kind ks) k)) 2 ks"),
    Wrong('the line before the bad byte', VERDICT, '1 + line_feeds (take at p)', 'line_feeds (take at p)'),
    Wrong('as many bytes as allowed are too many', VERDICT, 'ltb L.most_bytes (length p)', 'lib.Dec.leb L.most_bytes (length p)'),
    Wrong('characters counted, not bytes', VERDICT, 'ltb L.most_bytes (length p)', 'ltb L.most_bytes (Rattle.sieve.specs.Characters.characters p)'),
    Wrong('4 before 3', VERDICT, 'bad_character_refusal L p ls ∷ mixed_breaks_refusal (breaks_of c)', 'mixed_breaks_refusal (breaks_of c) ∷ bad_character_refusal L p ls'),
    Wrong('5 before 4', VERDICT, 'mixed_breaks_refusal (breaks_of c) ∷ line_count_refusal L ls', 'line_count_refusal L ls ∷ mixed_breaks_refusal (breaks_of c)'),
    Wrong('3 before 2', VERDICT, 'too_many_bytes_refusal L p ∷ bad_character_refusal L p ls', 'bad_character_refusal L p ls ∷ too_many_bytes_refusal L p'),
    Wrong('lines before their number', VERDICT, 'line_count_refusal L ls ∷ map (about_lines ls) L.rules', 'mathlib.Core.List.flatten (map (about_lines ls) L.rules ∷ (line_count_refusal L ls ∷ []) ∷ [])'),
)
