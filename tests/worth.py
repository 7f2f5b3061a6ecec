"""What check digits are worth, run and reckoned.

    python3 tests/worth.py

takes a hundred QR references and a hundred accounts, each in a bill that is accepted. The C host
tests/host/worth.c makes every slip in each of them: each digit changed to every other digit, each
letter to every other letter, and each two unlike neighbours swapped; in an account in characters 5 to
21. What qrbill_read answers is compared twice: with the reference, and with what the theorems of
crates/worth say. It prints how many slips are refused, by which rule, and how many pass; then what
share of swaps passes in all references and accounts that there are, reckoned and not sampled; and at
the end `N passed, M failed`.
"""

import struct
import subprocess
import sys
from collections import Counter
from fractions import Fraction
from functools import cache
from itertools import pairwise, product
from pathlib import Path
from string import ascii_letters, ascii_uppercase, digits
from typing import NamedTuple

sys.path.insert(0, str(Path(__file__).resolve().parent / 'lib'))

import kit
from casefile import base_bill
from chance import Dice
from reference.numbers import iban, qrr
from reference.qrbill import NEXT_CARRY, Refused, read
from telling import Count

HOST = kit.ROOT / 'tests' / 'host' / 'worth.c'
SEED, MANY = 1, 100

# As in worth.c.
HEAD, RESULT = struct.Struct('<3I'), struct.Struct('<3I')
SWAPPED = 0

PAST_CHECK_DIGITS, PAST_IID = 4, 9  # places in an account, from 0
QR_IBAN = 'CH6431961000004421557'
REFERENCE = '210000000003139471430009017'
SAME_DIGITS = [{'1', 'B'}, {'2', 'M'}, {'3', 'X'}]
ACCOUNTS = (digits, digits + ascii_uppercase, digits[:4] + 'BMX')  # what the last 12 are drawn from


class Typed(NamedTuple):
    """A reference or an account, the line of the bill that it stands on, and the bill."""
    text: str
    line: int
    payload: bytes

    @property
    def first(self):
        """The first place that slips are made at."""
        return 0 if self.line == 29 else PAST_CHECK_DIGITS

    @property
    def start(self):
        """Where the text begins in the payload."""
        return self.payload.index(self.text.encode())

    def packed(self):
        """As worth.c reads it."""
        start = self.start
        return HEAD.pack(len(self.payload), start + self.first, start + len(self.text)) + self.payload


class Slip(NamedTuple):
    """The place in a text, and the character typed there; none where two neighbours are swapped."""
    place: int
    key: str

    def made(self, text):
        """The text with this slip."""
        here, after = self.place, self.place + 1
        if self.key:
            return text[:here] + self.key + text[after:]
        return text[:here] + text[after] + text[here] + text[after + 1:]


# Texts and slips.

def references(dice):
    """QR references by chance."""
    for _ in range(MANY):
        yield qrr(''.join(dice.pick(digits) for _ in range(26)))


def accounts(dice):
    """Accounts by chance, every other one a QR-IBAN: of digits alone, with any letters, and with those
    that may stand for digits."""
    for number in range(MANY):
        iid = f'{30000 + dice.below(2000) if number % 2 else dice.below(30000):05}'
        alphabet = ACCOUNTS[number % len(ACCOUNTS)]
        yield iban(dice.pick(['CH', 'LI']), iid, ''.join(dice.pick(alphabet) for _ in range(12)))


def in_bill(text, number):
    """A text in a bill that is accepted, with breaks of either kind in turn."""
    account, line = (QR_IBAN, 29) if text.isdigit() else (text, 4)
    if 30000 <= int(account[4:9]) <= 31999:
        lines = {4: account, 28: 'QRR', 29: text if line == 29 else REFERENCE}
    else:
        lines = {4: account, 28: 'NON', 29: ''}
    payload = base_bill({place: some.encode() for place, some in lines.items()})
    crlf = number // len(ACCOUNTS) % 2  # so that each alphabet comes with either break
    return Typed(text, line, payload.replace(b'\n', b'\r\n') if crlf else payload)


def all_typed(seed):
    """References and accounts, each in its bill."""
    dice = Dice(seed)
    for some in (references, accounts):
        yield from (in_bill(text, number) for number, text in enumerate(some(dice)))


def slips(typed):
    """Every slip in a text, in the order of worth.c."""
    text, places = typed.text, range(typed.first, len(typed.text))
    for place in places:
        kind = digits if text[place].isdigit() else ''.join(sorted(ascii_letters))
        yield from (Slip(place, key) for key in kind if key != text[place])
    yield from (Slip(place, '') for place in places[:-1] if text[place] != text[place + 1])


# What is expected.

def carry_after(text):
    """The carry that a run of digits leaves."""
    carry = 0
    for digit in text:
        carry = NEXT_CARRY[(carry + int(digit)) % 10]
    return carry


def is_four_and_seven(carry, one, other):
    """Whether the carry plus each of two digits gives 4 and 7 modulo 10."""
    return {(carry + int(one)) % 10, (carry + int(other)) % 10} == {4, 7}


def is_unseen(typed, slip):
    """Whether a swap is one that check digits do not show, as the theorems say."""
    one, other = typed.text[slip.place:slip.place + 2]
    if typed.line == 29:
        return is_four_and_seven(carry_after(typed.text[:slip.place]), one, other)
    return slip.place >= PAST_IID and {one, other} in SAME_DIGITS


def by_the_theorems(typed, slip):
    """What the theorems say of a slip: the rule that refuses it, or 0 if it passes."""
    if slip.key:
        return 10 if slip.key.islower() else 11
    if is_unseen(typed, slip):
        return 0
    into_iid = typed.line == 4 and slip.place < PAST_IID and typed.text[slip.place + 1].isalpha()
    return 10 if into_iid else 11


def by_the_reference(typed, slip):
    """What qrbill_read should answer to a bill with a slip."""
    start, text = typed.start, slip.made(typed.text).encode()
    answer = read(typed.payload[:start] + text + typed.payload[start + len(text):])
    return 1000 * answer.number + answer.line if isinstance(answer, Refused) else answer.lines


@cache
def lines_of(payload):
    """How many lines an accepted payload has."""
    return read(payload).lines


def expected(typed, slip):
    """What the host should write of a slip, by the reference and by the theorems."""
    rule = by_the_theorems(typed, slip)
    place, key = typed.start + slip.place, ord(slip.key) if slip.key else SWAPPED
    told = 1000 * rule + typed.line if rule else lines_of(typed.payload)
    return (place, key, by_the_reference(typed, slip)), (place, key, told)


# The host.

def built_slipper(library: Path, folder: Path) -> Path:
    """The host, linked to a library with the calls of include/qrbill.h."""
    return kit.linked(folder / 'worth', kit.compiled(HOST, folder), library)


def results(program, some):
    """What the host writes of all slips in all texts."""
    ran = subprocess.run(kit.command(program), input=b''.join(typed.packed() for typed in some),
                         stdout=subprocess.PIPE, check=False, env=kit.environment())
    whole = len(ran.stdout) // RESULT.size * RESULT.size
    return list(RESULT.iter_unpack(ran.stdout[:whole]))


def rule_of(answer):
    """The rule that an answer of qrbill_read names; 0 if the payload is accepted."""
    return answer // 1000


def compare_slips(count, program, some):
    """Compare each slip, and count the answers: of each line, of changes and of swaps."""
    tried = [(typed, slip) for typed in some for slip in slips(typed)]
    got = results(program, some)
    got += (len(tried) - len(got)) * [None]  # where the host ended before
    failing = [(*pair, answer) for pair, answer in zip(tried, got)
               if set(expected(*pair)) != {answer}]
    count.compared(len(tried), failing + (len(got) - len(tried)) * ['a slip too many'], str)
    return Counter((typed.line, 'changes' if slip.key else 'swaps', rule_of(answer[2]))
                   for (typed, slip), answer in zip(tried, got) if answer)


def told_of(counted):
    """The counts in words."""
    for line, name in ((29, 'references'), (4, 'accounts')):
        for kind in ('changes', 'swaps'):
            by_rule = {rule: counted[line, kind, rule] for rule in (10, 11, 0)}
            yield (f'{MANY} {name}, {sum(by_rule.values())} {kind}: {by_rule[10]} refused under 10, '
                   f'{by_rule[11]} under 11, {by_rule[0]} pass')


# Shares, over all references and all accounts.

def swaps_in_references(drawn=26):
    """How many swaps of unlike neighbours a reference has, and how many of them pass, on average over
    all references of so many digits and the check digit that they ask for. All that a pair depends on
    is the carry before it, so this goes from place to place with how likely each carry is."""
    likely = {carry: Fraction(carry == 0) for carry in range(10)}
    unlike = passing = Fraction(0)
    for place in range(drawn):
        after = dict.fromkeys(range(10), Fraction(0))
        for carry, one in product(range(10), repeat=2):
            then = NEXT_CARRY[(carry + one) % 10]
            after[then] += likely[carry] / 10
            others = range(10) if place < drawn - 1 else [(10 - then) % 10]
            each = likely[carry] / 10 / len(others)
            unlike += each * sum(one != other for other in others)
            passing += each * sum(one != other and is_four_and_seven(carry, one, other)
                                  for other in others)
        likely = after
    return unlike, passing


def swaps_of_all(drawn):
    """The same for few digits, by swapping in every reference."""
    unlike = passing = 0
    for row in product(digits, repeat=drawn):
        text = ''.join(row)
        text += str((10 - carry_after(text)) % 10)
        for place, (one, other) in enumerate(pairwise(text)):
            unlike += one != other
            passing += one != other and carry_after(Slip(place, '').made(text)) == 0
    return Fraction(unlike, 10**drawn), Fraction(passing, 10**drawn)


def swaps_in_accounts(alphabet):
    """How many swaps of unlike neighbours characters 5 to 21 of an account have, and how many of them
    pass, on average over all accounts with an IID of digits and twelve characters of an alphabet."""
    unlike = passing = Fraction(0)
    neighbours = pairwise(5 * [digits] + 12 * [alphabet])
    for place, (one, other) in enumerate(neighbours, start=PAST_CHECK_DIGITS):
        pairs = [pair for pair in product(one, other) if len(set(pair)) == 2]
        same = [pair for pair in pairs if place >= PAST_IID and set(pair) in SAME_DIGITS]
        unlike += Fraction(len(pairs), len(one) * len(other))
        passing += Fraction(len(same), len(one) * len(other))
    return unlike, passing


def share(swaps):
    """The share of swaps that passes."""
    unlike, passing = swaps
    return passing / unlike


def is_near(counted, reckoned):
    """Whether the sampled references have about as many swaps that pass as reckoned: within four times
    the root of that number."""
    swaps = sum(number for (line, kind, _), number in counted.items() if (line, kind) == (29, 'swaps'))
    return (counted[29, 'swaps', 0] - swaps * reckoned) ** 2 <= 16 * swaps * reckoned


def share_checks(counted):
    """That shares are reckoned rightly: beside all short references, and beside the sample."""
    for drawn in range(1, 5):
        yield f'swaps after {drawn} digits', swaps_of_all(drawn), swaps_in_references(drawn)
    yield 'swaps that pass in the sample', True, is_near(counted, share(swaps_in_references()))
    yield 'swaps that pass in an account of digits', 0, share(swaps_in_accounts(digits))


def told_shares():
    """The shares in words."""
    alphabets = {'digits': digits, 'digits and capitals': digits + ascii_uppercase}
    found = {'references': swaps_in_references()}
    found |= {f'accounts of {name}': swaps_in_accounts(some) for name, some in alphabets.items()}
    for name, swaps in found.items():
        unlike, passing = map(float, swaps)
        yield (f'all {name}: of {unlike:.2f} swaps of unlike neighbours in each {passing:.4f} pass, '
               f'{share(swaps)} or {float(share(swaps)):.4%}')


def compared_worth(count, library, folder):
    """Count how bills with slips are read, and print what check digits are worth."""
    counted = compare_slips(count, built_slipper(library, folder), list(all_typed(SEED)))
    count.add(share_checks(counted))
    print(*told_of(counted), *told_shares(), sep='\n', flush=True)


def main():
    """Count and print; the exit status is 1 if anything failed."""
    count = Count()
    compared_worth(count, kit.static_library('capi'), kit.ROOT / 'target' / 'host')
    return count.closed()


if __name__ == '__main__':
    sys.exit(main())
