#!/usr/bin/env python3
"""Brings the repository's own definitions and lemmas to snake case. Run once, behind the kit's port.py, at the top.

A name that stands in specs/ or proofs/ as a camel-case or dashed word becomes words with underscores. Where two names would fall
together one of them gets another, by the lists below. Names of types, of functions in src/ and of what Rattle makes stay.
"""
import collections
import glob
import re

# definitions that would fall together with the case of a type, or say more so
OTHERS = {
    "onePassed": "behind_one_passed", "bySteps": "mend_by_steps", "as-it-came": "came_unchanged", "in-room": "within_room",
    "noBytes": "no_bytes_refusal", "tooManyBytes": "too_many_bytes_refusal", "badCharacter": "bad_character_refusal",
    "mixedBreaks": "mixed_breaks_refusal", "lineCount": "line_count_refusal", "noRoom": "no_room_refusal",
    "noAmount": "no_amount_refusal",
}
# lemmas that have their definition's name
LEMMAS = (
    "line-ends listed-place lines-lie iban-length qrr-length nothing-due line-most iban-of-digits scor-of-digits handed-over "
    "digit-or-capital as-two digit-byte small-rules list-size in-front same-break look-from"
).split()
# the same, already without a dash: in every file, or in one crate alone
SNAKE_LEMMAS = {"in_order": None, "laid_in": None, "two_digits": None, "in_three": ("making", "worth"), "line_after": ("mender",), "most_bytes": ("swift",)}

DECLARED = re.compile(r"^\s*(?:abbrev |unfoldable )?(?:pub )?(?:record |data )?([^\s:({]+) (?:\([^)]*\)\s*|\{[^}]*\}\s*)*: ")


def snake(name):
    if name in OTHERS:
        return OTHERS[name]
    if name in LEMMAS:
        return name.replace("-", "_") + "_lem"
    return re.sub(r"(?<=[a-z0-9])([A-Z])", lambda m: "_" + m.group(1).lower(), name.replace("-", "_"))


def declared():
    names = set()
    for f in glob.glob("crates/*/specs/*.antt") + glob.glob("crates/*/proofs/*.antt"):
        with open(f, encoding="utf-8") as t:
            for line in t:
                m = DECLARED.match(line)
                if m and not line.lstrip().startswith(("--", "use", "let", "mod")):
                    names.add(m.group(1))
    return {n: snake(n) for n in names if n[0].islower() and snake(n) != n}


def turn(text, names, lemmas=()):
    text = re.sub(r"(?<![\w'\-.])[a-z][\w'\-]*", lambda m: m.group(0) + "_lem" if m.group(0) in lemmas else m.group(0), text)
    return re.sub(r"(?<![\w'\-])[a-z][\w'\-]*", lambda m: names.get(m.group(0), m.group(0)), text)


def main():
    names = declared()
    fall = collections.Counter(names.values())
    for new, n in fall.items():
        if n > 1:
            print("falls together:", new, [k for k, v in names.items() if v == new])
    files = [f for f in glob.glob("crates/**/*", recursive=True) if f.endswith((".antt", ".rt", ".edit"))]
    for f in files:
        with open(f, encoding="utf-8", newline="") as t:
            old = t.read()
        if f.endswith(".antt"):
            new = turn(old, names, [n for n, crates in SNAKE_LEMMAS.items() if crates is None or f.split("/")[1] in crates])
        else:
            new = "".join(line if re.match(r"\s*//|#", line) else turn(line, names) for line in old.splitlines(keepends=True))
        if new != old:
            with open(f, "w", encoding="utf-8", newline="") as t:
                t.write(new)
    print(len(names), "names")


main()
