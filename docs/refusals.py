#!/usr/bin/env python3
"""Holds each place that lists the refusals to the proved definition: `number_of` of crates/script/specs/Refusals.antt.

A place gives rows: a number, a word, or both. Words are compared without case and without what parts them, so that
TooManyMatches, TOO_MANY_MATCHES, too-many-matches and "too many matches" are one. Each row must be one of the
definition's, and each of the definition's must be there once.

Prints a line for each difference. The last line is 'refusals: N places, 0 differences', and the exit status 0, only if
there is none.
"""

import re
import sys
from pathlib import Path

ROOT = Path(__file__).resolve().parent.parent
DEFINITION = "crates/script/specs/Refusals.antt"
READING = "crates/script/specs/Outcomes.antt"
HEADER = "include/notchergrey.h"
CODE = "crates/refusals/src/lib.rt"

# Files that list every refusal; what lists it there, the part of the file that this is, and a row in it.
LISTS = [
    (DEFINITION, "number_of", r"^number_of .*?\n\n", r"^number_of \(?(?P<word>\w+)[^=]* = (?P<number>\d+)$"),
    (DEFINITION, "place_of", r"^place_of .*\Z", r"^place_of \(?(?P<word>\w+)[^=]* ="),
    ("crates/script/src/refusal.rt", "enum", r"^pub enum Refusal \{.*?^\}", r"^ +(?P<word>[A-Z]\w*).*,$"),
    (CODE, "number_of", r"^pub fn number_of.*?^\}", r"Refusal::(?P<word>\w+)[^=]* => (?P<number>\d+),$"),
    (CODE, "place_of", r"^pub fn place_of.*?^\}", r"Refusal::(?P<word>\w+)(?:\(at\))?(?: => |$)"),
    (HEADER, "enum", r"^enum notchergrey_refusal \{.*?^\};", r"^ +NOTCHERGREY_(?P<word>\w+) = (?P<number>\d+)"),
    ("bindings/rust/src/word.rs", "words", r"^words! \{.*?^\}", r"^ +(?P<word>\w+) = (?P<number>\d+), "),
    ("bindings/rust/src/word.rs", "names", r"^words! \{.*?^\}", r'^ +\w+ = (?P<number>\d+), "(?P<word>[^"]+)":$'),
    ("compare/src/slow/refusal.rs", "enum", r"^pub enum Word \{.*?^\}", r"^ +(?P<word>\w+) = (?P<number>\d+),$"),
    ("docs/REFUSALS.md", "table", r"^\| number \| word \|.*?\n\n", r"^\| (?P<number>\d+) \| (?P<word>[^|]+?) \|"),
    ("docs/SCOPE.md", "table", r"^\| number \| word \|.*?\n\n", r"^\| (?P<number>\d+) \| (?P<word>[^|]+?) \|"),
]

# In a specification, a case of a `data` type, and the refusal that is its answer.
DATA = re.compile(r"^pub data (?:.|\n)*?where\n(?P<cases>(?:  .*\n|\n)*)", re.MULTILINE)
CASE = re.compile(r"^  (?P<word>[a-z_]+) :(?P<type>(?:.|\n(?=    ))*)", re.MULTILINE)
ANSWER = re.compile(r"\(refusal (?P<number>\d+) ")


def main():
    definition = dict(listed(DEFINITION, *LISTS[0][2:]))
    of_bytes = {number: definition.get(number, word) for number, word in outcomes(ROOT / READING)}
    stated = {row for path in ROOT.glob("crates/*/specs/**/*.antt") for row in outcomes(path)}
    places = [
        (f"{file}, {what}", listed(file, part, row), definition) for file, what, part, row in LISTS
    ]
    places += [
        ("crates/*/specs, the outcomes", sorted(stated), definition),
        ("compare/src, what the run must meet", sorted(set(needs())), definition),
        ("examples, a script for each fault of the bytes", examples(of_bytes), of_bytes),
    ]
    lines = []
    for place, rows, wanted in places:
        lines += [f"{place}: {difference}" for difference in differences(rows, wanted)]
    lines += example_faults(definition)
    print(*lines, sep="\n", end="\n" if lines else "")
    print(f"refusals: {len(places)} places, {len(lines)} differences")
    sys.exit(len(lines) > 0)


def differences(rows, wanted):
    """What is wrong with the rows of a place, a sentence each. A row without a number has that of its word."""
    number_of = {word: number for number, word in wanted.items()}
    seen = []
    for number, word in rows:
        if number is None:
            number = number_of.get(word)
        if number is None or number not in wanted:
            yield f"{named(number, word)} is no refusal"
        elif number in seen:
            yield f"{named(number, word)} is there twice"
        elif word is not None and word != wanted[number]:
            yield f"{named(number, word)} must be {wanted[number]}"
        seen.append(number)
    for number, word in wanted.items():
        if number not in seen:
            yield f"{named(number, word)} is missing"


def named(number, word):
    return " ".join(str(part) for part in (number, word) if part is not None)


def plain(word):
    """Small letters, words apart by a blank."""
    word = re.sub(r"(?<=[a-z0-9])(?=[A-Z])|(?<=[A-Z])(?=[A-Z][a-z])|(?<=[a-z])(?=[0-9])", " ", word)
    return re.sub(r"[ _-]+", " ", word).lower()


def source(file):
    return (ROOT / file).read_text(encoding="utf-8")


def row_of(found):
    number = found.groupdict().get("number")
    return None if number is None else int(number), plain(found["word"])


def listed(file, part, row):
    found = re.search(part, source(file), re.MULTILINE | re.DOTALL)
    return [row_of(one) for one in re.finditer(row, found[0], re.MULTILINE)] if found else []


def outcomes(path):
    """The cases whose answer is a refusal, with its number written out."""
    rows = []
    for data in DATA.finditer(path.read_text(encoding="utf-8")):
        for case in CASE.finditer(data["cases"]):
            answer = ANSWER.search(case["type"])
            if answer:
                rows.append((int(answer["number"]), plain(case["word"])))
    return rows


def needs():
    """The refusals that the run beside the slow program must meet; here numbers only."""
    for path in sorted(ROOT.glob("compare/src/**/*.rs")):
        for found in re.finditer(r"Need::refused\((\d+),", path.read_text(encoding="utf-8")):
            yield int(found[1]), None


def example_files():
    """The file, the number in its name and the words behind it."""
    for path in sorted(ROOT.glob("examples/refused-*.txt")):
        number, rest = re.fullmatch(r"refused-(\d+)-(.+)", path.stem).groups()
        yield path, int(number), plain(rest)


def examples(of_bytes):
    """Those that have the word of such a refusal in their name; others say there what is special to them."""
    return [(number, word) for _, number, word in example_files() if word in of_bytes.values()]


def example_faults(definition):
    """Each text must be the refusal of the number in its name."""
    for path, number, _ in example_files():
        line = path.read_text(encoding="utf-8")
        if number not in definition or not re.fullmatch(rf"refused {number} \d+\n", line):
            yield f"examples/{path.name}: must be 'refused {number}' and a place, and is {line.strip()!r}"


if __name__ == "__main__":
    main()
