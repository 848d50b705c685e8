#!/usr/bin/env python3
"""Turns the matches that mummer finds into a match script, or checks such a script by its letters.

    mummer -maxmatch -b -c A.fasta B.fasta >MATCHES
    mummer_to_script.py convert [--longest N] A.fasta B.fasta <MATCHES >SCRIPT
    mummer_to_script.py check A.fasta B.fasta <SCRIPT

mummer counts letters from 1. Each of its lines has a match's first letter on A, its first letter on B and its length.
In a reversed match B is read backwards, so with -c the first letter on B is the one furthest right.
A script counts the places between letters from 0, and has left-A, left-B and the length of each match.

The records of a FASTA file are laid end to end, in the file's order. No match goes over a border between two: such a
border is only ever an end of a match. A line '> NAME' of mummer says of which record of B the next matches are, and a
column before the numbers (-F, or several records in A) of which record of A. A name ends at the first blank.
mummer's options -L, -F, -l, -n, -r and those for unique matches may be used; -s may not.

Before a script is written, and in a check, each match must have the same letters in both files and must not go on at
either end of it. A check passes over marks, which may have been laid on the script since. --longest N keeps the N
longest matches, in their order. An error is one line on standard error, with exit status 1, or 2 if the command is not
understood.
"""

import argparse
import heapq
import os
import re
import struct
import sys
from bisect import bisect_right
from functools import cached_property
from typing import NamedTuple

LENGTHS, DIRECT, REVERSED, MARK, END = b"L", b"D", b"R", b"M", b"E"
LENGTHS_BYTES, MATCH_BYTES, MARK_BYTES = 9, 13, 6
MOST_MATCHES, MOST_LETTERS = 2048, 1_000_000_000

RECORD = re.compile(rb">(\S*)[^\n]*\n?([^>]*)")
HEADER = re.compile(rb">\s?(\S*?)(\s+Reverse)?(?:\s+Len\s*=\s*(\d{1,12}))?\s*")
MATCH = re.compile(rb"\s*(?:(\S+)\s+)?(\d{1,12})\s+(\d{1,12})\s+(\d{1,12})\s*")

# As mummer compares letters: in lower case, and in a reversed match by the complement, which is n for what has none.
LOWER = bytes(range(256)).lower()
BLANKS = b" \t\r\n\v\f"
BASES = b"acgt"
COMPLEMENT = bytearray(b"n" * 256)
for one, other in zip(b"acgtrykmbdhvsw", b"tgcayrmkvhdbsw"):
    COMPLEMENT[one] = other

AS_MUMMER_READ = "give the two files that mummer read, in the same order"
USE = "use the output of 'mummer -maxmatch -b -c A.fasta B.fasta'"


class Failure(Exception):
    """What is wrong and what to do, in one line."""


class Record(NamedTuple):
    left: int
    right: int


class Match(NamedTuple):
    command: bytes
    left_a: int
    left_b: int
    length: int


class Sequence:
    """The records of a FASTA file, end to end, in lower case."""

    def __init__(self, path):
        self.path = path
        with open(path, "rb") as file:
            data = file.read()
        if not re.match(rb"\s*>", data):
            raise Failure(f"{path}: not a FASTA file, which begins with a line '>NAME'")
        self.records = {}
        parts, left = [], 0
        for name, lines in RECORD.findall(data):
            letters = lines.translate(LOWER, BLANKS)
            if name in self.records:
                raise Failure(f"{path}: two records are named '{text(name)}': give one of them another name")
            self.records[name] = Record(left, left + len(letters))
            parts.append(letters)
            left += len(letters)
        if not 1 <= left <= MOST_LETTERS:
            raise Failure(f"{path}: {left} letters; a script takes 1 to {MOST_LETTERS:,}: give other sequences")
        self.letters = b"".join(parts)
        self.in_order = list(self.records.values())
        self.lefts = [record.left for record in self.in_order]

    def __len__(self):
        return len(self.letters)

    def record(self, name):
        if name not in self.records:
            raise Failure(f"{self.path} has no record '{text(name)}': {AS_MUMMER_READ}")
        return self.records[name]

    def only_record(self):
        if len(self.records) > 1:
            raise Failure(f"{self.path} has {len(self.records)} records, and none is named: {AS_MUMMER_READ}")
        return self.in_order[0]

    def record_at(self, place):
        """The last record that begins at this place or before."""
        return self.in_order[bisect_right(self.lefts, place) - 1]

    @cached_property
    def other_strand(self):
        """All letters, from right to left and complemented."""
        return self.letters.translate(COMPLEMENT)[::-1]


def text(name):
    return name.decode("utf-8", "replace")


def main():
    options = read_options()
    try:
        options.mode(Sequence(options.a), Sequence(options.b), options)
    except Failure as failure:
        sys.exit(f"mummer_to_script: {failure}")
    except OSError as error:
        sys.exit(f"mummer_to_script: {error.filename or 'standard input or output'}: {error.strerror}")


class Parser(argparse.ArgumentParser):
    def error(self, message):
        self.exit(2, f"mummer_to_script: {message}; mummer_to_script.py -h tells how it is used\n")


def read_options():
    parser = Parser(description=__doc__, formatter_class=argparse.RawDescriptionHelpFormatter)
    modes = parser.add_subparsers(metavar="convert|check", required=True)
    for name, mode in (("convert", convert), ("check", check)):
        words = modes.add_parser(name)
        words.set_defaults(mode=mode)
        words.add_argument("a", metavar="A.fasta")
        words.add_argument("b", metavar="B.fasta")
        if mode is convert:
            words.add_argument("--longest", metavar="N", type=count_of_matches)
    return parser.parse_args()


def count_of_matches(word):
    if not re.fullmatch("[0-9]{1,4}", word) or int(word) > MOST_MATCHES:
        raise argparse.ArgumentTypeError(f"it takes a number up to {MOST_MATCHES}")
    return int(word)


def convert(a, b, options):
    matches = list(matches_of_mummer(standard_input(), a, b))
    if options.longest is not None:
        longest = heapq.nlargest(options.longest, range(len(matches)), key=lambda at: matches[at].length)
        matches = [matches[at] for at in sorted(longest)]
    if len(matches) > MOST_MATCHES:
        raise Failure(
            f"{len(matches)} matches; a script has at most {MOST_MATCHES:,}: give mummer a larger least length (-l), "
            f"or convert with --longest {MOST_MATCHES}"
        )
    script = [LENGTHS, struct.pack("<2I", len(a), len(b))]
    script += [struct.pack("<c3I", *match) for match in matches]
    put(b"".join(script) + END)


def standard_input():
    return open(0, "rb", closefd=False)


def put(data):
    """Writes all of it at once, so that none is left to fail after the last line of this program."""
    while data:
        data = data[os.write(1, data) :]


def matches_of_mummer(lines, a, b):
    """The matches in mummer's output, each compared with the letters of both files."""
    header = None
    for number, line in enumerate(lines, 1):
        try:
            if line.startswith(b">"):
                header = read_header(line, b)
            elif line.strip() and not line.startswith(b"#"):
                yield read_match(line, header, a, b)
        except Failure as failure:
            raise Failure(f"line {number}: {failure}") from None
    if not header:
        raise Failure("no line '> NAME' came in, which mummer prints even where nothing matches: see whether it failed")


def read_header(line, b):
    """The command of the next matches, and their record of B."""
    found = HEADER.fullmatch(line)
    if not found:
        raise Failure(f"not a line of mummer: {USE}")
    name, backwards, length = found.groups()
    record = b.record(name)
    letters = record.right - record.left
    if length and int(length) != letters:
        raise Failure(f"'{text(name)}' has {letters} letters in {b.path}, not {int(length)}: {AS_MUMMER_READ}")
    return REVERSED if backwards else DIRECT, record


def read_match(line, header, a, b):
    found = MATCH.fullmatch(line)
    if not found:
        raise Failure(f"not a line of mummer: {USE}, without -s")
    if not header:
        raise Failure(f"a match before the first line '> NAME': {USE}")
    command, on_b = header
    on_a = a.only_record() if found[1] is None else a.record(found[1])
    first_a, first_b, length = int(found[2]), int(found[3]), int(found[4])
    left_a = on_a.left + first_a - 1
    left_b = on_b.left + (first_b - 1 if command == DIRECT else first_b - length)
    match = Match(command, left_a, left_b, length)
    fault = fault_of(match, on_a, on_b, a, b)
    if not fault:
        return match
    if command == REVERSED:
        # So it is without -c: the first letter on B is counted on the other strand.
        mirrored = match._replace(left_b=on_b.right - (first_b - 1) - length)
        if not fault_of(mirrored, on_a, on_b, a, b):
            raise Failure("the place on B is counted on the other strand: run mummer with -c")
    raise Failure(f"{fault}: {AS_MUMMER_READ}, and run mummer with -c")


def fault_of(match, on_a, on_b, a, b):
    """What is wrong with a match of two records, if something is. mummer's cannot be made longer at either end."""
    command, left_a, left_b, length = match
    right_a, right_b = left_a + length, left_b + length
    if length < 1 or left_a < on_a.left or right_a > on_a.right or left_b < on_b.left or right_b > on_b.right:
        return "the match does not lie in its record"
    letters_a, letters_b = a.letters, b.letters
    first, last = on_b
    if command == REVERSED:
        # It is a direct match with B's other strand.
        letters_b = b.other_strand
        left_b, right_b = len(b) - right_b, len(b) - left_b
        first, last = len(b) - last, len(b) - first
    if letters_a[left_a:right_a] != letters_b[left_b:right_b]:
        return "the letters of the match differ"
    # With -n a letter that is none of these ends a match, though it stands on both sides.
    if left_a > on_a.left and left_b > first and letters_a[left_a - 1] == letters_b[left_b - 1] in BASES:
        return "the match could be longer"
    if right_a < on_a.right and right_b < last and letters_a[right_a] == letters_b[right_b] in BASES:
        return "the match could be longer"
    return None


def check(a, b, _):
    count = {DIRECT: 0, REVERSED: 0}
    for number, match in enumerate(matches_of_script(standard_input().read(), a, b), 1):
        fault = fault_of(match, a.record_at(match.left_a), b.record_at(match.left_b), a, b)
        if fault:
            raise Failure(f"match {number}: {fault}: convert it again, with the same two files")
        count[match.command] += 1
    counts = f"{count[DIRECT]} direct and {count[REVERSED]} reversed matches"
    put(f"{counts} agree letter by letter; none could be longer\n".encode())


def matches_of_script(script, a, b):
    if script[:LENGTHS_BYTES] != LENGTHS + struct.pack("<2I", len(a), len(b)) or script[-1:] != END:
        raise Failure("not a script of these two sequences: make one by convert")
    start, end = LENGTHS_BYTES, len(script) - 1
    while start < end:
        command = script[start : start + 1]
        if command not in (DIRECT, REVERSED, MARK):
            raise Failure(f"no match at byte {start} of the script: make it again by convert")
        behind = start + (MARK_BYTES if command == MARK else MATCH_BYTES)
        if behind > end:
            raise Failure(f"the command at byte {start} of the script is cut short: make it again by convert")
        if command != MARK:
            yield Match(*struct.unpack_from("<c3I", script, start))
        start = behind


if __name__ == "__main__":
    main()
