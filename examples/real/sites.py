#!/usr/bin/env python3
"""Finds the sites of a restriction enzyme in a sequence, to be laid on another one as markers, or counts those that
were laid on sites of the other one.

    sites.py find AAGCTT A.fasta >POSITIONS
    lay_markers SCRIPT A POSITIONS >LAID
    sites.py count AAGCTT B.fasta <LAID

A site must read the same on both strands. Then its middle does not depend on the strand either: also a reversed match
carries the middle of a site to the middle of one, if the whole site lies in the match. Positions lie between letters
and are counted from 0. The records of a FASTA file are laid end to end, as mummer_to_script.py does it, and no site
goes over a border between two.

An error is one line on standard error, with exit status 1, or 2 if the command is not understood.
"""

import re
import sys

sys.dont_write_bytecode = True  # so that no folder is left here
from mummer_to_script import COMPLEMENT, Failure, Sequence, put, standard_input

LAID = re.compile(rb"[AB] (\d+) match \d+ (?:row \d+|cut) [AB] (\d+)\n")
USAGE = "usage: sites.py find SITE A.fasta >POSITIONS, or sites.py count SITE B.fasta <LAID; SITE is such as AAGCTT"


def main():
    modes = {"find": find, "count": count}
    if len(sys.argv) != 4 or sys.argv[1] not in modes:
        print(USAGE, file=sys.stderr)
        sys.exit(2)
    _, mode, site, path = sys.argv
    try:
        put(modes[mode](middles(Sequence(path), letters_of(site))).encode())
    except Failure as failure:
        sys.exit(f"sites: {failure}")
    except OSError as error:
        sys.exit(f"sites: {error.filename or 'standard input or output'}: {error.strerror}")


def letters_of(site):
    letters = site.lower().encode()
    if not re.fullmatch(b"[acgt]+", letters) or letters.translate(COMPLEMENT)[::-1] != letters:
        raise Failure(f"'{site}' is no site of A, C, G and T that reads the same on both strands: give such a one")
    return letters


def middles(sequence, site):
    """The middle of each site, from left to right. Sites may overlap."""
    found = []
    for left, right in sequence.in_order:
        at = sequence.letters.find(site, left, right)
        while at >= 0:
            found.append(at + len(site) // 2)
            at = sequence.letters.find(site, at + 1, right)
    return found


def find(sites):
    return "".join(f"{middle}\n" for middle in sites)


def count(sites):
    laid = [(int(line[1]), int(line[2])) for line in map(LAID.fullmatch, standard_input()) if line]
    markers = {marker for marker, _ in laid}
    kept = {marker for marker, place in laid if place in sites}
    reached = {place for _, place in laid if place in sites}
    return f"{len(kept)} of {len(markers)} carried markers are at a site; {len(reached)} of {len(sites)} are reached\n"


if __name__ == "__main__":
    main()
