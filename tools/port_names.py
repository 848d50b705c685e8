#!/usr/bin/env python3
"""Respells this repository's own definitions, lemmas, fields and constructors as today's Rattle has them: words in snake
case, as `carryingOf` is `carrying_of`, and in a field or a constructor an underscore for a dash, as `no-such-match` is
`no_such_match`. Types keep their capitals, and in the name of a lemma a dash stays where it joins two names.

usage: python3 tools/port_names.py [--tell]      at the top of the repository, once, after the kit's own script

It reads each .antt file of crates/ for the names that are declared there, and rewrites the tokens of .antt files, .rt
files and must-fail edits. --tell prints the list, and the names that would fall together, and writes nothing.
"""

import pathlib
import re
import sys

TOP = pathlib.Path("crates")
# A token of antt.
TOKEN = re.compile(r"[^\s(){}.;,@\"«»\[\]\\]+")
HEAD = re.compile(r"^ *(?:(?:abbrev|unfoldable|pub) +)*([^\s:(){}.;,@\"«»\[\]\\]+) +:(?!\S)", re.M)
BLOCK = re.compile(r"^( *)(?:pub +)?(?:record|data) .*?(?=\n\n|\Z)", re.M | re.S)
# A lemma or a helper whose new name would be that of a word that its file cites, by file.
FIRST = {
    "crates/reporting/proofs/Lent.antt": {"lent_rows": "lent_rows-lengths"},
    "crates/reporting/proofs/Own.antt": {"lent_rows": "lent_rows-lengths"},
    "crates/reporting/proofs/Lib.antt": {},
    "crates/vectors/proofs/Most.antt": {"one_more": "one_more-comes"},
    "crates/carrying_few/proofs/carry_over/Proof.antt": {"columns_of": "the_columns"},
}


def snake(name):
    """`matchAB` is `match_ab`, `spansPlace?` is `spans_place?`, `∈-endsOf` is `∈-ends_of`."""
    parts = []
    for part in name.split("-"):
        if part[:1].islower() and re.search(r"[a-z0-9][A-Z]", part):
            part = re.sub(r"([a-z0-9])([A-Z]+)", lambda m: m[1] + "_" + m[2].lower(), part)
        parts.append(part)
    return "-".join(parts)


def files():
    for path in sorted(TOP.rglob("*")):
        if path.suffix in (".antt", ".rt", ".edit") and "out" not in path.parts:
            yield path


def declared(texts):
    """Each declared name with its new spelling."""
    names = {}
    for path, text in texts.items():
        if path.suffix != ".antt":
            continue
        for name in HEAD.findall(text):
            names[name] = snake(name)
    for path, text in texts.items():
        if path.suffix != ".antt":
            continue
        for block in BLOCK.finditer(text):
            for name in HEAD.findall(block[0].split("\n", 1)[-1]):
                if name[0].islower() and "-" in name and re.fullmatch(r"[a-z0-9'-]+", name):
                    names[name] = snake(name).replace("-", "_")
    return {old: new for old, new in names.items() if old != new}


def main():
    tell = "--tell" in sys.argv
    texts = {path: path.read_text() for path in files()}
    for path, text in texts.items():
        first = FIRST.get(str(path), {})
        texts[path] = TOKEN.sub(lambda m: first.get(m[0], m[0]), text)
    turned = declared(texts)
    count = 0
    for path, text in texts.items():
        here = set(TOKEN.findall(text))
        for old in sorted(here & set(turned)):
            if turned[old] in here:
                print("together:", path, old, turned[old])
        new = TOKEN.sub(lambda m: turned.get(m[0], m[0]), text)
        if new != path.read_text():
            count += 1
            if not tell:
                path.write_text(new)
    if tell:
        for old, new in sorted(turned.items()):
            print(old, new)
    print(f"{len(turned)} names, {count} files")


main()
