#!/usr/bin/env python3
"""Holds the sources to 01's clause b: every public call states something of what it returns.

Each function with a body in crates/*/src that is `pub`, or `extern "C"`, must have an `ensures`; if it returns a value,
one that speaks of that value. The calls that 01 and 02 name, and each function for C in crates/capi, must take every
input: they have no `requires`. The last line is 'contracts: N functions, 0 missing', and the exit status 0, only if all
do.
"""

import re
import sys
from pathlib import Path

# The calls that 01 and 02 name, and reading into lent columns: the file below crates/ and the function.
TOTAL = {
    ("reader/src/lib.rt", "read"),
    ("reader/src/find.rt", "find_match"),
    ("reader/src/columns.rt", "read_columns"),
    ("writer/src/lib.rt", "write"),
    ("record_reader/src/lib.rt", "read_records"),
    ("refine/src/lib.rt", "refine"),
    ("chain/src/lib.rt", "chain"),
    ("carrying/src/lib.rt", "carry"),
    ("carrying_all/src/lib.rt", "carry_all"),
    ("match_rows/src/lib.rt", "rows_of"),
    ("match_rows/src/lib.rt", "span_of"),
    ("summary/src/lib.rt", "sum_up"),
    ("report/src/lib.rt", "report"),
}
DOORS = "capi/src/"

# What is no code: comments, strings and characters. A lifetime or a primed name is none of these.
NO_CODE = re.compile(r'(?://|--)[^\n]*|/\*.*?\*/|"(?:\\.|[^"\\])*"|\'(?:\\.|[^\'\\])\'', re.DOTALL)
WORD = r'\b(?:pub(?:\s*\([^)]*\))?|const|unsafe|extern(?:\s*"C")?)\s+'
FUNCTION = re.compile(rf"(?P<words>(?:{WORD})*)\bfn\s+(?P<name>\w+)")
CLAUSE = re.compile(r"\b(requires|ensures)\b\*?(?:\s+\w+)?\s*\{")
RESULT = re.compile(r"(?<![\w.])result(?!\w)")


def main():
    crates = Path(__file__).resolve().parent.parent / "crates"
    functions = missing = 0
    unseen = set(TOTAL)
    for path in sorted(crates.glob("*/src/**/*.rt")):
        file = path.relative_to(crates).as_posix()
        for line, name, door, header in public_functions(path.read_text(encoding="utf-8")):
            functions += 1
            total = (file, name) in TOTAL or door and file.startswith(DOORS)
            unseen.discard((file, name))
            for fault in faults(header, total):
                missing += 1
                print(f"crates/{file}:{line}: {name} {fault}")
    for file, name in sorted(unseen):
        missing += 1
        print(f"crates/{file}: has no public function {name}, which 01 or 02 names")
    print(f"contracts: {functions} functions, {missing} missing")
    sys.exit(functions == 0 or missing > 0)


def public_functions(source):
    """Line, name, whether it is for C, and header of each public function that has a body."""
    code = NO_CODE.sub(blank, source)
    for found in FUNCTION.finditer(code):
        door = "extern" in found["words"]
        end = body(code, found.end())
        if (door or "pub" in found["words"]) and code[end] == "{":
            line = code.count("\n", 0, found.start("name")) + 1
            yield line, found["name"], door, code[found.end() : end]


def blank(found):
    """Blanks of the same length, so that lines keep their numbers; the C of `extern "C"` is kept."""
    return found[0] if found[0] == '"C"' else re.sub(r"[^\n]", " ", found[0])


def body(code, at):
    """Where the body of a function begins: the first brace that opens no clause; or the semicolon of one without."""
    while True:
        at = re.compile(r"[\[({;]|\b(requires|ensures)\b").search(code, at).start()
        if code[at] in "{;":
            return at
        clause = CLAUSE.match(code, at)
        at = behind(code, clause.end() - 1 if clause else at)


def behind(code, at):
    """The place behind the bracket that closes the one at this place."""
    depth = 0
    while True:
        depth += (code[at] in "([{") - (code[at] in ")]}")
        at += 1
        if depth == 0:
            return at


def faults(header, total):
    clauses = list(CLAUSE.finditer(header))
    promises = [header[it.end() - 1 : behind(header, it.end() - 1)] for it in clauses if it[1] == "ensures"]
    if not promises:
        yield "states nothing: it has no ensures"
    elif "->" in header[: clauses[0].start()] and not any(speaks(text) for text in promises):
        yield "states nothing of what it returns"
    if total and any(it[1] == "requires" for it in clauses):
        yield "has a requires, and must take every input"


def speaks(promise):
    """Whether a promise speaks of the result."""
    return RESULT.search(promise) is not None


main()
