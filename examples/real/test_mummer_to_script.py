#!/usr/bin/env python3
"""Runs mummer_to_script.py on outputs of mummer that are kept here, and on matches found letter by letter here: the
scripts must be just those wanted, and each error one line that says what to do. It needs no mummer. The last line is
'converter: N runs, 0 differences', and the exit status 0, only if all were so.
"""

import random
import struct
import subprocess
import sys
import tempfile
from pathlib import Path

CONVERTER = Path(__file__).resolve().with_name("mummer_to_script.py")
SECONDS = 120

ONE = (">one a record\nACGTTGCAACGGATTACAGATTACACCGT\nGGATCCATTTACG\n", ">two\nttttacgttgcaacggATTACAGATTACACCGTGG\n")
SEVERAL = (
    ">left\nACGTTGCAACGGATTACAGATT\n>right again\nTTGACCATGGATACCAAGG\n",
    ">x\nGGTTACGTTGCAACGG\n>y\nCCTTGGTATCCATGG\n>z\nCAGATTTTGACCA\n",
)
UNKNOWN = (">a\nacgtannnnnnngtcaa\n", ">b\nttcgtannnnnnngtcgg\n")
AMBIGUOUS = (">a\nggacgtrykmbdhvswnaccc\n", ">b\ntttnwsbdhvkmryacgttt\n")
NAMELESS = ("> blank\nacgtacgattaca\n", ">\nttacgtacgattacatt\n")
EMPTY = (">e\n>a\n\nacgtacgattaca\n\n", ">Reverse\nttacgtacgattacatt\n>f\n")
APART = (">far\nacgtaaccttgg\n", ">off\ngagagagagag\n")

# What mummer 3.23 prints for them with -maxmatch -b -c and a least length; L, F, N: with -L, -F, -n; NOT_C: without
# -c; S: with -s.
OF_ONE = """\
> two
       1         5        31
> two Reverse
       2        15        10
"""
OF_ONE_L = """\
> two  Len = 35
       1         5        31
> two Reverse  Len = 35
       2        15        10
"""
OF_ONE_F = """\
> two
  one         1         5        31
> two Reverse
  one         2        15        10
"""
OF_ONE_LF = """\
> two  Len = 35
  one         1         5        31
> two Reverse  Len = 35
  one         2        15        10
"""
OF_ONE_NOT_C = """\
> two
       1         5        31
> two Reverse
       2        21        10
"""
OF_ONE_S = """\
> two
       1         5        31
acgttgcaacggattacagattacaccgtgg
"""
OF_SEVERAL = """\
> x
  left          1         5        12
> x Reverse
  left          2        15        10
> y
  right         5        10         6
> y Reverse
  right         5        15        15
> z
  left         17         1         6
  right         1         7         7
> z Reverse
"""
OF_SEVERAL_NOT_C = """\
> x
  left          1         5        12
> x Reverse
  left          2         2        10
> y
  right         5        10         6
> y Reverse
  right         5         1        15
> z
  left         17         1         6
  right         1         7         7
> z Reverse
"""
OF_UNKNOWN = """\
> b
       2         3        14
       8         7         5
       7         7         6
       6         8         6
       6         9         5
> b Reverse
       8        13         5
       7        13         6
       6        13         7
       6        12         6
       6        11         5
"""
OF_UNKNOWN_N = """\
> b
       2         3         4
      13        14         3
> b Reverse
       1         5         3
"""
OF_AMBIGUOUS = """\
> b
> b Reverse
       3        18        16
"""
OF_NAMELESS = """\
>\x20
       1         3        13
>  Reverse
       2         9         6
"""
OF_EMPTY_LF = """\
> Reverse  Len = 17
  a         1         3        13
> Reverse Reverse  Len = 17
  a         2         9         6
> f  Len = 0
> f Reverse  Len = 0
"""
OF_APART = """\
> off
> off Reverse
"""

# The matches that they are: command, left-A, left-B, length.
IN_ONE = [("D", 0, 4, 31), ("R", 1, 5, 10)]
IN_SEVERAL = [("D", 0, 4, 12), ("R", 1, 5, 10), ("D", 26, 25, 6), ("R", 26, 16, 15), ("D", 16, 31, 6), ("D", 22, 37, 7)]
IN_UNKNOWN = [("D", 1, 2, 14), ("D", 7, 6, 5), ("D", 6, 6, 6), ("D", 5, 7, 6), ("D", 5, 8, 5)]
IN_UNKNOWN += [("R", 7, 8, 5), ("R", 6, 7, 6), ("R", 5, 6, 7), ("R", 5, 6, 6), ("R", 5, 6, 5)]
IN_UNKNOWN_N = [("D", 1, 2, 4), ("D", 12, 13, 3), ("R", 0, 2, 3)]
IN_EMPTY = [("D", 0, 2, 13), ("R", 1, 3, 6)]


class Run:
    """Runs in a folder of its own, counted; a difference is printed."""

    def __init__(self, folder):
        self.folder = folder
        self.runs = self.differences = 0

    def run(self, words, given=b"", program=(str(CONVERTER),), stdout=subprocess.PIPE):
        self.runs += 1
        command = [sys.executable, "-IS", *program, *words]
        return subprocess.run(
            command, input=given, stdout=stdout, stderr=subprocess.PIPE, cwd=self.folder, timeout=SECONDS, check=False
        )

    def write(self, files):
        for name, text in zip(("A.fasta", "B.fasta"), files):
            (self.folder / name).write_bytes(text if isinstance(text, bytes) else text.encode())

    def differs(self, what, got):
        self.differences += 1
        print(f"converter: {what}: status {got.returncode}, {got.stdout!r:.200}, {got.stderr!r:.400}")

    def makes(self, what, files, matches, wanted, *options):
        """The conversion makes the script of these matches, and the check finds no fault in it."""
        self.write(files)
        got = self.run(["convert", *options, "A.fasta", "B.fasta"], bytes_of(matches))
        if got.returncode != 0 or got.stderr or got.stdout != script_of(files, wanted):
            self.differs(what, got)
            return
        self.passes(f"{what}, checked", files, got.stdout, wanted)

    def passes(self, what, files, script, matches):
        """The check finds no fault in a script of these matches."""
        self.write(files)
        commands = [match[0] for match in matches]
        said = f"{commands.count('D')} direct and {commands.count('R')} reversed matches agree letter by letter"
        checked = self.run(["check", "A.fasta", "B.fasta"], script)
        if checked.returncode != 0 or checked.stderr or checked.stdout.decode() != f"{said}; none could be longer\n":
            self.differs(what, checked)

    def refuses(self, hint, files, matches, words=("convert", "A.fasta", "B.fasta"), status=1, **options):
        """One line on standard error with this hint, and nothing on standard output."""
        self.write(files)
        got = self.run(words, bytes_of(matches), **options)
        lines = got.stderr.decode().split("\n")
        one_line = len(lines) == 2 and lines[1] == "" and hint in lines[0] and lines[0].startswith("mummer_to_script: ")
        if got.returncode != status or got.stdout or not one_line:
            self.differs(f"an error that says '{hint}'", got)


def bytes_of(text):
    return text if isinstance(text, bytes) else text.encode()


def letters_of(fasta):
    return "".join(line.strip().lower() for line in fasta.split("\n") if not line.startswith(">")).replace(" ", "")


def script_of(files, matches):
    script = b"L" + struct.pack("<2I", *(len(letters_of(file)) for file in files))
    return script + b"".join(struct.pack("<c3I", match[0].encode(), *match[1:]) for match in matches) + b"E"


def conversions(run):
    run.makes("one record each", ONE, OF_ONE, IN_ONE)
    run.makes("-L", ONE, OF_ONE_L, IN_ONE)
    run.makes("-F", ONE, OF_ONE_F, IN_ONE)
    run.makes("-L -F", ONE, OF_ONE_LF, IN_ONE)
    run.makes("several records", SEVERAL, OF_SEVERAL, IN_SEVERAL)
    run.makes("letters n that match", UNKNOWN, OF_UNKNOWN, IN_UNKNOWN)
    run.makes("-n", UNKNOWN, OF_UNKNOWN_N, IN_UNKNOWN_N)
    run.makes("ambiguous letters", AMBIGUOUS, OF_AMBIGUOUS, [("R", 2, 2, 16)])
    run.makes("records without a name", NAMELESS, OF_NAMELESS, IN_EMPTY)
    run.makes("empty records, and one that is named Reverse", EMPTY, OF_EMPTY_LF, IN_EMPTY)
    run.makes("no match", APART, OF_APART, [])
    run.makes("no blank line is a match, nor what mummer says of itself", ONE, f"# reading\n\n{OF_ONE}\n \n", IN_ONE)
    run.makes("no line end at the end", ONE, OF_ONE.rstrip("\n"), IN_ONE)
    run.makes("Windows line ends", [file.replace("\n", "\r\n") for file in ONE], OF_ONE.replace("\n", "\r\n"), IN_ONE)
    run.makes("blanks among the letters", [file.replace("ATTACA", "ATT ACA ") for file in ONE], OF_ONE, IN_ONE)
    run.makes("the longest alone", SEVERAL, OF_SEVERAL, [IN_SEVERAL[3]], "--longest", "1")
    run.makes("the longest in their order", SEVERAL, OF_SEVERAL, [*IN_SEVERAL[:4], IN_SEVERAL[5]], "--longest", "5")
    run.makes("fewer than the longest asked for", ONE, OF_ONE, IN_ONE, "--longest", "2048")
    run.makes("none of them", ONE, OF_ONE, [], "--longest", "0")


def errors(run):
    run.refuses("line 4: the place on B is counted on the other strand: run mummer with -c", ONE, OF_ONE_NOT_C)
    run.refuses("line 4: the place on B is counted on the other strand: run mummer with -c", SEVERAL, OF_SEVERAL_NOT_C)
    run.refuses("without -s", ONE, OF_ONE_S)
    run.refuses("in the same order", ONE[::-1], OF_ONE)
    run.refuses("A.fasta has no record 'left'", (SEVERAL[1], SEVERAL[1]), OF_SEVERAL)
    run.refuses("A.fasta has 2 records, and none is named", (SEVERAL[0], ONE[1]), OF_ONE)
    run.refuses("has 34 letters in B.fasta, not 35", (ONE[0], ONE[1].replace("tttt", "ttt")), OF_ONE_L)
    run.refuses("line 2: the letters of the match differ", (ONE[0].replace("TTACACC", "TTACGCC"), ONE[1]), OF_ONE)
    run.refuses("line 2: the letters of the match differ", ONE, OF_ONE.replace("  5        31", "  4        31"))
    run.refuses("line 2: the match could be longer", ONE, OF_ONE.replace("31", "30"))
    begins_later = OF_ONE.replace("1         5        31", "2         6        30")
    run.refuses("line 2: the match could be longer", ONE, begins_later)
    run.refuses("line 2: the match does not lie in its record", ONE, OF_ONE.replace("31", "32"))
    run.refuses("line 2: the match does not lie in its record", ONE, OF_ONE.replace("31", " 0"))
    run.refuses("line 2: the match does not lie in its record", ONE, OF_ONE.replace("  1  ", "  0  "))
    run.refuses("line 4: the match does not lie in its record", ONE, OF_ONE.replace("15", "99"))
    run.refuses("a match before the first line", ONE, OF_ONE.split("\n", 1)[1])
    run.refuses("line 1: not a line of mummer", ONE, "two\t35\t0\t31\t+\tone\t42\t0\t31\n")
    run.refuses("line 1: not a line of mummer", ONE, "> two and more\n")
    run.refuses("line 2: not a line of mummer", ONE, OF_ONE.replace("31", "-31"))
    run.refuses("line 2: not a line of mummer", ONE, OF_ONE.replace("31", "3" * 5000))
    run.refuses("line 1: not a line of mummer", ONE, bytes(range(256)).replace(b"\n", b"") * 10)
    run.refuses("see whether it failed", ONE, "")
    run.refuses("two records are named 'left'", (SEVERAL[0].replace("right", "left"), SEVERAL[1]), OF_SEVERAL)
    run.refuses("not a FASTA file", ("ACGT\n", ONE[1]), OF_ONE)
    run.refuses("not a FASTA file", ("", ONE[1]), OF_ONE)
    run.refuses("B.fasta: 0 letters", (ONE[0], ">two\n"), OF_ONE)
    run.refuses("C.fasta: No such file", ONE, OF_ONE, ("convert", "A.fasta", "C.fasta"))
    run.refuses("Is a directory", ONE, OF_ONE, ("convert", "A.fasta", "."))
    few = "import mummer_to_script as it; it.MOST_LETTERS = 41; it.main()"
    here = f"import sys; sys.path.insert(0, {str(CONVERTER.parent)!r}); sys.dont_write_bytecode = True; {few}"
    run.refuses("A.fasta: 42 letters", ONE, OF_ONE, program=("-c", here))
    with open("/dev/full", "wb") as full:
        run.refuses("No space left", ONE, OF_ONE, stdout=full)
    for words in ([], ["turn"], ["convert", "A.fasta"], ["check", "--longest", "1", "A.fasta", "B.fasta"]):
        run.refuses("-h tells how it is used", ONE, OF_ONE, words, status=2)
    for number in ("2049", "-1", "x", ""):
        words = ["convert", f"--longest={number}", "A.fasta", "B.fasta"]
        run.refuses("a number up to 2048", ONE, OF_ONE, words, status=2)


def checks(run):
    def refuses(hint, files, script):
        run.refuses(hint, files, script, ("check", "A.fasta", "B.fasta"))

    good = script_of(ONE, IN_ONE)
    marks = [struct.pack("<cBI", b"M", side, position) for side, position in ((0, 42), (1, 0x45), (1, 0x44524D45))]
    for at in (9, 9 + 13, len(good) - 1):
        for count in range(4):
            laid = good[:at] + b"".join(marks[:count]) + good[at:]
            run.passes(f"{count} marks at byte {at}", ONE, laid, IN_ONE)
    refuses("the command at byte 35 of the script is cut short", ONE, good[:-1] + marks[0][:-1] + b"E")
    refuses("the command at byte 22 of the script is cut short", ONE, good[:-2] + b"E")
    refuses("not a script of these two sequences", SEVERAL, good)
    refuses("not a script of these two sequences", ONE, good[:-1])
    refuses("not a script of these two sequences", ONE, b"")
    refuses("no match at byte 9", ONE, good.replace(b"D", b"d"))
    refuses("match 1: the letters of the match differ", ONE, script_of(ONE, [("D", 0, 3, 31)]))
    refuses("match 2: the match could be longer", ONE, script_of(ONE, [IN_ONE[0], ("R", 1, 6, 9)]))
    refuses("match 2: the match could be longer", ONE, script_of(ONE, [IN_ONE[0], ("R", 2, 5, 9)]))
    refuses("match 1: the match does not lie in its record", ONE, script_of(ONE, [("D", 20, 20, 4000000000)]))
    refuses("match 1: the match does not lie in its record", SEVERAL, script_of(SEVERAL, [("D", 16, 31, 13)]))


def found_by_letters(records, others):
    """Every match that cannot be made longer, as mummer prints it with -c and as it stands in a script."""
    complement = str.maketrans("acgt", "tgca")
    lines, matches = [], []
    left_b = 0
    for name_b, b in others.items():
        for command, read in (("D", b), ("R", b.translate(complement)[::-1])):
            lines.append(f"> {name_b}{' Reverse' if command == 'R' else ''}")
            left_a = 0
            for name_a, a in records.items():
                for at, of, length in longest_matches(a, read):
                    first = of + 1 if command == "D" else len(b) - of
                    left = of if command == "D" else first - length
                    lines.append(f"  {name_a}  {at + 1}  {first}  {length}")
                    matches.append((command, left_a + at, left_b + left, length))
                left_a += len(a)
        left_b += len(b)
    return "\n".join(lines) + "\n", matches


def longest_matches(a, b):
    """The place on both and the length of each, from the end on: how far two places agree is one more than the next."""
    ahead = [0] * (len(b) + 1)
    for at in range(len(a) - 1, -1, -1):
        agree = [ahead[of + 1] + 1 if a[at] == b[of] else 0 for of in range(len(b))] + [0]
        for of, length in enumerate(agree):
            if length and (at == 0 or of == 0 or a[at - 1] != b[of - 1]):
                yield at, of, length
        ahead = agree


def drawn(names, letters):
    return {name: "".join(random.choices("acgt", k=letters)) for name in names}


def fasta(records):
    return "".join(f">{name}\n{letters}\n" for name, letters in records.items())


def found_matches(run):
    random.seed(2002)
    for round_ in range(4):
        records, others = drawn("pqr", 20 + round_), drawn("uvwx", 15)
        matches, wanted = found_by_letters(records, others)
        files = fasta(records), fasta(others)
        longest = sorted(sorted(range(len(wanted)), key=lambda at: -wanted[at][3])[:500])
        run.makes("matches found letter by letter", files, matches, [wanted[at] for at in longest], "--longest", "500")

    records, others = drawn("p", 100), drawn("u", 100)
    files = fasta(records), fasta(others)
    matches, wanted = found_by_letters(records, others)
    # Both lie on the other strand of u, behind the lines that name it and its other strand.
    assert wanted[2047][0] == "R"
    lines = matches.split("\n")
    run.makes("2,048 matches", files, "\n".join(lines[: 2 + 2048]), wanted[:2048])
    run.refuses("2049 matches; a script has at most 2,048", files, "\n".join(lines[: 2 + 2049]))

    records, others = drawn("p", 900), drawn("u", 900)
    matches, wanted = found_by_letters(records, others)
    assert len(wanted) > 300_000
    run.refuses(f"{len(wanted)} matches; a script has at most 2,048", (fasta(records), fasta(others)), matches)


def main():
    with tempfile.TemporaryDirectory() as folder:
        run = Run(Path(folder))
        conversions(run)
        errors(run)
        checks(run)
        found_matches(run)
    print(f"converter: {run.runs} runs, {run.differences} differences")
    sys.exit(run.differences > 0)


main()
