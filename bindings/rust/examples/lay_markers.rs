//! Lays a set of markers of one genome on the other: one call carries all those that a match spans. From the
//! repository's root, after `bash archive capi`:
//!
//!     cargo run --manifest-path bindings/rust/Cargo.toml --example lay_markers -- \
//!         examples/real/pylori-b.script A examples/real/pylori-b.hindiii.txt
//!
//! The first line counts the markers, those that one match spans, those that several do and those that none does.
//! Behind it each match, in the order of the script, has a line for each marker that it spans, from left to right: the
//! marker's genome and position, the number of the match, the row of the table that has the marker inside, or the word
//! cut if it stands at an end of pieces, the other genome and the position there. Last come the markers that no match
//! spans. `docs/MARKERS.md` says more. `examples/c/lay_markers.c` prints the same.
//!
//! What is wrong is said on standard error, with what to do, and nothing is written then.

use notchergrey::{carry_all, find_match, read, refine_within, rows, rows_of};
use notchergrey::{Match, Refusal, Row, Side, Table, LONGEST_SCRIPT};
use std::env;
use std::ffi::OsString;
use std::fmt::{Display, Write as _};
use std::fs::File;
use std::io::{self, Read, Write as _};
use std::ops::Range;
use std::path::Path;
use std::process::ExitCode;

const USAGE: &str = "\
usage: lay_markers SCRIPT SIDE [POSITIONS]
Lays markers of one genome on the other. SIDE is A or B, the genome that they are on. POSITIONS is a file with a
position in each line, which lies between letters and is counted from 0. Blank lines and lines that begin with #
are passed over. Without the file it reads standard input.
Exit status: 1 if the script or a marker is refused, or cannot be read or written, 2 for a wrong call.";

/// Room is made for no more rows than these: some 36 MB.
const MOST_ROWS: usize = 1_000_000;

fn main() -> ExitCode {
    let words: Vec<OsString> = env::args_os().skip(1).collect();
    let call = match &words[..] {
        [script, side, file @ ..] if file.len() < 2 => {
            side_of(side.to_str()).map(|side| (script, side, file.first()))
        }
        _ => None,
    };
    let Some((script, side, file)) = call else {
        eprintln!("{USAGE}");
        return ExitCode::from(2);
    };
    match print(Path::new(script), side, file.map(Path::new)) {
        Ok(()) => ExitCode::SUCCESS,
        Err(fault) => {
            eprintln!("lay_markers: {fault}");
            ExitCode::FAILURE
        }
    }
}

fn side_of(word: Option<&str>) -> Option<Side> {
    match word {
        Some("A") => Some(Side::A),
        Some("B") => Some(Side::B),
        _ => None,
    }
}

/// The genome of the markers, and the other one.
fn names_of(side: Side) -> (char, char) {
    match side {
        Side::A => ('A', 'B'),
        Side::B => ('B', 'A'),
    }
}

fn print(file: &Path, side: Side, positions: Option<&Path>) -> Result<(), String> {
    let text = text_of(file, side, positions)?;
    put_out(&text).map_err(|error| format!("standard output: {error}"))
}

fn text_of(file: &Path, side: Side, positions: Option<&Path>) -> Result<String, String> {
    let script = beginning_of(file).map_err(in_file(file))?;
    let read = read(&script).map_err(in_file(file))?;
    let table = refine_within(&script, MOST_ROWS).map_err(in_file(file))?;
    let letters = match side {
        Side::A => read.p,
        Side::B => read.q,
    };
    let name = positions.unwrap_or(Path::new("standard input"));
    let text = contents(positions).map_err(in_file(name))?;
    let mut markers = markers_in(&text, side, letters).map_err(in_file(name))?;
    markers.sort_unstable();
    lines_of(&script, &table, side, &markers).map_err(in_file(file))
}

fn in_file<F: Display>(file: &Path) -> impl Fn(F) -> String + '_ {
    move |fault| format!("{}: {fault}", file.display())
}

/// One byte more than any admitted script has is enough to refuse a longer one.
fn beginning_of(file: &Path) -> io::Result<Vec<u8>> {
    let mut script = Vec::new();
    File::open(file)?
        .take(LONGEST_SCRIPT as u64 + 1)
        .read_to_end(&mut script)?;
    Ok(script)
}

fn contents(file: Option<&Path>) -> io::Result<Vec<u8>> {
    let mut bytes = Vec::new();
    match file {
        Some(file) => File::open(file)?.read_to_end(&mut bytes)?,
        None => io::stdin().read_to_end(&mut bytes)?,
    };
    Ok(bytes)
}

/// The markers of a text, line by line. Lines may end as on Windows.
fn markers_in(text: &[u8], side: Side, letters: u32) -> Result<Vec<u32>, String> {
    let mut markers = Vec::new();
    for (number, line) in (1..).zip(text.split(|byte| *byte == b'\n')) {
        let line = line.strip_suffix(b"\r").unwrap_or(line);
        if line.starts_with(b"#") || line.iter().all(|byte| b" \t".contains(byte)) {
            continue;
        }
        let marker = marker_in(line, side, letters);
        markers.push(marker.map_err(|fault| format!("line {number}: {fault}"))?);
    }
    Ok(markers)
}

/// Digits alone are a position, up to the one behind the last letter.
fn marker_in(line: &[u8], side: Side, letters: u32) -> Result<u32, String> {
    if !line.iter().all(u8::is_ascii_digit) {
        return Err(
            "this is no position: write digits alone, and one position in a line".to_owned(),
        );
    }
    let digits = String::from_utf8_lossy(line);
    let position = digits.parse().ok().filter(|position| *position <= letters);
    position.ok_or_else(|| {
        format!(
            "{digits} is above the {letters} letters of {}: check the position, which is counted from 0, and the side",
            names_of(side).0
        )
    })
}

/// Each match carries the markers that it spans all at once, and none refuses its own.
fn lines_of(script: &[u8], table: &Table, side: Side, markers: &[u32]) -> Result<String, Refusal> {
    let mut lines = String::new();
    let mut spanning = vec![0; markers.len()];
    let (mut rest, mut rows_before) = (table.numbers(), 0);
    for number in 1..=read(script)?.matches as u32 {
        let part = spanned(markers, side, find_match(script, number)?);
        let mut carried = vec![0; part.len()];
        carry_all(script, number, side, &markers[part.clone()], &mut carried)?;
        // The rows of a match stand behind those of the match before.
        let numbers = rows_of(rest, number);
        let pieces: Vec<Row> = rows(numbers).collect();
        for (at, to) in part.zip(carried) {
            spanning[at] += 1;
            let place = place_in(&pieces, rows_before, side, markers[at], to);
            lines += &line_of(side, markers[at], number, &place, to);
        }
        rest = &rest[numbers.len()..];
        rows_before += pieces.len();
    }
    let (here, _) = names_of(side);
    for (marker, matches) in markers.iter().zip(&spanning) {
        if *matches == 0 {
            let _ = writeln!(lines, "{here} {marker} no match");
        }
    }
    Ok(counts_of(&spanning) + &lines)
}

/// The markers that a match spans, both its ends included.
fn spanned(markers: &[u32], side: Side, found: Match) -> Range<usize> {
    let left = match side {
        Side::A => found.left_a,
        Side::B => found.left_b,
    };
    let right = left + found.length;
    markers.partition_point(|marker| *marker < left)
        ..markers.partition_point(|marker| *marker <= right)
}

/// The row that has a marker inside, by its number in the table, among those of one match. They rise by their left ends
/// on A, which is where a marker stands or is carried to.
fn place_in(pieces: &[Row], rows_before: usize, side: Side, marker: u32, to: u32) -> String {
    let on_a = match side {
        Side::A => marker,
        Side::B => to,
    };
    let begun = pieces.partition_point(|row| row.left_a < on_a);
    match pieces[..begun].last() {
        Some(row) if on_a < row.left_a + row.length => format!("row {}", rows_before + begun),
        _ => "cut".to_owned(),
    }
}

fn line_of(side: Side, marker: u32, number: u32, place: &str, to: u32) -> String {
    let (here, there) = names_of(side);
    format!("{here} {marker} match {number} {place} {there} {to}\n")
}

/// How many markers there are, and how many of them one match spans, several do and none does.
fn counts_of(spanning: &[u32]) -> String {
    let count = |wanted: fn(u32) -> bool| spanning.iter().filter(|count| wanted(**count)).count();
    format!(
        "markers {} once {} several {} none {}\n",
        spanning.len(),
        count(|count| count == 1),
        count(|count| count > 1),
        count(|count| count == 0)
    )
}

fn put_out(text: &str) -> io::Result<()> {
    io::stdout().write_all(text.as_bytes())?;
    io::stdout().flush()
}
