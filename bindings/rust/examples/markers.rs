//! Lays a breeder's markers on a script. Each marker becomes a mark, so that no piece has it inside, and the program
//! prints where the markers stand on the other genome. From the repository's root, after `bash archive capi`:
//!
//!     cargo run --manifest-path bindings/rust/Cargo.toml --example markers -- examples/two-matches.script A 1 B 7 A 9
//!
//! The first line has the count of the table's rows without the markers, and with them. Each line behind it is a marker
//! and a match that spans it: the marker's genome and position, the number of the match, the other genome and the
//! position there. A marker that no match spans has a line that says so. `examples/c/markers.c` prints the same.
//!
//! What is wrong is said on standard error, with what to do, and nothing is written then.

use notchergrey::{carry, read_list, refine_within, write, List, Mark, Side, LONGEST_SCRIPT};
use std::env;
use std::error::Error;
use std::ffi::OsString;
use std::fmt::Write as _;
use std::fs::File;
use std::io::{self, Read, Write as _};
use std::path::Path;
use std::process::ExitCode;

const USAGE: &str = "\
usage: markers SCRIPT [SIDE POSITION]..
Lays markers on a script and prints where they stand on the other genome. SIDE is A or B. POSITION lies between letters
and is counted from 0.
Exit status: 1 if the script or a marker is refused, or cannot be read or written, 2 for a wrong call.";

/// Room is made for no more rows than these: some 36 MB.
const MOST_ROWS: usize = 1_000_000;

fn main() -> ExitCode {
    let words: Vec<OsString> = env::args_os().skip(1).collect();
    let call = words
        .split_first()
        .and_then(|(file, markers)| Some((file, markers_in(markers)?)));
    let Some((file, markers)) = call else {
        eprintln!("{USAGE}");
        return ExitCode::from(2);
    };
    match print(Path::new(file), &markers) {
        Ok(()) => ExitCode::SUCCESS,
        Err(fault) => {
            eprintln!("markers: {fault}");
            ExitCode::FAILURE
        }
    }
}

/// Two words are a marker.
fn markers_in(words: &[OsString]) -> Option<Vec<Mark>> {
    let pairs = words.chunks(2);
    pairs
        .map(|pair| match pair {
            [side, position] => marker_in(side.to_str()?, position.to_str()?),
            _ => None,
        })
        .collect()
}

/// Digits alone are a position.
fn marker_in(side: &str, position: &str) -> Option<Mark> {
    let side = match side {
        "A" => Side::A,
        "B" => Side::B,
        _ => return None,
    };
    let is_number = position.bytes().all(|byte| byte.is_ascii_digit());
    let position = position.parse().ok().filter(|_| is_number)?;
    Some(Mark { side, position })
}

fn print(file: &Path, markers: &[Mark]) -> Result<(), String> {
    let text = text_of(file, markers).map_err(|fault| format!("{}: {fault}", file.display()))?;
    put_out(&text).map_err(|error| format!("standard output: {error}"))
}

fn text_of(file: &Path, markers: &[Mark]) -> Result<String, Box<dyn Error>> {
    let script = beginning_of(file)?;
    let mut list = read_list(&script)?;
    let own_marks = list.marks.len();
    list.marks.extend(markers);
    let laid =
        write(list.p, list.q, &list.matches, &list.marks).map_err(|refusal| {
            match refusal.mark() {
                Some(mark) => format!("marker {}: {refusal}", mark - own_marks),
                None => refusal.to_string(),
            }
        })?;
    let rows = |script| refine_within(script, MOST_ROWS).map(|table| table.len());
    let mut text = format!("rows {} {}\n", rows(&script)?, rows(&laid)?);
    for marker in markers {
        text += &lines_of(&laid, &list, *marker);
    }
    Ok(text)
}

/// One byte more than any admitted script has is enough to refuse a longer one.
fn beginning_of(file: &Path) -> io::Result<Vec<u8>> {
    let mut script = Vec::new();
    File::open(file)?
        .take(LONGEST_SCRIPT as u64 + 1)
        .read_to_end(&mut script)?;
    Ok(script)
}

/// Where the matches that span a marker carry it to. A match that does not span it refuses that with 14.
fn lines_of(laid: &[u8], list: &List, marker: Mark) -> String {
    let Mark { side, position } = marker;
    let (here, there) = match side {
        Side::A => ('A', 'B'),
        Side::B => ('B', 'A'),
    };
    let mut text = String::new();
    for number in 1..=list.matches.len() as u32 {
        if let Ok(carried) = carry(laid, number, side, position) {
            let _ = writeln!(text, "{here} {position} match {number} {there} {carried}");
        }
    }
    if text.is_empty() {
        let _ = writeln!(text, "{here} {position} no match");
    }
    text
}

fn put_out(text: &str) -> io::Result<()> {
    io::stdout().write_all(text.as_bytes())?;
    io::stdout().flush()
}
