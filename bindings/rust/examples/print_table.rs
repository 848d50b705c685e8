//! Reads the script in the file named on the command line and prints its piece table, as the program notchergrey does
//! for its standard input. From the repository's root, after `bash archive capi`:
//!
//!     cargo run --manifest-path bindings/rust/Cargo.toml --example print_table -- examples/two-matches.script

use notchergrey::{read, refine_within, Error, Row, LONGEST_SCRIPT};
use std::env;
use std::fmt::Write as _;
use std::fs::File;
use std::io::{self, Read as _, Write as _};
use std::path::Path;
use std::process::ExitCode;

/// The rows that the program makes room for.
const ROWS: usize = 3_000;

fn main() -> ExitCode {
    let mut words = env::args_os().skip(1);
    let (Some(file), None) = (words.next(), words.next()) else {
        eprintln!("usage: print_table SCRIPT");
        return ExitCode::from(2);
    };
    match print(Path::new(&file)) {
        Ok(()) => ExitCode::SUCCESS,
        Err(error) => {
            eprintln!("{}: {error}", file.to_string_lossy());
            ExitCode::FAILURE
        }
    }
}

/// Prints the whole text, or the line of a refusal.
fn print(file: &Path) -> Result<(), Box<dyn std::error::Error>> {
    let script = beginning_of(file)?;
    let text = match lines_of(&script) {
        Err(Error::Refused(refusal)) => {
            eprintln!("{refusal}");
            format!("refused {} {}\n", refusal.number(), refusal.place())
        }
        lines => lines?,
    };
    io::stdout().write_all(text.as_bytes())?;
    Ok(())
}

/// One byte more than any admitted script has is enough to refuse a longer one.
fn beginning_of(file: &Path) -> io::Result<Vec<u8>> {
    let mut script = Vec::new();
    File::open(file)?
        .take(LONGEST_SCRIPT as u64 + 1)
        .read_to_end(&mut script)?;
    Ok(script)
}

fn lines_of(script: &[u8]) -> Result<String, Error> {
    let read = read(script)?;
    let table = refine_within(script, ROWS)?;
    let summary = table.summary();
    let [on_a, on_b] = summary.covers;
    let mut text = format!("lengths {} {}\n", read.p, read.q);
    let _ = writeln!(
        text,
        "matches {} pieces {} distinct {} covers {on_a} {on_b}",
        read.matches, summary.pieces, summary.distinct
    );
    table.rows().for_each(|row| text += &row_line(&row));
    for (c, count) in summary
        .classes
        .iter()
        .enumerate()
        .filter(|&(_, &count)| count > 0)
    {
        let _ = writeln!(text, "class {c} {count}");
    }
    Ok(text)
}

fn row_line(row: &Row) -> String {
    let sign = if row.reversed { '-' } else { '+' };
    format!(
        "{} {} {} {} {sign}\n",
        row.number, row.left_a, row.left_b, row.length
    )
}
