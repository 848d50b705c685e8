//! Prints the backbone of a script: the best run of direct pieces that are in the same order on both genomes, at a gap
//! price. From the repository's root, after `bash archive capi`:
//!
//!     cargo run --manifest-path bindings/rust/Cargo.toml --example chain -- 1 examples/two-matches.script
//!
//! The first line has the score, the count of the table's rows and the length of the chain. Each line behind it is a
//! row of the chain: its number in the table, left-A, left-B and length. `examples/c/chain.c` prints the same.
//!
//! What is wrong is said on standard error, with what to do, and nothing is written then.

use notchergrey::{backbone_within, Backbone, LONGEST_SCRIPT, MOST_PRICE};
use std::env;
use std::error::Error;
use std::ffi::{OsStr, OsString};
use std::fmt::Write as _;
use std::fs::File;
use std::io::{self, Read, Write as _};
use std::process::ExitCode;

const USAGE: &str = "\
usage: chain PRICE [SCRIPT]
Prints the backbone of a script. Without a file it reads standard input. PRICE is what a letter costs that the backbone
skips, from 0 to 1000; at 0 nothing is lost by skipping.
Exit status: 1 if the script is refused or cannot be read, or nothing can be written, 2 for a wrong call.";

/// Room is made for no more rows than these: some 44 MB.
const MOST_ROWS: usize = 1_000_000;

fn main() -> ExitCode {
    let words: Vec<OsString> = env::args_os().skip(1).collect();
    let (price, file) = match &words[..] {
        [price] => (price_of(price), None),
        [price, file] => (price_of(price), Some(file.as_os_str())),
        _ => (None, None),
    };
    let Some(price) = price else {
        eprintln!("{USAGE}");
        return ExitCode::from(2);
    };
    match print(price, file) {
        Ok(()) => ExitCode::SUCCESS,
        Err(fault) => {
            eprintln!("chain: {fault}");
            ExitCode::FAILURE
        }
    }
}

/// Digits alone are a price, and only up to the highest one.
fn price_of(word: &OsStr) -> Option<u32> {
    let digits = word.to_str()?;
    let is_number = digits.bytes().all(|byte| byte.is_ascii_digit());
    let price = digits.parse().ok().filter(|_| is_number)?;
    (price <= MOST_PRICE).then_some(price)
}

fn print(price: u32, file: Option<&OsStr>) -> Result<(), String> {
    let name = file
        .unwrap_or(OsStr::new("standard input"))
        .to_string_lossy();
    let text = text_of(price, file).map_err(|fault| format!("{name}: {fault}"))?;
    put_out(&text).map_err(|error| format!("standard output: {error}"))
}

fn text_of(price: u32, file: Option<&OsStr>) -> Result<String, Box<dyn Error>> {
    let script = match file {
        Some(file) => beginning_of(File::open(file)?)?,
        None => beginning_of(io::stdin())?,
    };
    Ok(lines_of(&backbone_within(&script, price, MOST_ROWS)?))
}

/// One byte more than any admitted script has is enough to refuse a longer one.
fn beginning_of(input: impl Read) -> io::Result<Vec<u8>> {
    let mut script = Vec::new();
    input
        .take(LONGEST_SCRIPT as u64 + 1)
        .read_to_end(&mut script)?;
    Ok(script)
}

fn lines_of(best: &Backbone) -> String {
    let (score, rows, length) = (best.score(), best.table().len(), best.chain().len());
    let mut text = format!("score {score} rows {rows} chain {length}\n");
    for (number, row) in best.chain().iter().zip(best.rows()) {
        let _ = writeln!(
            text,
            "{number} {} {} {}",
            row.left_a, row.left_b, row.length
        );
    }
    text
}

fn put_out(text: &str) -> io::Result<()> {
    io::stdout().write_all(text.as_bytes())?;
    io::stdout().flush()
}
