//! Turns a list of matches and marks, kept as text, into a script, and a script back into its list. From the
//! repository's root, after `bash archive capi`:
//!
//!     cargo run --manifest-path bindings/rust/Cargo.toml --example list -- to-list examples/two-matches.script >my.tsv
//!     cargo run --manifest-path bindings/rust/Cargo.toml --example list -- to-script my.tsv >my.script
//!
//! The text says the letters of A and B in its first line, and one match in each line behind it: left-A, left-B,
//! length, and `+` if it is direct or `-` if it is reversed. A line that begins with the word `mark` is a mark instead:
//! its side, `A` or `B`, and its position. Between two fields stands a tab.
//!
//! What is wrong is said on standard error, with the number of its line and what to do, and nothing is written then.

use notchergrey::{read_list, write, List, Mark, Match, Refusal, Side, Word};
use notchergrey::{MOST_MARKS, MOST_MATCHES};
use std::env;
use std::ffi::{OsStr, OsString};
use std::fs::File;
use std::io::{self, Read, Write as _};
use std::process::ExitCode;

const USAGE: &str = "\
usage: list to-script [LIST] >SCRIPT
       list to-list [SCRIPT] >LIST
Turns a list of matches and marks into a script, or a script into its list. Without a file it reads standard input.
A list is text with a tab between two fields. Its first line is 'lengths', the letters of A and the letters of B. Each
line behind it is a match: left-A, left-B, length, and + if it is direct or - if it is reversed; or a mark, a position
that must be a cut: 'mark', A or B, and the position. In the script the marks stand behind the matches. Blank lines and
lines that begin with # are passed over.
Exit status: 1 if the list or the script is wrong or cannot be read or written, 2 for a wrong call.";

const LENGTHS: &str = "lengths";
const MARK: &str = "mark";
const LENGTHS_FIELDS: &str =
    "the word lengths, the letters of A and the letters of B, with a tab between two";
const MATCH_FIELDS: &str =
    "left-A, left-B, length, and + if it is direct or - if it is reversed, with a tab between two";
const MARK_FIELDS: &str =
    "the word mark, A or B for its side, and its position, with a tab between two";
const MOST_LETTERS: &str =
    "a genome has at most 1,000,000,000 letters; check the number, or split the genome";

/// Makes one file of another, or says what is wrong with it.
type Turn = fn(&[u8]) -> Result<Vec<u8>, String>;

/// The line of the lengths, those of the matches and those of the marks, by their numbers.
struct Lines {
    lengths: usize,
    matches: Vec<usize>,
    marks: Vec<usize>,
}

fn main() -> ExitCode {
    let words: Vec<OsString> = env::args_os().skip(1).collect();
    if words.iter().any(|word| word == "--help" || word == "-h") {
        println!("{USAGE}");
        return ExitCode::SUCCESS;
    }
    let (turn, file): (Turn, _) = match &words[..] {
        [way, file @ ..] if way == "to-script" && file.len() < 2 => (to_script, file.first()),
        [way, file @ ..] if way == "to-list" && file.len() < 2 => (to_list, file.first()),
        _ => {
            eprintln!("{USAGE}");
            return ExitCode::from(2);
        }
    };
    match turn_file(turn, file.map(OsString::as_os_str)) {
        Ok(()) => ExitCode::SUCCESS,
        Err(fault) => {
            eprintln!("list: {fault}");
            ExitCode::FAILURE
        }
    }
}

fn turn_file(turn: Turn, file: Option<&OsStr>) -> Result<(), String> {
    let name = file
        .unwrap_or(OsStr::new("standard input"))
        .to_string_lossy();
    let given = contents(file).map_err(|error| format!("{name}: {error}"))?;
    let made = turn(&given).map_err(|fault| format!("{name}: {fault}"))?;
    put_out(&made).map_err(|error| format!("standard output: {error}"))
}

fn contents(file: Option<&OsStr>) -> io::Result<Vec<u8>> {
    let mut bytes = Vec::new();
    match file {
        Some(file) => File::open(file)?.read_to_end(&mut bytes)?,
        None => io::stdin().read_to_end(&mut bytes)?,
    };
    Ok(bytes)
}

fn put_out(bytes: &[u8]) -> io::Result<()> {
    io::stdout().write_all(bytes)?;
    io::stdout().flush()
}

// ---- from a list to its script

fn to_script(list: &[u8]) -> Result<Vec<u8>, String> {
    let text = String::from_utf8_lossy(list);
    let mut lines = lines_of(&text);
    let Some((lengths, line)) = lines.next() else {
        return Err(format!("the list is empty: begin it with {LENGTHS_FIELDS}"));
    };
    let [p, q] = lengths_in(line).map_err(in_line(lengths))?;
    let (mut matches, mut marks) = (Vec::new(), Vec::new());
    let mut said = Lines {
        lengths,
        matches: Vec::new(),
        marks: Vec::new(),
    };
    for (number, line) in lines {
        if is_mark(line) {
            marks.push(mark_in(line).map_err(in_line(number))?);
            said.marks.push(number);
        } else {
            matches.push(match_in(line).map_err(in_line(number))?);
            said.matches.push(number);
        }
    }
    write(p, q, &matches, &marks)
        .map_err(|refusal| in_line(said.refused(&refusal))(refusal.to_string()))
}

/// The lines that say something, each with its number. A text from Windows may begin with a mark that is no letter.
fn lines_of(text: &str) -> impl Iterator<Item = (usize, &str)> {
    let lines = text.trim_start_matches('\u{feff}').lines();
    (1..)
        .zip(lines)
        .filter(|(_, line)| !line.trim().is_empty() && !line.starts_with('#'))
}

fn in_line(number: usize) -> impl Fn(String) -> String {
    move |fault| format!("line {number}: {fault}")
}

impl Lines {
    /// The line that the library refuses.
    fn refused(&self, refusal: &Refusal) -> usize {
        match (refusal.record(), refusal.mark(), refusal.word()) {
            (Some(record), ..) => self.matches[record - 1],
            (_, Some(mark), _) => self.marks[mark - 1],
            (.., Word::TooManyMatches) => self.matches[MOST_MATCHES],
            (.., Word::TooManyMarks) => self.marks[MOST_MARKS],
            _ => self.lengths,
        }
    }
}

fn lengths_in(line: &str) -> Result<[u32; 2], String> {
    if !is_lengths(line) {
        return Err(format!(
            "the lengths are missing: begin the list with {LENGTHS_FIELDS}"
        ));
    }
    let [_, p, q] = fields(line, LENGTHS_FIELDS)?;
    Ok([
        number("the letters of A", p)?,
        number("the letters of B", q)?,
    ])
}

fn match_in(line: &str) -> Result<Match, String> {
    if is_lengths(line) {
        return Err("the lengths come again: write a list for each pair of genomes".to_owned());
    }
    let [left_a, left_b, length, sign] = fields(line, MATCH_FIELDS)?;
    Ok(Match {
        left_a: number("left-A", left_a)?,
        left_b: number("left-B", left_b)?,
        length: number("the length", length)?,
        reversed: is_reversed(sign)?,
    })
}

fn mark_in(line: &str) -> Result<Mark, String> {
    let [_, side, position] = fields(line, MARK_FIELDS)?;
    Ok(Mark {
        side: side_of(side)?,
        position: number("the position", position)?,
    })
}

fn is_lengths(line: &str) -> bool {
    line.split('\t').next() == Some(LENGTHS)
}

/// No field of a match is this word, so that a blank where a tab must stand is no reason to take it for one.
fn is_mark(line: &str) -> bool {
    line.split(['\t', ' ']).next() == Some(MARK)
}

fn fields<'a, const COUNT: usize>(line: &'a str, wanted: &str) -> Result<[&'a str; COUNT], String> {
    let fields: Vec<&str> = line.split('\t').collect();
    let wrong = |fields: Vec<&str>| {
        format!(
            "the count of fields is {}, not {COUNT}: write {wanted}",
            fields.len()
        )
    };
    fields.try_into().map_err(wrong)
}

fn number(what: &str, field: &str) -> Result<u32, String> {
    if field.is_empty() || !field.bytes().all(|byte| byte.is_ascii_digit()) {
        return Err(format!(
            "{what}, {field:?}, is no number: write digits alone"
        ));
    }
    let too_large = |_| format!("{what}, {field}, does not fit 32 bits: {MOST_LETTERS}");
    field.parse().map_err(too_large)
}

fn is_reversed(sign: &str) -> Result<bool, String> {
    match sign {
        "+" => Ok(false),
        "-" => Ok(true),
        _ => Err(format!(
            "the direction, {sign:?}, is none: write + for a direct match and - for a reversed one"
        )),
    }
}

fn side_of(letter: &str) -> Result<Side, String> {
    match letter {
        "A" => Ok(Side::A),
        "B" => Ok(Side::B),
        _ => Err(format!("the side, {letter:?}, is none: write A or B")),
    }
}

// ---- from a script to its list

fn to_list(script: &[u8]) -> Result<Vec<u8>, String> {
    let List {
        p,
        q,
        matches,
        marks,
    } = read_list(script).map_err(|refusal| refusal.to_string())?;
    let matches: String = matches.iter().map(match_line).collect();
    let marks: String = marks.iter().map(mark_line).collect();
    Ok(format!("{LENGTHS}\t{p}\t{q}\n{matches}{marks}").into_bytes())
}

fn match_line(found: &Match) -> String {
    let sign = if found.reversed { '-' } else { '+' };
    format!(
        "{}\t{}\t{}\t{sign}\n",
        found.left_a, found.left_b, found.length
    )
}

fn mark_line(mark: &Mark) -> String {
    let side = match mark.side {
        Side::A => 'A',
        Side::B => 'B',
    };
    format!("{MARK}\t{side}\t{}\n", mark.position)
}
