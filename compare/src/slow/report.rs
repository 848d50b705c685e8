//! 01, "One run, complete": the text that the program prints.

use super::refusal::Refusal;
use super::script::{self, Script};
use super::table::{refine, summary, Summary, NUMBERS_OF_A_ROW, WORK_OF_A_ROW};

/// 02, #106: "The program reads up to 29,707 bytes."
pub const MOST_BYTES: usize = 29_707;
/// ".. with a table of 3,000 rows."
pub const ROWS: usize = 3_000;

/// What there is to print of an admitted script.
#[derive(Clone, Debug, PartialEq, Eq)]
pub struct Refined {
    pub script: Script,
    pub rows: usize,
    table: Vec<u32>,
}

/// What is printed for this standard input.
pub fn report(input: &[u8]) -> String {
    text_of(&run(input))
}

/// One run of the program, up to the printing.
pub fn run(input: &[u8]) -> Result<Refined, Refusal> {
    let bytes = &input[..input.len().min(MOST_BYTES)];
    let mut table = vec![0; ROWS * NUMBERS_OF_A_ROW];
    let mut work = vec![0; ROWS * WORK_OF_A_ROW];
    let rows = refine(bytes, &mut table, &mut work)?;
    table.truncate(rows * NUMBERS_OF_A_ROW);
    let script = script::read(bytes)?;
    Ok(Refined {
        script,
        rows,
        table,
    })
}

/// Every line ends in a newline. "A refusal prints one line".
pub fn text_of(run: &Result<Refined, Refusal>) -> String {
    let lines = match run {
        Ok(refined) => lines_of(refined),
        Err(refusal) => vec![refusal.to_string()],
    };
    lines.iter().map(|line| format!("{line}\n")).collect()
}

/// "Line one gives p and q, line two the count of matches and then the summary. Then a row each
/// [..] Then the classes that aren't empty, rising, with their counts."
fn lines_of(refined: &Refined) -> Vec<String> {
    let Refined { script, table, .. } = refined;
    let summary = summary(table);
    let mut lines = vec![
        format!("lengths {} {}", script.p, script.q),
        second_line(script.matches.len(), &summary),
    ];
    lines.extend(table.chunks_exact(NUMBERS_OF_A_ROW).map(row_line));
    for (c, &count) in summary.classes.iter().enumerate() {
        if count > 0 {
            lines.push(format!("class {c} {count}"));
        }
    }
    lines
}

/// 02, #102: "Line two ends in "covers" and two numbers instead, for A and for B".
fn second_line(matches: usize, summary: &Summary) -> String {
    let Summary {
        pieces,
        distinct,
        covers: [on_a, on_b],
        ..
    } = summary;
    format!("matches {matches} pieces {pieces} distinct {distinct} covers {on_a} {on_b}")
}

/// "number, left-A, left-B, length, + direct or - reversed"
fn row_line(row: &[u32]) -> String {
    let sign = if row[4] == 0 { '+' } else { '-' };
    format!("{} {} {} {} {sign}", row[0], row[1], row[2], row[3])
}
