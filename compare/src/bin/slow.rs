//! The slow program itself: a script from standard input, the text of 01 to standard output. As
//! `slow chain PRICE` it writes the script's backbone instead, in the lines of `examples/c/chain.c`.

use compare::slow::chaining::backbone;
use compare::slow::refinement::least;
use compare::slow::refusal::Refusal;
use compare::slow::report::{report, MOST_BYTES};
use compare::slow::script;
use std::env;
use std::io::{self, Read, Write};

const USAGE: &str = "usage: slow [chain PRICE] <SCRIPT";

fn main() -> io::Result<()> {
    let words: Vec<String> = env::args().skip(1).collect();
    let mut input = Vec::new();
    io::stdin()
        .take(MOST_BYTES as u64)
        .read_to_end(&mut input)?;
    let text = match &words[..] {
        [] => report(&input),
        [way, price] if way == "chain" => {
            let price = price.parse().expect(USAGE);
            chain_lines(&input, price).unwrap_or_else(|refusal| format!("{refusal}\n"))
        }
        _ => panic!("{USAGE}"),
    };
    io::stdout().write_all(text.as_bytes())
}

/// The score, the count of the table's rows and the chain's length; then for each row of the chain
/// its row number, left-A, left-B and length.
fn chain_lines(bytes: &[u8], price: u32) -> Result<String, Refusal> {
    let script = script::read(bytes)?;
    let pieces =
        least(&script.matches, &script.marks, usize::MAX).expect("room for any count of pieces");
    let best = backbone(&pieces, price);
    let (score, rows, length) = (best.score, pieces.len(), best.chain.len());
    let mut text = format!("score {score} rows {rows} chain {length}\n");
    for number in best.chain {
        let piece = &pieces[number as usize - 1];
        let (left_a, left_b, letters) = (piece.left_a, piece.left_b, piece.length);
        text += &format!("{number} {left_a} {left_b} {letters}\n");
    }
    Ok(text)
}
