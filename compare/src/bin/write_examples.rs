//! Writes the scripts of `examples/` and what must be printed for each to a folder.

use compare::draft::Draft;
use compare::slow::report::report;
use compare::slow::script::{DIRECT, END, LENGTHS, MOST_MARKS, MOST_MATCHES};
use std::path::Path;
use std::{env, fs, io};

const USAGE: &str = "usage: write_examples FOLDER";
/// Letters of each sequence where nothing else is needed.
const SOME: u32 = 10;

fn main() -> io::Result<()> {
    let folder = env::args_os().nth(1).expect(USAGE);
    for (name, bytes) in scripts() {
        let file = Path::new(&folder).join(name);
        fs::write(file.with_extension("script"), &bytes)?;
        fs::write(file.with_extension("txt"), report(&bytes))?;
    }
    Ok(())
}

fn scripts() -> Vec<(&'static str, Vec<u8>)> {
    [good(), refused()].concat()
}

fn good() -> Vec<(&'static str, Vec<u8>)> {
    vec![
        // 01, "One run, complete"
        (
            "two-matches",
            some().direct(0, 0, 6).reversed(2, 3, 5).end(),
        ),
        // 02, #106: marks that make cuts, A 1 and B 5; one at an end, B 8; one that no match spans, A 9
        (
            "two-matches-and-marks",
            some()
                .mark(0, 1)
                .direct(0, 0, 6)
                .mark(1, 8)
                .mark(0, 9)
                .reversed(2, 3, 5)
                .mark(1, 5)
                .end(),
        ),
        ("no-matches", Draft::lengths(1, 1).end()),
        ("2048-matches", apart(MOST_MATCHES as u32).end()),
        ("3000-pieces", shifted(1_500).end()),
    ]
}

/// One for each refusal that a script can meet in the program.
fn refused() -> Vec<(&'static str, Vec<u8>)> {
    let most = MOST_MATCHES as u32;
    vec![
        ("refused-1-no-bytes", Vec::new()),
        (
            "refused-1-headless",
            Draft::lengths(1, 1).end().split_off(1),
        ),
        ("refused-2-unknown-command", some().bytes(b"X").end()),
        (
            "refused-3-cut-short",
            some().command(DIRECT, &[0, 0]).without_end(),
        ),
        ("refused-3-no-end", some().direct(0, 0, 6).without_end()),
        (
            "refused-4-second-lengths",
            some().command(LENGTHS, &[SOME, SOME]).end(),
        ),
        (
            "refused-5-length-out-of-range",
            Draft::lengths(0, SOME).end(),
        ),
        ("refused-6-too-many-matches", apart(most + 1).end()),
        (
            "refused-7-empty-match",
            some().direct(0, 0, 6).direct(2, 3, 0).end(),
        ),
        ("refused-8-beyond-a", some().direct(1, 0, 10).end()),
        ("refused-9-beyond-b", some().direct(0, 1, 10).end()),
        ("refused-10-tail", some().command(END, &[]).end()),
        (
            "refused-10-past-the-limit",
            marked(apart(most), MOST_MARKS)
                .command(END, &[])
                .bytes(&[END; 1_000])
                .end(),
        ),
        (
            "refused-12-3001-pieces",
            shifted(1_500).direct(1_600, 1_600, 10).end(),
        ),
        (
            "refused-19-too-many-marks",
            marked(some(), MOST_MARKS + 1).end(),
        ),
        (
            "refused-20-no-such-side",
            some().direct(0, 0, 6).mark(2, 3).end(),
        ),
        (
            "refused-21-mark-beyond",
            some().direct(0, 0, 6).mark(1, 11).end(),
        ),
    ]
}

fn some() -> Draft {
    Draft::lengths(SOME, SOME)
}

/// Matches that share no letter, direct and reversed by turns, in opposite order on B.
fn apart(count: u32) -> Draft {
    let letters = 10 * count;
    (0..count).fold(Draft::lengths(letters, letters), |draft, k| {
        let (left_a, left_b) = (10 * k, letters - 10 * (k + 1));
        if k % 2 == 0 {
            draft.direct(left_a, left_b, 5)
        } else {
            draft.reversed(left_a, left_b, 5)
        }
    })
}

/// The same mark again and again.
fn marked(draft: Draft, count: usize) -> Draft {
    (0..count).fold(draft, |draft, _| draft.mark(0, 5))
}

/// One stretch of A matches two of B that lie one letter apart: every letter becomes a piece.
fn shifted(length: u32) -> Draft {
    Draft::lengths(2_000, 2_000)
        .direct(0, 0, length)
        .direct(0, 1, length)
}
