//! The slow program prints: the run of 01 letter by letter, refusals, and the edges of the input.

use compare::draft::Draft;
use compare::slow::report::report;

#[test]
fn the_run_of_01() {
    let script = Draft::lengths(10, 10).direct(0, 0, 6).reversed(2, 3, 5);
    let text = "lengths 10 10
matches 2 pieces 8 distinct 8 covers 7 8
1 0 0 2 +
1 2 2 1 +
1 3 3 1 +
1 4 4 2 +
2 2 7 1 -
2 3 6 1 -
2 4 4 2 -
2 6 3 1 -
class 0 5
class 1 3
";
    assert_eq!(report(&script.end()), text);
}

#[test]
fn refusals() {
    let of_ten = || Draft::lengths(10, 10);
    let tail = [Draft::lengths(1, 1).end(), vec![0]].concat();
    for (script, text) in [
        (vec![], "refused 1 0\n"),
        (tail, "refused 10 10\n"),
        (of_ten().direct(1, 0, 10).end(), "refused 8 9\n"),
        (of_ten().direct(1, 0, u32::MAX).end(), "refused 8 9\n"),
        (Draft::lengths(1_000_000_001, 1).end(), "refused 5 0\n"),
        (of_ten().mark(2, 0).end(), "refused 20 9\n"),
        (of_ten().mark(1, 11).end(), "refused 21 9\n"),
    ] {
        assert_eq!(report(&script), text);
    }
}

/// The marks themselves are not printed: a mark on A between two cuts, one at an end on B, and one that no match spans.
#[test]
fn the_run_of_01_with_marks() {
    let marked = Draft::lengths(10, 10)
        .mark(0, 1)
        .direct(0, 0, 6)
        .mark(1, 8)
        .reversed(2, 3, 5)
        .mark(0, 9);
    let text = "lengths 10 10
matches 2 pieces 9 distinct 9 covers 7 8
1 0 0 1 +
1 1 1 1 +
1 2 2 1 +
1 3 3 1 +
1 4 4 2 +
2 2 7 1 -
2 3 6 1 -
2 4 4 2 -
2 6 3 1 -
class 0 7
class 1 2
";
    assert_eq!(report(&marked.end()), text);
}

#[test]
fn no_pieces() {
    let text = "lengths 1 1\nmatches 0 pieces 0 distinct 0 covers 0 0\n";
    assert_eq!(report(&Draft::lengths(1, 1).end()), text);
    let text = "lengths 1000000000 1\nmatches 0 pieces 0 distinct 0 covers 0 0\n";
    assert_eq!(report(&Draft::lengths(1_000_000_000, 1).end()), text);
}

#[test]
fn small_scripts() {
    for (script, lines) in [
        (
            Draft::lengths(10, 10).direct(0, 0, 10),
            "matches 1 pieces 1 distinct 1 covers 10 10",
        ),
        (
            Draft::lengths(4, 4).direct(0, 0, 4).direct(0, 0, 4),
            "matches 2 pieces 2 distinct 1 covers 4 4",
        ),
        (
            Draft::lengths(4, 4).direct(0, 0, 4).reversed(0, 0, 4),
            "matches 2 pieces 2 distinct 2 covers 4 4",
        ),
        (
            Draft::lengths(5, 5).direct(0, 0, 4).direct(0, 1, 4),
            "matches 2 pieces 8 distinct 8 covers 4 5",
        ),
        (
            Draft::lengths(8, 8).direct(0, 0, 4).direct(4, 4, 4),
            "matches 2 pieces 2 distinct 2 covers 8 8",
        ),
    ] {
        let text = report(&script.end());
        assert_eq!(text.lines().nth(1), Some(lines));
    }
}

#[test]
fn a_table_of_3000_rows() {
    let zigzag = |letters| {
        Draft::lengths(2_000, 2_000)
            .direct(0, 0, letters)
            .direct(0, 1, letters)
    };
    let text = report(&zigzag(1_500).end());
    assert_eq!(text.lines().count(), 2 + 3_000 + 1);
    assert_eq!(text.lines().last(), Some("class 0 3000"));
    let one_more = zigzag(1_500).direct(1_999, 1_999, 1);
    assert_eq!(report(&one_more.end()), "refused 12 0\n");
}

#[test]
fn the_most_matches() {
    let matches =
        |count| (0..count).fold(Draft::lengths(10, 10), |draft, _| draft.direct(0, 0, 10));
    let text = report(&matches(2_048).end());
    assert_eq!(
        text.lines().nth(1),
        Some("matches 2048 pieces 2048 distinct 1 covers 10 10")
    );
    assert_eq!(report(&matches(2_049).end()), "refused 6 26633\n");
    let long = [matches(2_048).end(), vec![0x45; 100]].concat();
    assert_eq!(report(&long), "refused 10 26634\n");
}
