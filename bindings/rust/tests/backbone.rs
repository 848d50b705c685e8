//! The backbone: lines worked out by hand, real scripts, growing, lent buffers and the order of refusals.

mod scripts;

use notchergrey::{backbone, backbone_within, chain_into, refine, Error, Refusal, Row, Word};
use notchergrey::{Match, MOST_PRICE, ROW_NUMBERS, WORK_NUMBERS};
use scripts::{direct, reversed, run_of_the_specification, script, zigzag, EXAMPLES, LONG};

fn script_of(letters: u32, matches: &[Match]) -> Vec<u8> {
    notchergrey::write(letters, letters, matches, &[]).unwrap()
}

/// The letters of A and of B, the matches, the gap price, the score and the chain.
type Line<'a> = (u32, &'a [Match], u32, u64, &'a [u32]);

#[test]
fn no_chain_scores_more_and_the_first_of_equals_is_given() {
    let crossed = [(0, 6), (6, 0), (9, 3), (3, 9), (20, 20)].map(|(a, b)| direct(a, b, 2));
    let around = [(0, 0, 2), (20, 20, 2), (4, 10, 3), (10, 4, 3)].map(|(a, b, d)| direct(a, b, d));
    let lines: [Line; 13] = [
        (
            10,
            &[direct(0, 0, 6), reversed(2, 3, 5)],
            0,
            6,
            &[1, 2, 3, 4],
        ),
        (
            10,
            &[direct(0, 0, 6), reversed(2, 3, 5)],
            MOST_PRICE,
            6,
            &[1, 2, 3, 4],
        ),
        (30, &crossed, 0, 6, &[1, 4, 5]),
        (30, &crossed, 1, 2, &[1]),
        // A link of exactly 0 is not taken.
        (20, &[direct(0, 0, 3), direct(4, 5, 3)], 1, 3, &[1]),
        (20, &[direct(0, 0, 3), direct(4, 5, 4)], 1, 4, &[1, 2]),
        (20, &[direct(0, 0, 4), direct(5, 6, 4)], 1, 5, &[1, 2]),
        (20, &[direct(10, 10, 3), direct(0, 0, 3)], 0, 6, &[2, 1]),
        (40, &around, 0, 7, &[1, 3, 2]),
        (40, &around, 1, 3, &[3]),
        (10, &[reversed(0, 0, 3), reversed(4, 4, 3)], 0, 0, &[]),
        (10, &[], 0, 0, &[]),
        // The one link would lose more than 32 bits hold.
        (
            LONG,
            &[direct(0, 0, 1), direct(LONG - 1, LONG - 1, 1)],
            MOST_PRICE,
            1,
            &[1],
        ),
    ];
    for (letters, matches, price, score, chain) in lines {
        let best = backbone(&script_of(letters, matches), price).unwrap();
        assert_eq!((best.score(), best.chain()), (score, chain), "{matches:?}");
    }
}

/// The score of rows, of which each must be direct and follow the one before.
fn score_of(rows: &[Row], price: u32) -> i64 {
    assert!(rows.iter().all(|row| !row.reversed));
    let lengths: i64 = rows.iter().map(|row| i64::from(row.length)).sum();
    let skipped = rows.windows(2).map(|pair| {
        let [left, right] = [pair[0], pair[1]];
        let on_a = right.left_a.checked_sub(left.left_a + left.length).unwrap();
        let on_b = right.left_b.checked_sub(left.left_b + left.length).unwrap();
        i64::from(on_a) + i64::from(on_b)
    });
    lengths - i64::from(price) * skipped.sum::<i64>()
}

#[test]
fn the_backbone_is_a_chain_of_its_score_in_the_table_of_refining() {
    for script in EXAMPLES {
        for price in [0, 1, 7, MOST_PRICE] {
            let best = backbone(script, price).unwrap();
            assert_eq!(best.table(), &refine(script).unwrap());
            let rows: Vec<Row> = best.rows().collect();
            assert_eq!(best.rows().len(), rows.len());
            let by_number = best.chain().iter().map(|&number| number as usize - 1);
            assert!(by_number
                .map(|at| best.table().row(at))
                .eq(rows.iter().copied().map(Some)));
            assert_eq!(score_of(&rows, price), best.score() as i64);
        }
    }
}

#[test]
fn the_room_grows_until_the_backbone_is_found() {
    for letters in [1_499, 1_500, 1_501, 3_001, 50_000] {
        let best = backbone(&zigzag(letters), 1).unwrap();
        assert_eq!(best.table().len(), 2 * letters as usize);
        assert_eq!(best.score(), u64::from(letters));
        assert!(best.chain().iter().copied().eq(1..=letters));
    }
}

#[test]
fn a_limit_of_rows_is_met_exactly() {
    for letters in [16, 1_500, 4_000] {
        let rows = 2 * letters as usize;
        let within = |most| backbone_within(&zigzag(letters), 0, most);
        assert_eq!(within(rows).unwrap().chain().len(), letters as usize);
        let Err(Error::Refused(refusal)) = within(rows - 1) else {
            panic!("{rows} rows");
        };
        assert_eq!((refusal.word(), refusal.place()), (Word::TooManyPieces, 0));
    }
}

/// Buffers that are filled with sevens: so many numbers of table, work, chain and scores.
struct Lent {
    table: Vec<u32>,
    work: Vec<u32>,
    chain: Vec<u32>,
    scores: Vec<u32>,
}

impl Lent {
    fn new([table, work, chain, scores]: [usize; 4]) -> Lent {
        let sevens = |length| vec![7; length];
        Lent {
            table: sevens(table),
            work: sevens(work),
            chain: sevens(chain),
            scores: sevens(scores),
        }
    }

    /// The refusal that the call must meet.
    fn refused(&mut self, script: &[u8], price: u32) -> Refusal {
        let Lent {
            table,
            work,
            chain,
            scores,
        } = self;
        chain_into(script, price, table, work, chain, scores).unwrap_err()
    }
}

/// The rows of the specification's run.
const ROWS: usize = 8;

#[test]
fn lent_buffers_hold_the_answer_and_are_kept_behind_it() {
    let script = run_of_the_specification();
    let room = ROWS + 1;
    let mut lent = Lent::new([room * ROW_NUMBERS, room * WORK_NUMBERS, room, room + 1]);
    let made = chain_into(
        &script,
        1,
        &mut lent.table,
        &mut lent.work,
        &mut lent.chain,
        &mut lent.scores,
    )
    .unwrap();
    let best = backbone(&script, 1).unwrap();
    assert_eq!((made.score, made.chain), (best.score(), best.chain()));
    assert_eq!(made.table, best.table().numbers());
    assert!(made.rows().eq(best.rows()));
    assert_eq!(lent.table[ROWS * ROW_NUMBERS..], [7; ROW_NUMBERS]);
    assert_eq!(lent.chain, [1, 2, 3, 4, 7, 7, 7, 7, 7]);
    assert!(lent
        .work
        .iter()
        .chain(&lent.scores)
        .all(|&number| number == 0));
}

#[test]
fn a_refusal_keeps_the_lent_buffers() {
    let run = run_of_the_specification();
    let few = ROWS - 1;
    let enough = [few * ROW_NUMBERS, few * WORK_NUMBERS, few, few];
    let [table, work, chain, scores] = enough;
    // Each also meets what comes behind it.
    let faults: [(Word, &[u8], u32, [usize; 4]); 6] = [
        (Word::Headless, &[], MOST_PRICE + 1, [table, work - 1, 0, 0]),
        (
            Word::WorkTooShort,
            &run,
            MOST_PRICE + 1,
            [table, work - 1, 0, 0],
        ),
        (
            Word::PriceTooHigh,
            &run,
            MOST_PRICE + 1,
            [table, work, 0, 0],
        ),
        (Word::PriceTooHigh, &run, u32::MAX, [table, work, 0, 0]),
        (
            Word::ChainTooShort,
            &run,
            0,
            [table, work, chain - 1, scores],
        ),
        (
            Word::ChainTooShort,
            &run,
            0,
            [table, work, chain, scores - 1],
        ),
    ];
    for (word, script, price, lengths) in faults {
        let mut lent = Lent::new(lengths);
        let refusal = lent.refused(script, price);
        assert_eq!((refusal.word(), refusal.place()), (word, 0));
        let all = [&lent.table, &lent.work, &lent.chain, &lent.scores];
        assert!(all.into_iter().flatten().all(|&number| number == 7));
    }
    let mut lent = Lent::new(enough);
    assert_eq!(lent.refused(&run, 0).word(), Word::TooManyPieces);
    assert_eq!((lent.table, lent.chain), (vec![7; table], vec![7; chain]));
    assert_eq!((lent.work, lent.scores), (vec![0; work], vec![0; scores]));
}

#[test]
fn no_row_needs_no_room() {
    let none = script(LONG, 1, &[]);
    let made = chain_into(&none, MOST_PRICE, &mut [], &mut [], &mut [], &mut []).unwrap();
    assert_eq!((made.score, made.table, made.chain), (0, &[][..], &[][..]));
    assert_eq!(made.rows().next(), None);
    assert!(backbone_within(&none, 0, 0).unwrap().table().is_empty());
}
