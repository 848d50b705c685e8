//! The slow program finds the backbone: the lines worked out for 02, #104, the buffers, the order of
//! refusals, and its two ways beside each other.

use compare::draft::Draft;
use compare::random::Random;
use compare::slow::chaining::{chain, from_each_piece, of_all_chains, Buffers, Chained};
use compare::slow::refinement::Piece;
use compare::slow::refusal::{Refusal, Word};

const RUBBISH: u32 = 0xDEAD_BEEF;

/// The answer and the four buffers, which held rubbish before.
struct Left {
    answer: Result<Chained, Refusal>,
    table: Vec<u32>,
    work: Vec<u32>,
    chain: Vec<u32>,
    scores: Vec<u32>,
}

/// Lends so many numbers of table, work, chain and scores.
fn left(script: &[u8], price: u32, lent: [usize; 4]) -> Left {
    let [mut table, mut work, mut chain_buffer, mut scores] = lent.map(|n| vec![RUBBISH; n]);
    let buffers = Buffers {
        table: &mut table,
        work: &mut work,
        chain: &mut chain_buffer,
        scores: &mut scores,
    };
    let answer = chain(script, price, buffers);
    Left {
        answer,
        table,
        work,
        chain: chain_buffer,
        scores,
    }
}

fn direct(letters: u32, matches: &[(u32, u32, u32)]) -> Vec<u8> {
    let draft = Draft::lengths(letters, letters);
    let all = matches
        .iter()
        .fold(draft, |draft, &(a, b, d)| draft.direct(a, b, d));
    all.end()
}

fn run_of_01() -> Vec<u8> {
    Draft::lengths(10, 10)
        .direct(0, 0, 6)
        .reversed(2, 3, 5)
        .end()
}

/// The score and the chain, with room for 20 rows.
fn backbone(script: &[u8], price: u32) -> (u64, Vec<u32>) {
    let chained = left(script, price, [100, 80, 20, 20]).answer.expect("room");
    (chained.score, chained.chain)
}

fn refused(word: Word) -> Result<Chained, Refusal> {
    Err(Refusal { word, place: 0 })
}

#[test]
fn the_run_of_01() {
    for price in [0, 1_000] {
        let Left {
            answer,
            table,
            work,
            chain,
            scores,
        } = left(&run_of_01(), price, [43, 33, 9, 10]);
        let chained = answer.expect("room");
        assert_eq!((chained.score, chained.rows), (6, 8));
        assert_eq!(chained.chain, [1, 2, 3, 4]);
        assert_eq!(table[..5], [1, 0, 0, 2, 0]);
        assert_eq!(table[40..], [RUBBISH; 3]);
        assert_eq!(chain[..4], [1, 2, 3, 4]);
        assert_eq!(chain[4..], [RUBBISH; 5]);
        assert_eq!((work, scores), (vec![0; 33], vec![0; 10]));
    }
}

#[test]
fn the_first_of_equal_chains() {
    let script = direct(
        30,
        &[(0, 6, 2), (6, 0, 2), (9, 3, 2), (3, 9, 2), (20, 20, 2)],
    );
    assert_eq!(backbone(&script, 0), (6, vec![1, 4, 5]));
    assert_eq!(backbone(&script, 1), (2, vec![1]));
}

#[test]
fn a_link_must_gain_something() {
    // 3 letters are skipped.
    assert_eq!(
        backbone(&direct(20, &[(0, 0, 3), (4, 5, 3)]), 1),
        (3, vec![1])
    );
    assert_eq!(
        backbone(&direct(20, &[(0, 0, 3), (4, 5, 4)]), 1),
        (4, vec![1, 2])
    );
    assert_eq!(
        backbone(&direct(20, &[(0, 0, 4), (5, 6, 4)]), 1),
        (5, vec![1, 2])
    );
}

#[test]
fn numbers_may_fall() {
    assert_eq!(
        backbone(&direct(20, &[(10, 10, 3), (0, 0, 3)]), 0),
        (6, vec![2, 1])
    );
    let script = direct(40, &[(0, 0, 2), (20, 20, 2), (4, 10, 3), (10, 4, 3)]);
    assert_eq!(backbone(&script, 0), (7, vec![1, 3, 2]));
}

#[test]
fn only_reversed_pieces() {
    let script = Draft::lengths(20, 20).reversed(0, 0, 3).reversed(9, 9, 3);
    assert_eq!(backbone(&script.end(), 0), (0, Vec::new()));
}

#[test]
fn refusals_in_their_order() {
    let run = run_of_01();
    // The script, 11, 17, 18, 12.
    let bad = [run.as_slice(), &[0]].concat();
    let answer = left(&bad, 1_001, [40, 0, 0, 0]).answer;
    assert_eq!(answer.map_err(|refusal| refusal.word), Err(Word::Tail));
    let answer = |price, lent| left(&run, price, lent).answer;
    assert_eq!(answer(1_001, [35, 27, 6, 7]), refused(Word::WorkTooShort));
    assert_eq!(answer(1_001, [35, 28, 6, 7]), refused(Word::PriceTooHigh));
    assert_eq!(answer(1_000, [35, 28, 6, 7]), refused(Word::ChainTooShort));
    assert_eq!(answer(1_000, [35, 28, 7, 6]), refused(Word::ChainTooShort));
    assert_eq!(answer(1_000, [35, 28, 7, 7]), refused(Word::TooManyPieces));
    // 18 goes by the capacity, not by the rows.
    assert_eq!(answer(0, [45, 36, 8, 9]), refused(Word::ChainTooShort));
}

#[test]
fn what_a_refusal_leaves() {
    let run = run_of_01();
    for (price, lent) in [
        (0, [35, 27, 7, 7]),
        (1_001, [35, 28, 7, 7]),
        (0, [35, 28, 6, 7]),
    ] {
        let left = left(&run, price, lent);
        let all = [left.table, left.work, left.chain, left.scores].concat();
        assert!(all.iter().all(|&number| number == RUBBISH));
    }
    let left = left(&run, 0, [35, 30, 8, 9]);
    assert_eq!(left.answer, refused(Word::TooManyPieces));
    assert_eq!(
        (left.table, left.chain),
        (vec![RUBBISH; 35], vec![RUBBISH; 8])
    );
    assert_eq!((left.work, left.scores), (vec![0; 30], vec![0; 9]));
}

#[test]
fn both_ways_agree() {
    let mut random = Random::from_seed(104);
    for _ in 0..3_000 {
        let mut piece = |number| Piece {
            number,
            left_a: u64::from(3 * random.between(0, 6)),
            left_b: u64::from(3 * random.between(0, 6)),
            length: 3,
            reversed: random.between(0, 3) == 0,
        };
        let mut pieces: Vec<Piece> = (1..8).map(&mut piece).collect();
        pieces[0].reversed = false;
        let price = random.one_of(&[0, 1, 2, 1_000]);
        let all = of_all_chains(&pieces, price);
        let each = from_each_piece(&pieces, price);
        assert_eq!((all.score, &all.chain), (each.score, &each.chain));
        assert_eq!(all.goes_on, each.goes_on, "{pieces:?} at {price}");
    }
}
