//! Holds the words and numbers of this crate to the library: each refusal is provoked, by a script or a call made for
//! it, through every call that can give it, and compared with the word by its name; each size is tried at its edge.

mod scripts;

use notchergrey::{backbone, backbone_within, chain_into, read_list, read_records_into, write};
use notchergrey::{carry, carry_all, find_match, read, refine, refine_into, refine_within};
use notchergrey::{summary, write_into, Error, Mark, Match, Refusal, Side, Word, CLASSES};
use notchergrey::{LONGEST_SCRIPT, MARK_BYTES, MATCH_BYTES, MOST_MATCHES, SHORTEST_SCRIPT};
use notchergrey::{MARK_NUMBERS, MOST_MARKS, MOST_PRICE};
use notchergrey::{RECORD_NUMBERS, ROW_NUMBERS, WORK_NUMBERS};
use scripts::{command, direct, followed_by, longest, many_matches, mark_command, numbers};
use scripts::{on_a, on_b, records, reversed, run_of_the_specification, script, LONG};

/// The rows of the specification's run, and the numbers of table and work that they take.
const ROWS: usize = 8;
const TABLE_LEN: usize = ROWS * ROW_NUMBERS;
const WORK_LEN: usize = ROWS * WORK_NUMBERS;

/// The numbers of table, work, chain and scores that its backbone takes.
const CHAINING: [usize; 4] = [TABLE_LEN, WORK_LEN, ROWS, ROWS];

/// Its matches, and the numbers and bytes that they take as records and as a script.
const MATCHES: usize = 2;
const RECORDS_LEN: usize = MATCHES * RECORD_NUMBERS;
const SCRIPT_LEN: usize = SHORTEST_SCRIPT + MATCHES * MATCH_BYTES;

fn refused_refining(script: &[u8], table_len: usize, work_len: usize) -> Refusal {
    refine_into(script, &mut vec![0; table_len], &mut vec![0; work_len]).unwrap_err()
}

/// The call for the backbone in lent buffers: so many numbers of table, work, chain and scores.
fn refused_chaining(script: &[u8], price: u32, lengths: [usize; 4]) -> Refusal {
    let [mut table, mut work, mut chain, mut scores] = lengths.map(|length| vec![0; length]);
    chain_into(
        script,
        price,
        &mut table,
        &mut work,
        &mut chain,
        &mut scores,
    )
    .unwrap_err()
}

fn refused_reading(script: &[u8], records_len: usize, marks_len: usize) -> Refusal {
    let (mut records, mut marks) = (vec![0; records_len], vec![0; marks_len]);
    read_records_into(script, &mut records, &mut marks).unwrap_err()
}

/// The call for many positions, in a lent buffer of so many numbers.
fn refused_carrying(
    script: &[u8],
    number: u32,
    side: Side,
    positions: &[u32],
    length: usize,
) -> Refusal {
    carry_all(script, number, side, positions, &mut vec![0; length]).unwrap_err()
}

/// What the call for one position and that for many say from either side, which is the same, also where the many do
/// not fit.
fn refused_match(script: &[u8], number: u32) -> Refusal {
    let refusal = carry(script, number, Side::A, 0).unwrap_err();
    assert_eq!(carry(script, number, Side::B, 0), Err(refusal));
    for side in [Side::A, Side::B] {
        for (list, length) in [(&[0, 99][..], 2), (&[0, 99], 1), (&[], 0), (&[], 1)] {
            let of_many = refused_carrying(script, number, side, list, length);
            assert_eq!(of_many, refusal);
        }
    }
    refusal
}

/// What every call that reads the script says, which is the same.
fn refused_script(script: &[u8]) -> Refusal {
    let refusal = read(script).unwrap_err();
    assert_eq!(read_list(script), Err(refusal));
    assert_eq!(refused_reading(script, RECORDS_LEN, 0), refusal);
    assert_eq!(find_match(script, 1), Err(refusal));
    assert_eq!(refused_refining(script, TABLE_LEN, WORK_LEN), refusal);
    assert_eq!(refine(script), Err(Error::Refused(refusal)));
    assert_eq!(refine_within(script, ROWS), Err(Error::Refused(refusal)));
    assert_eq!(refused_chaining(script, 0, CHAINING), refusal);
    assert_eq!(backbone(script, 0), Err(Error::Refused(refusal)));
    assert_eq!(
        backbone_within(script, 0, ROWS),
        Err(Error::Refused(refusal))
    );
    assert_eq!(refused_match(script, 1), refusal);
    refusal
}

fn no_such_match(script: &[u8], number: u32) -> Refusal {
    let refusal = find_match(script, number).unwrap_err();
    assert_eq!(refused_match(script, number), refusal);
    refusal
}

/// What the call for one position and that for many say of one off the match, which is the same.
fn off_the_match(script: &[u8], number: u32, side: Side, position: u32) -> Refusal {
    let refusal = carry(script, number, side, position).unwrap_err();
    for list in [&[position][..], &[position, 3], &[3, position]] {
        let of_many = refused_carrying(script, number, side, list, list.len());
        assert_eq!(of_many, refusal);
    }
    refusal
}

/// The refusal of a buffer that is too long or too short for a list of positions, from either side.
fn counts_differ(script: &[u8], number: u32) -> Refusal {
    let refusal = refused_carrying(script, number, Side::A, &[3, 4], 1);
    for side in [Side::A, Side::B] {
        for (list, length) in [(&[3, 4][..], 3), (&[3, 4], 0), (&[99], 2), (&[], 1)] {
            let again = refused_carrying(script, number, side, list, length);
            assert_eq!(again, refusal);
        }
    }
    refusal
}

fn refused_writing(p: u32, q: u32, records: &[u32], marks: &[u32], script_len: usize) -> Refusal {
    write_into(p, q, records, marks, &mut vec![0; script_len]).unwrap_err()
}

/// What both calls that write a script say of the list, which is the same.
fn refused_list(p: u32, q: u32, matches: &[Match], marks: &[Mark]) -> Refusal {
    let refusal = write(p, q, matches, marks).unwrap_err();
    let again = refused_writing(p, q, &records(matches), &numbers(marks), SCRIPT_LEN);
    assert_eq!(again, refusal);
    refusal
}

fn list_of_the_specification() -> [Match; MATCHES] {
    [direct(0, 0, 6), reversed(2, 3, 5)]
}

/// The refusal of a record whose direction is this number, behind a good one.
fn refused_direction(direction: u32) -> Refusal {
    let mut records = records(&list_of_the_specification());
    records[RECORDS_LEN - 1] = direction;
    refused_writing(10, 10, &records, &[], SCRIPT_LEN)
}

/// The refusal of a mark whose side is this number, behind the matches and a good mark.
fn refused_side(side: u32) -> Refusal {
    let records = records(&list_of_the_specification());
    refused_writing(10, 10, &records, &[1, 10, side, 10], SCRIPT_LEN)
}

/// What every call says that is lent too little.
fn too_short() -> Refusal {
    let records = records(&list_of_the_specification());
    let refusal = refused_writing(10, 10, &records, &[], SCRIPT_LEN - 1);
    let with_a_mark = refused_writing(10, 10, &records, &[0, 1], SCRIPT_LEN + MARK_BYTES - 1);
    assert_eq!(with_a_mark, refusal);
    let script = followed_by(&run_of_the_specification(), &[mark_command(0, 1)]);
    let (records_len, marks_len) = (RECORDS_LEN - 1, MARK_NUMBERS - 1);
    assert_eq!(refused_reading(&script, records_len, MARK_NUMBERS), refusal);
    assert_eq!(refused_reading(&script, RECORDS_LEN, marks_len), refusal);
    refusal
}

/// What refining and the call for the backbone say, which is the same.
fn refused_table(script: &[u8], table_len: usize, work_len: usize) -> Refusal {
    let refusal = refused_refining(script, table_len, work_len);
    let lengths = [table_len, work_len, ROWS, ROWS];
    assert_eq!(refused_chaining(script, MOST_PRICE, lengths), refusal);
    refusal
}

/// What every call says that finds a backbone at this price.
fn refused_price(script: &[u8], price: u32) -> Refusal {
    let refusal = refused_chaining(script, price, CHAINING);
    assert_eq!(backbone(script, price), Err(Error::Refused(refusal)));
    let within = backbone_within(script, price, ROWS);
    assert_eq!(within, Err(Error::Refused(refusal)));
    refusal
}

/// The refusal of a chain buffer that is one number too short, or of such a score buffer.
fn chain_too_short(script: &[u8]) -> Refusal {
    let [table, work, chain, scores] = CHAINING;
    let refusal = refused_chaining(script, MOST_PRICE, [table, work, chain - 1, scores]);
    let short_scores = [table, work, chain, scores - 1];
    assert_eq!(refused_chaining(script, MOST_PRICE, short_scores), refusal);
    refusal
}

/// Each word with the place that it has and a refusal that it must be.
fn provoked() -> Vec<(Word, usize, Refusal)> {
    let good = run_of_the_specification();
    let cut = &good[..good.len() - 1];
    let at = cut.len();
    let with = |more: &[u8]| refused_script(&[cut, more].concat());
    let with_match = |operands: [u32; 3]| with(&command(b'D', &operands));
    let off = off_the_match(&good, 2, Side::A, 8);
    assert_eq!(off_the_match(&good, 2, Side::B, 9), off);
    assert_eq!(no_such_match(&good, 0), no_such_match(&good, 3));
    let high_price = refused_price(&good, MOST_PRICE + 1);
    assert_eq!(refused_price(&good, u32::MAX), high_price);
    vec![
        (Word::Headless, 0, refused_script(&[])),
        (Word::UnknownCommand, at, with(b"X")),
        (Word::CutShort, at, with(&[])),
        (Word::SecondLengths, at, with(b"L")),
        (
            Word::LengthOutOfRange,
            0,
            refused_script(&script(10, LONG + 1, &[])),
        ),
        (
            Word::TooManyMatches,
            26_633,
            refused_script(&many_matches(2_049)),
        ),
        (Word::EmptyMatch, at, with_match([0, 0, 0])),
        (Word::BeyondA, at, with_match([1, 0, u32::MAX])),
        (Word::BeyondB, at, with_match([0, 1, 10])),
        (Word::Tail, at + 1, with(b"EE")),
        (
            Word::WorkTooShort,
            0,
            refused_table(&good, TABLE_LEN, WORK_LEN - 1),
        ),
        (
            Word::TooManyPieces,
            0,
            refused_table(&good, TABLE_LEN - 1, WORK_LEN),
        ),
        (Word::NoSuchMatch, 0, no_such_match(&good, 3)),
        (Word::OffTheMatch, 0, off),
        (Word::MalformedRecords, 2, refused_direction(2)),
        (Word::BufferTooShort, 0, too_short()),
        (Word::PriceTooHigh, 0, high_price),
        (Word::ChainTooShort, 0, chain_too_short(&good)),
        (
            Word::TooManyMarks,
            at + 512 * 6,
            with(&[mark_command(0, 10).repeat(512), vec![b'M']].concat()),
        ),
        (Word::NoSuchSide, at, with(&mark_command(2, 0))),
        (Word::MarkBeyond, at, with(&mark_command(0, 11))),
        (Word::CountsDiffer, 0, counts_differ(&good, 2)),
    ]
}

/// What of a list is at fault.
#[derive(Clone, Copy)]
enum Fault {
    Nothing,
    Record(usize),
    Mark(usize),
}

/// Each word that a list of two or three matches can meet, with its fault and a refusal that it must be.
fn provoked_by_lists() -> Vec<(Word, Fault, Refusal)> {
    use Fault::{Nothing, Record};
    let [good, other] = list_of_the_specification();
    let second = |wrong: Match| refused_list(10, 10, &[good, wrong, other], &[on_a(99)]);
    let second_mark = |wrong: Mark| refused_list(10, 20, &[good, other], &[on_a(10), wrong]);
    let odd = |records, marks| refused_writing(10, 10, &vec![0; records], &vec![0; marks], 99);
    let many = vec![direct(0, 0, 1); MOST_MATCHES + 1];
    let many_marks = vec![on_a(0); MOST_MARKS + 1];
    let lengths = |p, q| refused_list(p, q, &[], &[]);
    vec![
        (Word::LengthOutOfRange, Nothing, lengths(0, 1)),
        (Word::LengthOutOfRange, Nothing, lengths(1, LONG + 1)),
        (
            Word::TooManyMatches,
            Nothing,
            refused_list(LONG, LONG, &many, &many_marks),
        ),
        (
            Word::TooManyMarks,
            Nothing,
            refused_list(1, 1, &[good], &many_marks),
        ),
        (Word::EmptyMatch, Record(2), second(direct(0, 0, 0))),
        (Word::BeyondA, Record(2), second(direct(1, 0, u32::MAX))),
        (Word::BeyondB, Record(2), second(reversed(0, 1, 10))),
        (Word::MarkBeyond, Fault::Mark(2), second_mark(on_a(11))),
        (Word::MarkBeyond, Fault::Mark(2), second_mark(on_b(21))),
        (Word::NoSuchSide, Fault::Mark(2), refused_side(2)),
        (Word::NoSuchSide, Fault::Mark(2), refused_side(u32::MAX)),
        (Word::MalformedRecords, Nothing, odd(RECORDS_LEN + 1, 0)),
        (Word::MalformedRecords, Nothing, odd(RECORDS_LEN, 3)),
        (Word::MalformedRecords, Record(2), refused_direction(2)),
        (
            Word::MalformedRecords,
            Record(2),
            refused_direction(u32::MAX),
        ),
        (Word::BufferTooShort, Nothing, too_short()),
    ]
}

#[test]
fn every_word_is_provoked() {
    let words: Vec<Word> = provoked().iter().map(|&(word, ..)| word).collect();
    assert_eq!(words, Word::ALL);
    assert_eq!(words.len(), 22);
}

#[test]
fn every_refusal_has_its_word_number_and_place() {
    for (number, (word, place, refusal)) in (1..).zip(provoked()) {
        assert_eq!((refusal.word(), refusal.place()), (word, place));
        assert_eq!(refusal.number(), number);
        let of_records = word == Word::MalformedRecords;
        assert_eq!(refusal.record(), of_records.then_some(place));
        assert_eq!(refusal.mark(), None);
    }
}

#[test]
fn every_refusal_says_its_word_number_and_place() {
    for (word, place, refusal) in provoked() {
        let letters = |text: String| text.replace(' ', "").to_lowercase();
        assert_eq!(letters(word.to_string()), letters(format!("{word:?}")));
        let number = word.number();
        let text = Error::from(refusal).to_string();
        assert_eq!(text, refusal.to_string());
        let at = match number {
            1..=10 | 19..=21 => format!(" at byte {place}"),
            15 => format!(" at record {place}"),
            _ => String::new(),
        };
        let start = format!("refused as {word} ({number}){at}: ");
        assert!(text.starts_with(&start), "{text}");
    }
}

#[test]
fn every_refusal_of_a_list_has_and_says_its_record_or_mark() {
    for (word, fault, refusal) in provoked_by_lists() {
        let (record, mark, place, at) = match fault {
            Fault::Nothing => (None, None, 0, String::new()),
            Fault::Record(number) => (Some(number), None, number, format!(" at record {number}")),
            Fault::Mark(number) => {
                let place = MATCHES + number;
                (None, Some(number), place, format!(" at mark {number}"))
            }
        };
        assert_eq!((refusal.word(), refusal.place()), (word, place));
        assert_eq!((refusal.record(), refusal.mark()), (record, mark));
        let start = format!("refused as {word} ({}){at}: ", word.number());
        let text = refusal.to_string();
        assert!(text.starts_with(&start), "{text}");
    }
}

#[test]
fn table_and_work_are_just_enough() {
    let script = run_of_the_specification();
    let (mut table, mut work) = ([0; TABLE_LEN], [0; WORK_LEN]);
    let refined = refine_into(&script, &mut table, &mut work);
    assert_eq!(refined.map(<[u32]>::len), Ok(TABLE_LEN));
}

#[test]
fn four_buffers_and_the_highest_price_are_just_enough() {
    let script = run_of_the_specification();
    let [mut table, mut work, mut chain, mut scores] = CHAINING.map(|length| vec![0; length]);
    let made = chain_into(
        &script,
        MOST_PRICE,
        &mut table,
        &mut work,
        &mut chain,
        &mut scores,
    );
    let made = made.unwrap();
    assert_eq!((made.score, made.table.len()), (6, TABLE_LEN));
    assert_eq!(MOST_PRICE, 1_000);
}

#[test]
fn script_and_records_are_just_enough() {
    let list = list_of_the_specification();
    let given_marks = numbers(&[on_b(10), on_a(0), on_a(0)]);
    for (matches, marks) in (0..=MATCHES).flat_map(|count| [(count, 0), (count, 3)]) {
        let given = (records(&list[..matches]), &given_marks[..2 * marks]);
        let mut script = vec![0; SHORTEST_SCRIPT + matches * MATCH_BYTES + marks * MARK_BYTES];
        let length = write_into(10, 10, &given.0, given.1, &mut script);
        assert_eq!(length, Ok(script.len()));
        let refusal = refused_writing(10, 10, &given.0, given.1, script.len() - 1);
        assert_eq!(refusal.word(), Word::BufferTooShort);
        let mut found = (
            vec![0; matches * RECORD_NUMBERS],
            vec![0; marks * MARK_NUMBERS],
        );
        let read = read_records_into(&script, &mut found.0, &mut found.1).unwrap();
        assert_eq!((read.matches, read.marks), (matches, marks));
        assert_eq!((found.0, &found.1[..]), given);
    }
}

#[test]
fn no_longer_list_is_admitted() {
    let most = vec![direct(0, 0, 1); MOST_MATCHES];
    let most_marks = vec![on_b(LONG); MOST_MARKS];
    let script = write(LONG, LONG, &most, &most_marks).unwrap();
    assert_eq!(script, longest());
    assert_eq!(script.len(), LONGEST_SCRIPT);
    for more in [1, 2, 1_000_000] {
        let longer = vec![direct(0, 0, 1); MOST_MATCHES + more];
        let longer_marks = vec![on_b(LONG); MOST_MARKS + more];
        let refusal = write(LONG, LONG, &longer, &longer_marks).unwrap_err();
        assert_eq!(refusal.word(), Word::TooManyMatches);
        let refusal = write(LONG, LONG, &most, &longer_marks).unwrap_err();
        assert_eq!((refusal.word(), refusal.place()), (Word::TooManyMarks, 0));
        let refusal = write(LONG, 0, &longer, &longer_marks).unwrap_err();
        assert_eq!(refusal.word(), Word::LengthOutOfRange);
    }
}

#[test]
fn the_last_class_ends_the_classes() {
    let rows = [536_870_912, 1_073_741_823, 1_073_741_824].map(|length| [1, 0, 0, length, 0]);
    let classes = summary(&rows.concat()).classes;
    assert_eq!(classes[CLASSES - 1], 2);
    assert_eq!(classes.iter().sum::<usize>(), 2);
}

#[test]
fn no_longer_script_is_admitted() {
    let longest = longest();
    assert_eq!(longest.len(), LONGEST_SCRIPT);
    let found = read(&longest).unwrap();
    assert_eq!((found.matches, found.marks), (MOST_MATCHES, MOST_MARKS));
    let one_match = command(b'D', &[0, 0, 1]);
    let one_mark = mark_command(0, 0);
    for (more, word) in [
        (one_match, Word::TooManyMatches),
        (one_mark, Word::TooManyMarks),
    ] {
        let longer = followed_by(&longest, &[more]);
        let refusal = read(&longer).unwrap_err();
        assert_eq!(
            (refusal.word(), refusal.place()),
            (word, LONGEST_SCRIPT - 1)
        );
        assert_eq!(read(&longer[..LONGEST_SCRIPT + 1]), Err(refusal));
    }
}
