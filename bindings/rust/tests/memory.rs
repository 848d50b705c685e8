//! What is said when memory ends, and how much of it is asked for. The allocator here counts what each thread holds,
//! refuses what would be above the thread's limit, and remembers the most that was asked for.

mod scripts;

use notchergrey::{backbone, backbone_within, carry_all, find_match, read, refine, refine_within};
use notchergrey::{Error, Refusal, Side, Word};
use scripts::{command, mark_command, script, zigzag, LONG};
use std::alloc::{GlobalAlloc, Layout, System};
use std::cell::Cell;
use std::ptr;

struct Limited;

#[global_allocator]
static LIMITED: Limited = Limited;

thread_local! {
    static HELD: Cell<usize> = const { Cell::new(0) };
    static MOST: Cell<usize> = const { Cell::new(0) };
    static LIMIT: Cell<usize> = const { Cell::new(usize::MAX) };
}

/// Counts bytes that are asked for in place of others, or nothing if they are refused.
fn may_hold(bytes: usize, instead_of: usize) -> bool {
    let held = HELD.get().saturating_sub(instead_of) + bytes;
    MOST.set(MOST.get().max(held));
    let may = held <= LIMIT.get();
    if may {
        HELD.set(held);
    }
    may
}

// SAFETY: what it hands out is the system's, or null, which an allocator may always answer.
unsafe impl GlobalAlloc for Limited {
    unsafe fn alloc(&self, layout: Layout) -> *mut u8 {
        if !may_hold(layout.size(), 0) {
            return ptr::null_mut();
        }
        System.alloc(layout)
    }

    unsafe fn realloc(&self, pointer: *mut u8, layout: Layout, size: usize) -> *mut u8 {
        if !may_hold(size, layout.size()) {
            return ptr::null_mut();
        }
        System.realloc(pointer, layout, size)
    }

    unsafe fn dealloc(&self, pointer: *mut u8, layout: Layout) {
        HELD.set(HELD.get().saturating_sub(layout.size()));
        System.dealloc(pointer, layout);
    }
}

/// A row of the table and the work for it.
const ROW_BYTES: usize = 36;

/// The same with a number of the chain and one of the scores.
const BACKBONE_ROW_BYTES: usize = 44;

/// Calls with so many bytes of memory.
fn with_bytes<T>(bytes: usize, call: impl FnOnce() -> T) -> T {
    HELD.set(0);
    LIMIT.set(bytes);
    let answer = call();
    LIMIT.set(usize::MAX);
    answer
}

/// Calls with memory for so many rows.
fn with_memory<T>(rows: usize, call: impl FnOnce() -> T) -> T {
    with_bytes(rows * ROW_BYTES, call)
}

/// The most bytes that the call asks for at once.
fn most_bytes<T>(call: impl FnOnce() -> T) -> usize {
    HELD.set(0);
    MOST.set(0);
    call();
    MOST.get()
}

/// The most rows that the call asks memory for at once.
fn most_rows<T>(call: impl FnOnce() -> T) -> usize {
    let bytes = most_bytes(call);
    assert_eq!(bytes % ROW_BYTES, 0);
    bytes / ROW_BYTES
}

fn is_too_many_pieces(error: Error) -> bool {
    error.refusal().map(|refusal| refusal.word()) == Some(Word::TooManyPieces)
}

#[test]
fn memory_that_ends_is_no_refusal() {
    let script = zigzag(50_000);
    assert_eq!(refine(&script).unwrap().len(), 100_000);
    for (memory, wanted) in [
        (2_999, 3_000),
        (24_000, 48_000),
        (95_999, 96_000),
        (99_999, 100_000),
    ] {
        let error = with_memory(memory, || refine(&script)).unwrap_err();
        assert_eq!(error, Error::OutOfMemory { rows: wanted });
        assert_eq!(error.refusal(), None);
    }
    // The table of 3,000 rows, but not the work for it.
    let error = with_bytes(20 * 3_000, || refine(&script)).unwrap_err();
    assert_eq!(error, Error::OutOfMemory { rows: 3_000 });
    assert_eq!(
        with_memory(100_000, || refine(&script)).unwrap().len(),
        100_000
    );
}

#[test]
fn a_limit_is_told_from_memory_that_ends() {
    let script = zigzag(50_000);
    let within = |rows| with_memory(24_000, || refine_within(&script, rows)).unwrap_err();
    assert!(is_too_many_pieces(within(24_000)));
    assert_eq!(within(24_001), Error::OutOfMemory { rows: 24_001 });
    assert_eq!(within(usize::MAX), Error::OutOfMemory { rows: 48_000 });
}

#[test]
fn the_backbone_needs_eight_bytes_more_for_a_row() {
    let script = zigzag(50_000);
    let found = || backbone(&script, 1);
    let within = |rows| backbone_within(&script, 1, rows);
    assert_eq!(most_bytes(found), 100_000 * BACKBONE_ROW_BYTES);
    for limit in [0, 1, 2_999, 3_000, 3_001, 10_000] {
        assert!(is_too_many_pieces(within(limit).unwrap_err()));
        assert_eq!(most_bytes(|| within(limit)), limit * BACKBONE_ROW_BYTES);
    }
    // Room for 3,000 rows but for the last number of each buffer in turn.
    for numbers in [5, 9, 10, 11] {
        let error = with_bytes(3_000 * 4 * numbers - 1, found).unwrap_err();
        assert_eq!(error, Error::OutOfMemory { rows: 3_000 });
    }
    let best = with_bytes(100_000 * BACKBONE_ROW_BYTES, found).unwrap();
    assert_eq!(best.chain().len(), 50_000);
}

#[test]
fn a_script_is_refused_whatever_memory_there_is() {
    let refined = with_memory(0, || refine(b"")).map(|_| ());
    let found = with_memory(0, || backbone(b"", 0)).map(|_| ());
    for error in [refined.unwrap_err(), found.unwrap_err()] {
        assert_eq!(
            error.refusal().map(|refusal| refusal.word()),
            Some(Word::Headless)
        );
    }
}

#[test]
fn it_says_what_to_do() {
    let text = Error::OutOfMemory { rows: usize::MAX }.to_string();
    let start = "out of memory: a table of 18446744073709551615 rows takes 664082786653543858140 \
                 bytes while it is made, and 811656739243220271060 with its backbone; ";
    assert!(text.starts_with(start), "{text}");
    assert!(text.ends_with("or set a limit of rows"), "{text}");
}

#[test]
fn no_more_room_than_the_matches_have_letters() {
    let one_letter = script(LONG, LONG, &[(b'R', [7, 9, 1])]);
    let many: Vec<_> = (1..=70).map(|length| (b'D', [length, 0, length])).collect();
    let many = script(LONG, LONG, &many);
    let none = script(LONG, LONG, &[]);
    // Marks that look like a match, like the end, and like other marks, between two matches.
    let marks = [0x0000_0044, 0x2545_4545, 0x354d_4d4d].map(|at| mark_command(1, at));
    let mixed = [
        command(b'L', &[LONG, LONG]),
        marks.concat(),
        command(b'D', &[0, 0, 70]),
        marks.concat(),
        command(b'R', &[500, 500, 7]),
        mark_command(0, 3),
        b"E".to_vec(),
    ];
    for script in [
        none,
        one_letter,
        many,
        mixed.concat(),
        zigzag(1_499),
        zigzag(1_600),
        zigzag(3_001),
        zigzag(50_000),
    ] {
        assert_eq!(most_rows(|| refine(&script).unwrap()), letters(&script));
    }
}

/// As the library tells them, match by match.
fn letters(script: &[u8]) -> usize {
    let matches = read(script).unwrap().matches as u32;
    (1..=matches)
        .map(|number| find_match(script, number).unwrap().length as usize)
        .sum()
}

#[test]
fn no_more_room_than_the_limit() {
    let script = zigzag(50_000);
    for limit in [0, 1, 2_999, 3_000, 3_001, 10_000] {
        let refused = |most| {
            assert!(is_too_many_pieces(
                refine_within(&script, most).unwrap_err()
            ))
        };
        assert_eq!(most_rows(|| refused(limit)), limit);
    }
}

#[test]
fn carrying_a_list_asks_for_no_memory() {
    let script = zigzag(50_000);
    let positions: Vec<u32> = (0..=50_000).collect();
    let mut carried = vec![0; positions.len()];
    let mut carry_to = |length: usize| {
        let answer = carry_all(&script, 2, Side::A, &positions, &mut carried[..length]);
        answer.map_err(|refusal| refusal.word())
    };
    let (mut good, mut refused) = (Ok(()), Ok(()));
    let bytes = most_bytes(|| (good, refused) = (carry_to(50_001), carry_to(50_000)));
    assert_eq!((good, refused), (Ok(()), Err(Word::CountsDiffer)));
    assert_eq!(bytes, 0);
    assert!((1..=50_001).eq(carried.iter().copied()));
}

#[test]
fn one_function_may_ask_for_all() {
    fn rows_and_matches(script: &[u8]) -> Result<(usize, usize), Error> {
        let matches = read(script)?.matches;
        Ok((refine(script)?.len(), matches))
    }
    fn boxed(script: &[u8]) -> Result<usize, Box<dyn std::error::Error>> {
        Ok(read(script)?.matches + refine(script)?.len())
    }
    let refusal: Refusal = read(b"").unwrap_err();
    assert_eq!(rows_and_matches(b""), Err(refusal.into()));
    assert_eq!(rows_and_matches(&zigzag(4)), Ok((8, 2)));
    assert_eq!(boxed(&zigzag(4)).unwrap(), 10);
    assert_eq!(boxed(b"").unwrap_err().to_string(), refusal.to_string());
}
