// A safe wrapper over the door of the engine for any count of tracks (crates/track_doors). Nothing checks this
// declaration against that source.

#[link(name = "track_doors", kind = "static")]
extern "C" {
    // Slices as a pointer and a length, in the order of the engine's.
    fn close_tracks(
        left_a: *const u32,
        left_as: usize,
        right_a: *const u32,
        right_as: usize,
        left_b: *const u32,
        left_bs: usize,
        right_b: *const u32,
        right_bs: usize,
        reversed: *const bool,
        ways: usize,
        straight: *const bool,
        straights: usize,
        groups: *const usize,
        group_numbers: usize,
        mark_tracks: *const u8,
        marked: usize,
        mark_positions: *const u32,
        marks: usize,
        index_a: *mut u32,
        index_as: usize,
        index_b: *mut u32,
        index_bs: usize,
        work: *mut u32,
        places: usize,
        book_a: *mut usize,
        book_as: usize,
        book_b: *mut usize,
        book_bs: usize,
        count: usize,
        sets: usize,
        capacity: usize,
    ) -> bool;
}

// What is only read. `straight` has a false for each match.
#[derive(Clone, Debug)]
pub struct Columns {
    pub left_a: Vec<u32>,
    pub right_a: Vec<u32>,
    pub left_b: Vec<u32>,
    pub right_b: Vec<u32>,
    pub reversed: Vec<bool>,
    pub straight: Vec<bool>,
    pub mark_tracks: Vec<u8>,
    pub mark_positions: Vec<u32>,
}

// What is written. Anything may stand in it before.
pub struct Lent {
    pub index: [Vec<u32>; 2],
    pub work: Vec<u32>,
    pub books: [Vec<usize>; 2],
}

// Whether all cuts are in the sets; else there are too many. `groups` has three numbers a group, `count` groups, and
// behind them the count of matches.
pub fn close(
    columns: &Columns,
    groups: &[usize],
    count: usize,
    lent: &mut Lent,
    sets: usize,
    capacity: usize,
) -> bool {
    let matches = columns.left_a.len();
    assert!([&columns.right_a, &columns.left_b, &columns.right_b]
        .iter()
        .all(|ends| ends.len() == matches));
    assert!(columns.reversed.len() == matches && columns.straight == vec![false; matches]);
    assert!(columns.mark_tracks.len() == columns.mark_positions.len());
    assert!(3 * count < groups.len() && groups[3 * count] == matches);
    assert!((1..=16).contains(&sets) && lent.books.iter().all(|book| book.len() == 8 * sets));
    assert!(4 * capacity <= lent.work.len());
    let [index_a, index_b] = &mut lent.index;
    let [book_a, book_b] = &mut lent.books;
    unsafe {
        close_tracks(
            columns.left_a.as_ptr(),
            matches,
            columns.right_a.as_ptr(),
            matches,
            columns.left_b.as_ptr(),
            matches,
            columns.right_b.as_ptr(),
            matches,
            columns.reversed.as_ptr(),
            matches,
            columns.straight.as_ptr(),
            matches,
            groups.as_ptr(),
            groups.len(),
            columns.mark_tracks.as_ptr(),
            columns.mark_tracks.len(),
            columns.mark_positions.as_ptr(),
            columns.mark_positions.len(),
            index_a.as_mut_ptr(),
            index_a.len(),
            index_b.as_mut_ptr(),
            index_b.len(),
            lent.work.as_mut_ptr(),
            lent.work.len(),
            book_a.as_mut_ptr(),
            book_a.len(),
            book_b.as_mut_ptr(),
            book_b.len(),
            count,
            sets,
            capacity,
        )
    }
}
