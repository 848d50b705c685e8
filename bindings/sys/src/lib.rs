//! The doors of the archive libcapi.a, declared, and nothing else. `build.rs` links the archive; whoever calls a door
//! says why that is safe.
//!
//! Each declaration mirrors one of `include/notchergrey.h`, which says what the door needs and does, alignment and stack
//! included: the same names and types in the same order. `agree.sh` holds them to it.

#![no_std]

extern "C" {
    pub fn notchergrey_read(
        script: *const u8,
        script_len: usize,
        place: *mut usize,
        p: *mut u32,
        q: *mut u32,
        count: *mut usize,
        mark_count: *mut usize,
    ) -> u32;

    pub fn notchergrey_match(
        script: *const u8,
        script_len: usize,
        number: u32,
        place: *mut usize,
        left_a: *mut u32,
        left_b: *mut u32,
        length: *mut u32,
        reversed: *mut u32,
    ) -> u32;

    pub fn notchergrey_write(
        p: u32,
        q: u32,
        records: *const u32,
        records_len: usize,
        marks: *const u32,
        marks_len: usize,
        script: *mut u8,
        script_len: usize,
        place: *mut usize,
        length: *mut usize,
    ) -> u32;

    pub fn notchergrey_read_records(
        script: *const u8,
        script_len: usize,
        records: *mut u32,
        records_len: usize,
        marks: *mut u32,
        marks_len: usize,
        place: *mut usize,
        p: *mut u32,
        q: *mut u32,
        count: *mut usize,
        mark_count: *mut usize,
    ) -> u32;

    pub fn notchergrey_refine(
        script: *const u8,
        script_len: usize,
        table: *mut u32,
        table_len: usize,
        work: *mut u32,
        work_len: usize,
        place: *mut usize,
        rows: *mut usize,
    ) -> u32;

    pub fn notchergrey_chain(
        script: *const u8,
        script_len: usize,
        price: u32,
        table: *mut u32,
        table_len: usize,
        work: *mut u32,
        work_len: usize,
        chain: *mut u32,
        chain_len: usize,
        scores: *mut u32,
        scores_len: usize,
        place: *mut usize,
        score: *mut u64,
        rows: *mut usize,
        length: *mut usize,
    ) -> u32;

    pub fn notchergrey_carry_from_a(
        script: *const u8,
        script_len: usize,
        number: u32,
        position: u32,
        place: *mut usize,
        carried: *mut u32,
    ) -> u32;

    pub fn notchergrey_carry_from_b(
        script: *const u8,
        script_len: usize,
        number: u32,
        position: u32,
        place: *mut usize,
        carried: *mut u32,
    ) -> u32;

    pub fn notchergrey_carry_all_from_a(
        script: *const u8,
        script_len: usize,
        number: u32,
        positions: *const u32,
        positions_len: usize,
        carried: *mut u32,
        carried_len: usize,
        place: *mut usize,
    ) -> u32;

    pub fn notchergrey_carry_all_from_b(
        script: *const u8,
        script_len: usize,
        number: u32,
        positions: *const u32,
        positions_len: usize,
        carried: *mut u32,
        carried_len: usize,
        place: *mut usize,
    ) -> u32;

    pub fn notchergrey_rows_of(
        table: *const u32,
        table_len: usize,
        number: u32,
        start: *mut usize,
        end: *mut usize,
    ) -> u32;

    pub fn notchergrey_summary(
        table: *const u32,
        table_len: usize,
        pieces: *mut usize,
        distinct: *mut usize,
        covers: *mut [u64; 2],
        classes: *mut [usize; 30],
    ) -> u32;

    pub fn notchergrey_report(
        script: *const u8,
        script_len: usize,
        text: *mut u8,
        text_len: usize,
        length: *mut usize,
    ) -> u32;
}
