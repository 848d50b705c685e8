// A safe wrapper over the door of the count in windows (crates/window_doors). Nothing checks this declaration against
// that source.

#[link(name = "window_doors", kind = "static")]
extern "C" {
    fn distinct_in_windows(table: *const u32, numbers: usize) -> usize;
}

pub fn count(table: &[u32]) -> usize {
    unsafe { distinct_in_windows(table.as_ptr(), table.len()) }
}
