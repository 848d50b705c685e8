// A safe wrapper over the doors of `cut_set` and `settling` (crates/cut_set_doors). Nothing checks these declarations
// against that source.

#[link(name = "cut_set_doors", kind = "static")]
extern "C" {
    fn cut_set_empty(a: *const u32, n: usize, ends: *mut Ends, eight: usize, base: usize, limit: usize);
    fn cut_set_member(a: *const u32, n: usize, ends: *const Ends, eight: usize, x: u32) -> bool;
    fn cut_set_add(a: *mut u32, n: usize, ends: *mut Ends, eight: usize, x: u32) -> bool;
    fn cut_set_gather(a: *mut u32, n: usize, ends: *mut Ends, eight: usize);
    fn cut_set_first_found(a: *const u32, n: usize, ends: *const Ends, eight: usize, x: u32) -> usize;
    fn cut_set_finish(a: *mut u32, n: usize, ends: *mut Ends, eight: usize);
    fn cut_set_join(a: *mut u32, n: usize, ends: *mut Ends, eight: usize);
}

// The eight numbers that say where the runs of a set end, in the order of the doors.
#[repr(C)]
#[derive(Clone, Default)]
struct Ends {
    base: usize,
    long: usize,
    mid: usize,
    done: usize,
    fresh: usize,
    used: usize,
    top: usize,
    limit: usize,
}

// The set owns its slice and its eight numbers, so nothing but the doors changes them.
#[derive(Clone)]
pub struct CutSet {
    places: Vec<u32>,
    ends: Ends,
}

impl CutSet {
    // A set in the places [base, limit) of a slice that holds these numbers.
    pub fn new(places: Vec<u32>, base: usize, limit: usize) -> CutSet {
        assert!(base <= limit && limit <= places.len());
        let mut set = CutSet { places, ends: Ends::default() };
        set.empty(base, limit);
        set
    }

    fn empty(&mut self, base: usize, limit: usize) {
        unsafe { cut_set_empty(self.places.as_ptr(), self.places.len(), &mut self.ends, 8, base, limit) }
    }

    // Whether nothing was added since the set was gathered.
    fn gathered(&self) -> bool {
        self.ends.fresh == self.ends.used
    }

    // Whether what was added has no room to be sorted with one number more, so that adding gathers.
    pub fn tight(&self) -> bool {
        (self.ends.used + 1 - self.ends.fresh) / 2 >= self.ends.top - self.ends.used
    }

    // How many places have notes of the members.
    pub fn notes(&self) -> usize {
        self.ends.limit - self.ends.top
    }

    pub fn noted(&self) -> bool {
        self.notes() > 0
    }

    pub fn member(&self, x: u32) -> bool {
        assert!(self.gathered());
        unsafe { cut_set_member(self.places.as_ptr(), self.places.len(), &self.ends, 8, x) }
    }

    // False: there is no room. The places stay as that call leaves them, and the set is empty from then on.
    pub fn add(&mut self, x: u32) -> bool {
        let held = unsafe { cut_set_add(self.places.as_mut_ptr(), self.places.len(), &mut self.ends, 8, x) };
        if !held {
            self.empty(self.ends.base, self.ends.limit);
        }
        held
    }

    pub fn gather(&mut self) {
        unsafe { cut_set_gather(self.places.as_mut_ptr(), self.places.len(), &mut self.ends, 8) }
    }

    // The newly found members that are at least x, rising.
    pub fn found_from(&self, x: u32) -> &[u32] {
        assert!(self.gathered());
        let at = unsafe { cut_set_first_found(self.places.as_ptr(), self.places.len(), &self.ends, 8, x) };
        &self.places[at..self.ends.used]
    }

    pub fn finish(&mut self) {
        assert!(self.gathered());
        unsafe { cut_set_finish(self.places.as_mut_ptr(), self.places.len(), &mut self.ends, 8) }
    }

    // All members, rising.
    pub fn join(&mut self) -> &[u32] {
        unsafe { cut_set_join(self.places.as_mut_ptr(), self.places.len(), &mut self.ends, 8) };
        &self.places[self.ends.base..self.ends.used]
    }

    // How many members the long, the middle and the short run of finished ones have.
    pub fn finished_runs(&self) -> [usize; 3] {
        [self.ends.long - self.ends.base, self.ends.mid - self.ends.long, self.ends.done - self.ends.mid]
    }

    // The places that hold neither a member nor a number that was added since the set was gathered; notes are none.
    pub fn unused(&self) -> usize {
        self.ends.limit - self.ends.used
    }

    // The whole slice, with what stands outside the set's part.
    pub fn places(&self) -> &[u32] {
        &self.places
    }
}
