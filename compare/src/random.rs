//! A small generator of numbers (splitmix64): one seed gives one run, on every machine.

pub struct Random {
    state: u64,
}

impl Random {
    pub fn from_seed(seed: u64) -> Random {
        Random { state: seed }
    }

    pub fn any_u64(&mut self) -> u64 {
        self.state = self.state.wrapping_add(0x9E37_79B9_7F4A_7C15);
        let mut mixed = self.state;
        mixed = (mixed ^ (mixed >> 30)).wrapping_mul(0xBF58_476D_1CE4_E5B9);
        mixed = (mixed ^ (mixed >> 27)).wrapping_mul(0x94D0_49BB_1331_11EB);
        mixed ^ (mixed >> 31)
    }

    pub fn any_u32(&mut self) -> u32 {
        (self.any_u64() >> 32) as u32
    }

    pub fn any_usize(&mut self) -> usize {
        self.any_u64() as usize
    }

    pub fn any_byte(&mut self) -> u8 {
        (self.any_u64() >> 56) as u8
    }

    pub fn any_bool(&mut self) -> bool {
        self.any_u64() >> 63 == 1
    }

    pub fn any_bytes(&mut self, count: usize) -> Vec<u8> {
        (0..count).map(|_| self.any_byte()).collect()
    }

    pub fn any_numbers(&mut self, count: usize) -> Vec<u32> {
        (0..count).map(|_| self.any_u32()).collect()
    }

    /// From `least` to `most`, both included.
    pub fn between(&mut self, least: u32, most: u32) -> u32 {
        let choices = u64::from(most) - u64::from(least) + 1;
        least + (self.any_u64() % choices) as u32
    }

    /// From `least` to `most`, both included.
    pub fn count_between(&mut self, least: usize, most: usize) -> usize {
        least + (self.any_u64() % (most - least + 1) as u64) as usize
    }

    pub fn one_of<T: Copy>(&mut self, choices: &[T]) -> T {
        choices[self.count_between(0, choices.len() - 1)]
    }

    pub fn shuffle<T>(&mut self, all: &mut [T]) {
        for last in (1..all.len()).rev() {
            all.swap(last, self.count_between(0, last));
        }
    }
}
