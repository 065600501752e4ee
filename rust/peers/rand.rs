//! As much of rand as the tests use: numbers in a range.
use std::ops::Range;

pub struct Numbers(u64);

pub fn thread_rng() -> Numbers {
    Numbers(0x9e37_79b9_7f4a_7c15)
}

pub trait Rng {
    fn gen_range(&mut self, range: Range<usize>) -> usize;
}

impl Rng for Numbers {
    fn gen_range(&mut self, range: Range<usize>) -> usize {
        self.0 ^= self.0 << 13;
        self.0 ^= self.0 >> 7;
        self.0 ^= self.0 << 17;
        range.start + (self.0 as usize) % (range.end - range.start)
    }
}
