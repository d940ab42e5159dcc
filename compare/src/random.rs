//! Seeded random numbers by splitmix64, the same on every machine.

use std::fmt::Debug;
use std::ops::RangeInclusive;

pub struct Random(u64);

impl Random {
    pub fn of_seed(seed: u64) -> Random {
        Random(seed)
    }

    /// The numbers for one file of a seed.
    pub fn of_file(seed: u64, index: u64) -> Random {
        let mixed = Random::of_seed(seed).word() ^ index;
        Random::of_seed(mixed)
    }

    fn word(&mut self) -> u64 {
        self.0 = self.0.wrapping_add(0x9e37_79b9_7f4a_7c15);
        let z = (self.0 ^ (self.0 >> 30)).wrapping_mul(0xbf58_476d_1ce4_e5b9);
        let z = (z ^ (z >> 27)).wrapping_mul(0x94d0_49bb_1331_11eb);
        z ^ (z >> 31)
    }

    /// A number of a range that is not empty and has no negative numbers.
    pub fn draw<T>(&mut self, range: RangeInclusive<T>) -> T
    where
        T: TryInto<u64, Error: Debug> + TryFrom<u64, Error: Debug>,
    {
        let (first, last) = range.into_inner();
        let first = first.try_into().expect("a first number of 0 or more");
        let last = last.try_into().expect("a last number of 0 or more");
        let number = first + self.word() % (last - first + 1);
        T::try_from(number).expect("a number of the range")
    }

    /// A number under `count`, which is not 0.
    pub fn below(&mut self, count: usize) -> usize {
        self.draw(0..=count - 1)
    }

    pub fn one_in(&mut self, count: usize) -> bool {
        self.below(count) == 0
    }

    pub fn byte(&mut self) -> u8 {
        self.draw(0..=u8::MAX)
    }

    pub fn pick<T: Copy>(&mut self, choices: &[T]) -> T {
        choices[self.below(choices.len())]
    }

    pub fn shuffle<T>(&mut self, list: &mut [T]) {
        for last in (1..list.len()).rev() {
            list.swap(last, self.draw(0..=last));
        }
    }
}
