//! A small generator of numbers (splitmix64).

use std::ops::RangeInclusive;

/// Takes the numbers aside apart from the others.
const ASIDE: u64 = 0x6173_6964_655f_5f5f;

/// Numbers that follow from a seed.
#[derive(Clone)]
pub struct Rng(u64);

impl Rng {
    pub fn new(seed: u64) -> Rng {
        Rng(seed)
    }

    /// The generator of case `index` under `seed`.
    pub fn of_case(seed: u64, index: u64) -> Rng {
        let mut rng = Rng(seed ^ index.wrapping_mul(0xd134_2543_de82_ef95));
        Rng(rng.next())
    }

    /// Numbers of their own that follow from where this generator stands. It stays there, so that
    /// what is made with them leaves the rest of a case as it was.
    pub fn aside(&self) -> Rng {
        Rng(Rng(self.0 ^ ASIDE).next())
    }

    #[allow(clippy::should_implement_trait)]
    pub fn next(&mut self) -> u64 {
        self.0 = self.0.wrapping_add(0x9e37_79b9_7f4a_7c15);
        let mut z = self.0;
        z = (z ^ z >> 30).wrapping_mul(0xbf58_476d_1ce4_e5b9);
        z = (z ^ z >> 27).wrapping_mul(0x94d0_49bb_1331_11eb);
        z ^ z >> 31
    }

    /// 0 to `n` - 1; 0 for `n` 0.
    pub fn below(&mut self, n: u32) -> u32 {
        (((self.next() >> 32) * u64::from(n)) >> 32) as u32
    }

    pub fn within(&mut self, range: RangeInclusive<u32>) -> u32 {
        range.start() + self.below(range.end() - range.start() + 1)
    }

    pub fn byte(&mut self) -> u8 {
        (self.next() >> 56) as u8
    }

    pub fn flag(&mut self) -> bool {
        self.next() >> 63 == 1
    }

    /// True once in `n` times.
    pub fn once_in(&mut self, n: u32) -> bool {
        self.below(n) == 0
    }

    pub fn pick<T: Copy>(&mut self, list: &[T]) -> T {
        list[self.below(list.len() as u32) as usize]
    }

    /// One of `list`, or once in six, by numbers aside, one of `later`.
    pub fn pick_or<T: Copy>(&mut self, list: &[T], later: &[T]) -> T {
        let mut aside = self.aside();
        let picked = self.pick(list);
        match aside.once_in(6) {
            true => aside.pick(later),
            false => picked,
        }
    }

    /// The same, or once in six, by numbers further aside, one of `latest`.
    pub fn pick_or_latest<T: Copy>(&mut self, list: &[T], later: &[T], latest: &[T]) -> T {
        let mut aside = self.aside().aside();
        let picked = self.pick_or(list, later);
        match aside.once_in(6) {
            true => aside.pick(latest),
            false => picked,
        }
    }

    /// An index, each as often as its weight says.
    pub fn weighted(&mut self, weights: &[u32]) -> usize {
        let mut left = self.below(weights.iter().sum());
        for (i, weight) in weights.iter().enumerate() {
            if left < *weight {
                return i;
            }
            left -= weight;
        }
        0
    }
}
