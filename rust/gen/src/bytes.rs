//! Which values some bytes had.

/// A bit for each value of each byte.
#[derive(Clone)]
pub(crate) struct ByteSets(Vec<[u64; 4]>);

impl ByteSets {
    pub(crate) fn new(bytes: usize) -> ByteSets {
        ByteSets(vec![[0; 4]; bytes])
    }

    pub(crate) fn mark(&mut self, byte: usize, value: u8) {
        self.0[byte][usize::from(value / 64)] |= 1 << (value % 64);
    }

    /// How many values all bytes had.
    pub(crate) fn count(&self) -> u64 {
        let words = self.0.as_flattened().iter();
        words.map(|word| u64::from(word.count_ones())).sum()
    }

    pub(crate) fn add(&mut self, other: &ByteSets) {
        let words = self.0.as_flattened_mut().iter_mut();
        words.zip(other.0.as_flattened()).for_each(|(a, b)| *a |= b);
    }
}
