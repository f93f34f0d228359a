//! Every value that the bytes of the boom reports can have.

use crate::bytes::ByteSets;
use crate::flags::base;
use engine::Plant;
use std::array;

/// Values of the boom reports of one crossing.
const VALUES: u64 = 4 * 256;

/// Every value of every boom report of every crossing, which is of kinds 1 to 4 in turn, and unused
/// but for the first; and of the first of kinds 5 and 6.
pub fn every_boom() -> impl Iterator<Item = Plant> {
    let in_turn = (0..4).map(|turn| (base(8, |i| 1 + (i + turn) % 4), 8));
    let alone = [4, 5, 6].map(|kind| (base(1, |_| kind), if kind == 4 { 8 } else { 1 }));
    in_turn.chain(alone).flat_map(|(base, crossings)| {
        let places = (0..crossings).flat_map(|i| (0..4).map(move |b| (i, b)));
        let bytes = places.flat_map(|place| (0..=255).map(move |value| (place, value)));
        bytes.map(move |((i, b), value)| {
            let mut plant = base;
            plant.crossings[i].booms[b] = value;
            plant
        })
    })
}

/// Which bytes a call was handed as boom reports: at unused crossings, then by kind, of kinds 5
/// and 6 at the first crossing.
#[derive(Clone)]
pub(crate) struct BoomBytes([ByteSets; 7]);

impl Default for BoomBytes {
    fn default() -> BoomBytes {
        BoomBytes(array::from_fn(|_| ByteSets::new(8 * 4)))
    }
}

impl BoomBytes {
    /// How many there are: crossing 0 is always used.
    pub(crate) const ALL: [u64; 7] = [
        7 * VALUES,
        8 * VALUES,
        8 * VALUES,
        8 * VALUES,
        8 * VALUES,
        VALUES,
        VALUES,
    ];

    /// A plant handed over.
    pub(crate) fn mark(&mut self, plant: &Plant) {
        if !(1..=8).contains(&plant.site.n) {
            return;
        }
        for (i, c) in plant.crossings.iter().enumerate() {
            let sets = match plant.site.entries[i].kind {
                _ if i >= usize::from(plant.site.n) => &mut self.0[0],
                kind @ 1..=4 => &mut self.0[usize::from(kind)],
                kind @ 5..=6 if i == 0 => &mut self.0[usize::from(kind)],
                _ => continue,
            };
            (0..4).for_each(|b| sets.mark(4 * i + b, c.booms[b]));
        }
    }

    /// How many were handed over.
    pub(crate) fn counts(&self) -> [u64; 7] {
        self.0.each_ref().map(ByteSets::count)
    }

    pub(crate) fn add(&mut self, other: &BoomBytes) {
        let sets = self.0.iter_mut().zip(&other.0);
        sets.for_each(|(mine, other)| mine.add(other));
    }
}
