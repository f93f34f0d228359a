//! The flags of a crossing record, and every value that their bytes can have.

use crate::bytes::ByteSets;
use crate::plants::crossing;
use crate::rng::Rng;
use engine::{Crossing, Entry, Plant, Site};

/// Flags of one crossing: four routes, four approaches, four unsure tracks, seven lamps, kiosk
/// and operator hold.
pub const FLAGS: usize = 21;

/// The flags of a record in turn.
pub fn flags(c: &Crossing) -> impl Iterator<Item = &u8> {
    let tracks = c.route.iter().chain(&c.occupied).chain(&c.unsure);
    tracks.chain(&c.lamps).chain([&c.kiosk, &c.operator])
}

fn set_flag(c: &mut Crossing, flag: usize, value: u8) {
    let tracks = c.route.iter_mut().chain(&mut c.occupied);
    let mut all = tracks
        .chain(&mut c.unsure)
        .chain(&mut c.lamps)
        .chain([&mut c.kiosk, &mut c.operator]);
    if let Some(byte) = all.nth(flag) {
        *byte = value;
    }
}

/// A plant of `n` crossings of these kinds with four dependent tracks each, so that every flag
/// but those of boom lamps may be 1.
pub(crate) fn base(n: u8, kind: impl Fn(u8) -> u8) -> Plant {
    let rng = &mut Rng::new(n.into());
    let mut plant = Plant::fresh(&Site { n, ..Site::ZERO });
    for i in 0..n {
        let kind = kind(i);
        let entry = Entry {
            kind,
            tracks: 4,
            mask: 15,
            pre: if kind == 6 { 15 } else { 5 },
            gap: if kind == 4 { 3 } else { 0 },
            pause: 0,
        };
        plant.site.entries[usize::from(i)] = entry;
        plant.crossings[usize::from(i)] = crossing(rng, &entry);
    }
    plant
}

/// Every value of every flag of every crossing, with all eight crossings used, of every kind in
/// turn, and with one.
pub fn every_flag() -> impl Iterator<Item = Plant> {
    [8, 1].into_iter().flat_map(|n| {
        let base = base(n, |i| 1 + i % 6);
        let places = (0..8).flat_map(|i| (0..FLAGS).map(move |flag| (i, flag)));
        let bytes = places.flat_map(|place| (0..=255).map(move |value| (place, value)));
        bytes.map(move |((i, flag), value)| {
            let mut plant = base;
            set_flag(&mut plant.crossings[i], flag, value);
            plant
        })
    })
}

/// Which bytes a call was handed as flags: at crossings unused and used.
#[derive(Clone)]
pub(crate) struct FlagBytes([ByteSets; 2]);

impl Default for FlagBytes {
    fn default() -> FlagBytes {
        FlagBytes([(); 2].map(|_| ByteSets::new(8 * FLAGS)))
    }
}

impl FlagBytes {
    /// How many there are: crossing 0 is always used.
    pub(crate) const ALL: [u64; 2] = [7 * 256 * FLAGS as u64, 8 * 256 * FLAGS as u64];

    /// A plant handed over.
    pub(crate) fn mark(&mut self, plant: &Plant) {
        if !(1..=8).contains(&plant.site.n) {
            return;
        }
        for (i, c) in plant.crossings.iter().enumerate() {
            let used = usize::from(i < usize::from(plant.site.n));
            for (byte, flag) in (FLAGS * i..).zip(flags(c)) {
                self.0[used].mark(byte, *flag);
            }
        }
    }

    /// How many were handed over, at crossings unused and used.
    pub(crate) fn counts(&self) -> [u64; 2] {
        self.0.each_ref().map(ByteSets::count)
    }

    pub(crate) fn add(&mut self, other: &FlagBytes) {
        let sets = self.0.iter_mut().zip(&other.0);
        sets.for_each(|(mine, other)| mine.add(other));
    }
}
