//! The time for motorists (document 02, T-06): one crossing of every kind in every phase, with and
//! without M, with and without ticks left; and M and the ticks left around their bounds.

use crate::swept::{phases, vary};
use engine::{boom, code, phase, Entry, Plant, Site};
use std::collections::BTreeSet;

/// M of the crossings, of kinds 5 and 6 the first two; F is 2, of kind 6 15, and G is 1.
const PAUSES: [u16; 4] = [0, 3, 1, 540];
/// Trains calling, unsure, kiosk hold and operator hold: no reason, and each alone.
const REASONS: [(u8, u8, u8, u8); 5] = [
    (0, 0, 0, 0),
    (1, 0, 0, 0),
    (0, 1, 0, 0),
    (0, 0, 1, 0),
    (0, 0, 0, 1),
];
/// Countdown and ticks out of normal.
const COUNTS: [(u16, u16); 3] = [(0, 5), (1, 900), (2, 901)];
/// Every code.
const EVENTS: [[u8; 4]; 16] = [
    [code::TICK, 0, 0, 0],
    [code::STRIKE_IN, 0, 0, 0],
    [code::STRIKE_IN, 0, 1, 0],
    [code::PASSAGE, 0, 0, 0],
    [code::KIOSK_HOLD, 0, 0, 0],
    [code::KIOSK_HOLD, 0, 0, 1],
    [code::OPERATOR_HOLD, 0, 0, 0],
    [code::OPERATOR_HOLD, 0, 0, 1],
    [code::ROUTE, 0, 0, 0],
    [code::ROUTE, 0, 0, 1],
    [code::APPROACH, 0, 0, 1],
    [code::TIME_RELEASE, 0, 0, 0],
    [code::BOOM_REPORT, 0, 0, boom::UP],
    [code::BOOM_REPORT, 0, 0, boom::DOWN],
    [code::BOOM_REPORT, 0, 0, boom::LOST],
    [code::LAMP_REPORT, 0, 1, 0],
];

/// Each of the events on each of the plants.
pub fn pause_events() -> impl Iterator<Item = (Plant, [u8; 4])> {
    let each = |plant| EVENTS.map(|event| (plant, event));
    pause_plants().into_iter().flat_map(each)
}

/// Plants of one crossing and two tracks, in range; a train waits where track 0 is dependent.
pub fn pause_plants() -> Vec<Plant> {
    let mut plants = with_pauses(&PAUSES);
    plants = vary(plants, |plant| {
        let pause = plant.site.entries[0].pause;
        let lefts = BTreeSet::from([0, 1, 2, pause.saturating_sub(1), pause]).into_iter();
        let plants = lefts.map(|left| with_left(plant, left));
        plants.filter(engine::in_range).collect()
    });
    plants = vary(plants, |plant| {
        REASONS.map(|reason| with_reason(plant, reason)).into()
    });
    plants = vary(plants, |plant| {
        COUNTS.map(|counts| with_counts(plant, counts)).into()
    });
    vary(plants, |plant| {
        let mut plants = vec![plant, plant];
        plants[1].crossings[0].booms[0] = boom::MOVING;
        plants.truncate(if plant.site.entries[0].has_booms() {
            2
        } else {
            1
        });
        plants
    })
}

/// Every kind in every phase with each of these as M, of kinds 5 and 6 half of them.
fn with_pauses(pauses: &[u16]) -> Vec<Plant> {
    vary(phases(), |mut plant| {
        let old = plant.site.entries[0].is_old();
        let with = |pause: &u16| {
            plant.site.entries[0].pause = *pause;
            plant
        };
        let first = pauses.len() / if old { 2 } else { 1 };
        pauses[..first].iter().map(with).collect()
    })
}

fn with_left(mut plant: Plant, left: u16) -> Plant {
    plant.crossings[0].left = left;
    plant
}

fn with_reason(mut plant: Plant, reason: (u8, u8, u8, u8)) -> Plant {
    let c = &mut plant.crossings[0];
    (c.calling[0], c.unsure[0], c.kiosk, c.operator) = reason;
    c.waiting[0] = plant.site.entries[0].mask & 1;
    plant
}

fn with_counts(mut plant: Plant, counts: (u16, u16)) -> Plant {
    let c = &mut plant.crossings[0];
    (c.countdown, c.out) = counts;
    plant
}

/// M and the ticks left around their bounds in every phase, most of them spoilt; and both at every
/// crossing past n.
pub fn every_left() -> impl Iterator<Item = Plant> {
    let plants = with_pauses(&[0, 3, 256, 540, 541, 1, 255, 539, 796, 65535]);
    let used = vary(plants, |plant| {
        let m = plant.site.entries[0].pause;
        let around = [m.wrapping_sub(1), m, m.wrapping_add(1), m.wrapping_add(256)];
        let fixed = [0, 1, 2, 255, 256, 257, 540, 541, 65535];
        let lefts = around.into_iter().chain(fixed);
        lefts.map(|left| with_left(plant, left)).collect()
    });
    let open = |plant: &Plant| plant.crossings[0].phase == phase::OPEN;
    let past = phases().into_iter().filter(open).flat_map(|plant| {
        let places = (1..8).flat_map(|i| [1, 255, 256, 540, 65535].map(|value| (i, value)));
        places.flat_map(move |(i, value)| {
            let (mut left, mut pause) = (plant, plant);
            left.crossings[i].left = value;
            pause.site.entries[i].pause = value;
            [left, pause]
        })
    });
    used.into_iter().chain(past)
}

/// Settings of one crossing of every kind with every M that is near its bounds or has no low or a
/// full low byte; and of every size with M 540 in the last entry.
pub fn every_pause() -> impl Iterator<Item = Site> {
    let bytes = (0..=255).flat_map(|high| [high << 8, high << 8 | 255]);
    let pauses = (0..=600).chain(bytes);
    let settings = pauses.flat_map(|pause| (1..=6).map(move |kind| (kind, pause)));
    let alone = settings.map(|(kind, pause)| of_size(1, kind, pause));
    alone.chain((1..=8).flat_map(|n| (1..=6).map(move |kind| of_size(n, kind, 540))))
}

/// `n` crossings of a kind, the last with this M.
fn of_size(n: u8, kind: u8, pause: u16) -> Site {
    let mut site = Site { n, ..Site::ZERO };
    let entries = &mut site.entries[..n.into()];
    entries.fill(Entry {
        kind,
        tracks: 2,
        mask: 0b10,
        pre: if kind == 6 { 15 } else { 180 },
        gap: if kind == 4 { 90 } else { 0 },
        pause: 0,
    });
    entries[usize::from(n) - 1].pause = pause;
    site
}
