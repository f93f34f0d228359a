//! Swept counters (document 02, T-01): plants with a track full, nearly full or unsure, and
//! events for them.

use crate::events::event_at;
use crate::plants::{crossing, plant};
use crate::rng::Rng;
use engine::{boom, code, phase, Crossing, Entry, Plant, Site};

/// A plant in range with a swept crossing, and the number of that crossing.
pub fn swept_plant(rng: &mut Rng) -> (Plant, u8) {
    let mut plant = plant(rng);
    let c = rng.below(plant.site.n.into()) as u8;
    let i = usize::from(c);
    plant.crossings[i] = swept_crossing(rng, &plant.site.entries[i]);
    (plant, c)
}

/// An event at a swept crossing, often a strike-in on its fullest track or a tick.
pub fn swept_event(rng: &mut Rng, plant: &Plant, c: u8) -> [u8; 4] {
    match rng.below(4) {
        0 => [code::STRIKE_IN, c, fullest(plant, c), 0],
        1 => [code::TICK, 0, 0, 0],
        _ => event_at(rng, plant, c),
    }
}

/// The track with most trains.
pub(crate) fn fullest(plant: &Plant, c: u8) -> u8 {
    let record = &plant.crossings[usize::from(c)];
    let tracks = 0..plant.site.entries[usize::from(c)].tracks;
    let fullest = tracks.max_by_key(|t| trains(record, (*t).into()));
    fullest.unwrap_or(0)
}

/// The trains on one track.
pub(crate) fn trains(record: &Crossing, t: usize) -> u16 {
    u16::from(record.calling[t]) + u16::from(record.waiting[t])
}

/// One track full, nearly full or almost empty; the others as they come, or quiet.
fn swept_crossing(rng: &mut Rng, entry: &Entry) -> Crossing {
    let mut c = crossing(rng, entry);
    if rng.flag() {
        c.calling = [0; 4];
        c.waiting = [0; 4];
        c.route = [0; 4];
        c.occupied = [0; 4];
        c.unsure = [0; 4];
        (c.kiosk, c.operator) = (0, 0);
    }
    let t = rng.below(entry.tracks.into()) as usize;
    let trains = rng.pick(&[255, 255, 255, 254, 253, 1, 0]);
    let waiting = match rng.below(3) {
        0 => 0,
        1 => trains,
        _ => rng.within(0..=trains.into()) as u8,
    };
    c.waiting[t] = if entry.depends(t) { waiting } else { 0 };
    c.calling[t] = trains - c.waiting[t];
    c.unsure[t] = rng.flag().into();
    if rng.once_in(3) {
        c.countdown = 1;
    }
    c
}

/// Route set, calling and waiting on track 0 of a grid plant: plain, dependent without a route,
/// dependent with it.
const PLAIN: [(u8, u8, u8); 3] = [(0, 255, 0), (0, 254, 0), (0, 0, 0)];
const NO_ROUTE: [(u8, u8, u8); 4] = [(0, 0, 255), (0, 200, 55), (0, 0, 254), (0, 0, 0)];
const ROUTE: [(u8, u8, u8); 3] = [(1, 255, 0), (1, 254, 0), (1, 0, 0)];
/// Countdown, kiosk hold and operator hold.
const HELD: [(u16, u8, u8); 5] = [(0, 0, 0), (1, 0, 0), (5, 0, 0), (0, 1, 0), (0, 0, 1)];
/// The flags of both tracks.
const UNSURE: [[u8; 4]; 3] = [[0; 4], [1, 0, 0, 0], [1, 1, 0, 0]];
const EVENTS: [[u8; 4]; 12] = [
    [code::TICK, 0, 0, 0],
    [code::STRIKE_IN, 0, 0, 0],
    [code::STRIKE_IN, 0, 1, 0],
    [code::PASSAGE, 0, 0, 0],
    [code::KIOSK_HOLD, 0, 0, 0],
    [code::KIOSK_HOLD, 0, 0, 1],
    [code::OPERATOR_HOLD, 0, 0, 0],
    [code::OPERATOR_HOLD, 0, 0, 1],
    [code::ROUTE, 0, 0, 0],
    [code::ROUTE, 0, 0, 1],
    [code::TIME_RELEASE, 0, 0, 0],
    [code::BOOM_REPORT, 0, 0, boom::DOWN],
];

/// Each of the events on plants of one crossing and two tracks, track 0 plain or dependent, of
/// every kind in every phase, at the bounds of the trains and the countdown.
pub fn swept_grid() -> Vec<(Plant, [u8; 4])> {
    let mut plants = phases();
    plants = vary(plants, |plant| match plant.site.entries[0].mask {
        0 => PLAIN.map(|track| with_track(plant, track)).into(),
        _ => {
            let tracks = NO_ROUTE.into_iter().chain(ROUTE);
            tracks.map(|track| with_track(plant, track)).collect()
        }
    });
    plants = vary(plants, |plant| {
        HELD.map(|held| with_held(plant, held)).into()
    });
    plants = vary(plants, |plant| {
        UNSURE.map(|flags| with_unsure(plant, flags)).into()
    });
    let each = |plant| EVENTS.map(|event| (plant, event));
    plants.into_iter().flat_map(each).collect()
}

pub(crate) fn vary(plants: Vec<Plant>, ways: impl FnMut(Plant) -> Vec<Plant>) -> Vec<Plant> {
    plants.into_iter().flat_map(ways).collect()
}

fn with_track(mut plant: Plant, track: (u8, u8, u8)) -> Plant {
    let c = &mut plant.crossings[0];
    (c.route[0], c.calling[0], c.waiting[0]) = track;
    plant
}

fn with_held(mut plant: Plant, held: (u16, u8, u8)) -> Plant {
    let c = &mut plant.crossings[0];
    (c.countdown, c.kiosk, c.operator) = held;
    plant
}

fn with_unsure(mut plant: Plant, flags: [u8; 4]) -> Plant {
    plant.crossings[0].unsure = flags;
    plant
}

/// The phases of every kind, with track 0 plain and dependent; F is 2, of kind 6 15, and G is 1.
pub(crate) fn phases() -> Vec<Plant> {
    let mut plants = Vec::new();
    for (kind, mask) in (1..=6).flat_map(|kind| [(kind, 0), (kind, 1)]) {
        let mut site = Site { n: 1, ..Site::ZERO };
        site.entries[0] = Entry {
            kind,
            tracks: 2,
            mask,
            pre: if kind == 6 { 15 } else { 2 },
            gap: u16::from(kind == 4),
            pause: 0,
        };
        for phase in 0..5 {
            let mut plant = Plant::fresh(&site);
            plant.crossings[0].phase = phase;
            let timed = phase == phase::WARNING || phase == phase::RIGHT_DOWN;
            plant.crossings[0].timer = timed.into();
            if engine::in_range(&plant) {
                plants.push(plant);
            }
        }
    }
    plants
}
