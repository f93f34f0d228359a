//! Previews (document 02, T-03): lent panels, and grids of plants, events and their lengths.

use crate::events::event_grid;
use crate::rng::Rng;
use crate::spoilt::{spoilt_plant, Spoil};
use crate::swept::swept_grid;
use engine::{boom, code, panel_len, phase, Entry, Plant, Site};

/// A plant, an event and how many bytes are lent.
pub type Look = (Plant, [u8; 4], usize);

/// All grids in turn.
pub fn preview_grid() -> impl Iterator<Item = Look> {
    let right = |(plant, e): (Plant, [u8; 4])| (plant, e, panel_len(plant.site.n));
    let table = [busy(4, 255), restless(4)].into_iter();
    let table = table.flat_map(|plant| event_grid().into_iter().map(move |e| (plant, e)));
    let right = table.chain(swept_grid()).map(right);
    right
        .chain(codes())
        .chain(numbers())
        .chain(lengths())
        .chain(spoilt())
}

/// Kinds in turn, track 0 plain, track 1 dependent, F 2, for kind 6 15, and for kind 4 G 1.
pub(crate) fn fresh(n: u8) -> Plant {
    let mut site = Site { n, ..Site::ZERO };
    for (i, entry) in (0..n).zip(&mut site.entries) {
        let kind = 1 + i % 6;
        *entry = Entry {
            kind,
            tracks: 2,
            mask: 0b10,
            pre: if kind == 6 { 15 } else { 2 },
            gap: u16::from(kind == 4),
            pause: 0,
        };
    }
    Plant::fresh(&site)
}

/// Trains that call on track 0 of every crossing, for whose release one tick is left, and an
/// occupied approach, which refuses another release.
pub(crate) fn busy(n: u8, trains: u8) -> Plant {
    let mut plant = fresh(n);
    plant.beat = n % 4;
    for c in &mut plant.crossings[..n.into()] {
        c.calling[0] = trains;
        c.occupied[1] = 1;
        c.countdown = 1;
        c.phase = phase::ALL_DOWN;
    }
    plant
}

/// Every crossing without a reason to stay closed: it moves as soon as it settles.
pub(crate) fn restless(n: u8) -> Plant {
    let mut plant = fresh(n);
    for (c, entry) in plant.crossings.iter_mut().zip(&plant.site.entries) {
        c.phase = match (entry.kind, entry.has_booms()) {
            (0, _) => phase::OPEN,
            (_, false) => phase::ALL_DOWN,
            (_, true) => phase::RAISING,
        };
    }
    plant
}

pub(crate) fn plants(n: u8) -> [Plant; 4] {
    [fresh(n), busy(n, 255), busy(n, 1), restless(n)]
}

/// The right length and wrong ones; one of them is the right one as a single byte counts.
pub(crate) fn frames(n: u8) -> [usize; 8] {
    let right = panel_len(n);
    let [fewer, half] = [right.saturating_sub(1), right / 2];
    [right, 0, 1, fewer, right + 1, right + 16, half, right + 256]
}

/// A lent panel for `n` crossings, once in four of a wrong length, filled with any bytes.
pub fn preview_frame(rng: &mut Rng, n: u8) -> Vec<u8> {
    let len = match rng.below(8) {
        0 => rng.pick(&frames(n)),
        1 => rng.below(160) as usize,
        _ => panel_len(n),
    };
    (0..len).map(|_| rng.byte()).collect()
}

fn with_frames(plant: Plant, e: [u8; 4]) -> impl Iterator<Item = Look> {
    frames(plant.site.n)
        .into_iter()
        .map(move |len| (plant, e, len))
}

/// Every code on every one of those plants, at three sizes.
fn codes() -> impl Iterator<Item = Look> {
    let plants = [1, 4, 8].into_iter().flat_map(plants);
    let codes = plants.flat_map(|plant| (0..=255).map(move |code| (plant, [code, 0, 0, 0])));
    codes.flat_map(|(plant, e)| with_frames(plant, e))
}

/// Every code, and every number of a refusal, at crossing `c` of `n`.
pub(crate) fn events(n: u8, c: u8) -> [[u8; 4]; 21] {
    [
        [code::TICK, 0, 0, 0],
        [code::TICK, 1, 0, 0],
        [code::TICK, 0, 1, 0],
        [code::TICK, 0, 0, 1],
        [code::STRIKE_IN, c, 0, 0],
        [code::STRIKE_IN, c, 0, 1],
        [code::STRIKE_IN, c, 1, 0],
        [code::STRIKE_IN, c, 2, 0],
        [code::STRIKE_IN, n, 0, 0],
        [code::PASSAGE, c, 0, 0],
        [code::PASSAGE, c, 1, 0],
        [code::KIOSK_HOLD, c, 0, 1],
        [code::OPERATOR_HOLD, c, 0, 0],
        [code::OPERATOR_HOLD, c, 0, 1],
        [code::ROUTE, c, 0, 1],
        [code::ROUTE, c, 1, 1],
        [code::APPROACH, c, 0, 1],
        [code::TIME_RELEASE, c, 0, 0],
        [code::BOOM_REPORT, c, 1, boom::DOWN],
        [code::LAMP_REPORT, c, 1, 0],
        [code::LAMP_REPORT + 1, c, 0, 0],
    ]
}

/// Those events at every crossing of every size, the plant in range and its beat spoilt.
fn numbers() -> impl Iterator<Item = Look> {
    let crossings = (1..=8).flat_map(|n| (0..n).map(move |c| (n, c)));
    crossings.flat_map(|(n, c)| {
        let plants = plants(n).into_iter().flat_map(with_beats);
        let events = plants.flat_map(move |plant| events(n, c).map(|e| (plant, e)));
        events.flat_map(|(plant, e)| with_frames(plant, e))
    })
}

pub(crate) fn with_beats(plant: Plant) -> [Plant; 2] {
    [plant, Plant { beat: 4, ..plant }]
}

/// Every length up to a byte more than the panel of nine crossings, and ones that are right as
/// one byte and as two bytes count, at every size.
fn lengths() -> impl Iterator<Item = Look> {
    let plants = (1..=8).map(|n| busy(n, 255)).flat_map(with_beats);
    plants.flat_map(|plant| {
        let right = panel_len(plant.site.n);
        let lengths = (0..=panel_len(9) + 1).chain([right + (1 << 8), right + (1 << 16)]);
        let events = [[0; 4], [1, 0, 0, 0], [4, 0, 0, 0], [255; 4]];
        lengths.flat_map(move |len| events.map(|e| (plant, e, len)))
    })
}

/// Every field spoilt alone, in four plants each.
fn spoilt() -> impl Iterator<Item = Look> {
    let mut rng = Rng::new(3);
    let spoils = Spoil::ALL.iter().flat_map(|spoil| [*spoil; 4]);
    let plants = spoils.map(move |spoil| spoilt_plant(&mut rng, spoil));
    let events = plants.flat_map(|plant| [[0; 4], [1, 0, 0, 0], [255; 4]].map(|e| (plant, e)));
    events.flat_map(|(plant, e)| with_frames(plant, e))
}
