//! The panel: sixteen bytes per crossing.

use super::crossing::booms_down;
use super::lights::Lights;
use super::range::in_range;
use super::rights::Source;
use super::types::{number, phase, Crossing, Entry, Plant};

/// Panel bytes per crossing.
pub const PANEL: usize = 16;

const LONG_OUT: u16 = 900;

/// Bytes of the panel of `n` crossings.
pub fn panel_len(n: u8) -> usize {
    PANEL * usize::from(n)
}

/// Draws what a sender sees of the panel into a lent output of exactly the panel's length.
pub fn draw(plant: &Plant, sender: u8, panel: &mut [u8]) -> u8 {
    if !in_range(plant) {
        return number::SPOILT_PLANT;
    }
    let Some(source) = Source::sender(sender) else {
        return number::UNKNOWN_SENDER;
    };
    if panel.len() != panel_len(plant.site.n) {
        return number::WRONG_FRAME;
    }
    paint(plant, source, panel);
    number::TAKEN
}

/// Draws a plant known to be in range into a panel of the right length.
pub fn paint(plant: &Plant, source: Source, panel: &mut [u8]) {
    let records = plant.crossings.iter().zip(&plant.site.entries);
    for (bytes, (record, entry)) in panel.chunks_exact_mut(PANEL).zip(records) {
        let shown = panel_of(record, entry, plant.beat);
        for (i, byte) in bytes.iter_mut().enumerate() {
            *byte = if source.sees(i) { shown[i] } else { 0 };
        }
    }
}

fn total(trains: &[u8; 4]) -> [u8; 2] {
    let sum: u16 = trains.iter().map(|t| u16::from(*t)).sum();
    sum.to_le_bytes()
}

fn panel_of(record: &Crossing, entry: &Entry, beat: u8) -> [u8; PANEL] {
    let lights = Lights::of(record, entry);
    let (normal, secured) = (lights.normal, lights.secured);
    let has_booms = entry.has_booms();
    // With a lost boom not all are down: the bell sounds on (document 02, T-02).
    let bell = !normal && (!has_booms || !booms_down(record, entry));
    let right = has_booms && matches!(record.phase, phase::RIGHT_DOWN | phase::ALL_DOWN);
    let left = entry.has_left_booms() && record.phase == phase::ALL_DOWN;
    let long_out = record.out > LONG_OUT;
    let calling = total(&record.calling);
    let waiting = total(&record.waiting);
    [
        lights.road,
        lights.lit(record, entry, beat),
        bell.into(),
        lights.boom_lamps.into(),
        right.into(),
        left.into(),
        lights.train,
        lights.distant,
        if secured { released(record, entry) } else { 0 },
        u8::from(normal) | u8::from(secured) << 1 | u8::from(long_out) << 2,
        record.phase,
        record.kiosk | record.operator << 1,
        calling[0],
        calling[1],
        waiting[0],
        waiting[1],
    ]
}

/// The dependent tracks with their route set.
fn released(record: &Crossing, entry: &Entry) -> u8 {
    let tracks = (0..4).filter(|t| entry.depends(*t) && record.route[*t] != 0);
    tracks.map(|t| 1 << t).sum()
}
