//! Single events for a plant: known ones, and ones with junk in a field.

use crate::plants::report;
use crate::rng::Rng;
use engine::{code, Entry, Plant};

/// An event of the table, but for a lamp; it may still be refused by the state of the crossing.
pub fn event(rng: &mut Rng, plant: &Plant) -> [u8; 4] {
    let n = u32::from(plant.site.n.clamp(1, 8));
    let crossing = rng.below(n) as u8;
    event_at(rng, plant, crossing)
}

/// An event of the table at this crossing, or a tick.
pub(crate) fn event_at(rng: &mut Rng, plant: &Plant, crossing: u8) -> [u8; 4] {
    let entry = &plant.site.entries[usize::from(crossing)];
    let track = rng.below(entry.tracks.into()) as u8;
    let on = rng.below(2) as u8;
    let code = rng.below(10) as u8;
    match code {
        code::STRIKE_IN | code::PASSAGE => [code, crossing, track, 0],
        code::KIOSK_HOLD | code::OPERATOR_HOLD => [code, crossing, 0, on],
        code::ROUTE | code::APPROACH => [code, crossing, track, on],
        code::TIME_RELEASE => [code, crossing, 0, 0],
        code::BOOM_REPORT => {
            let boom = rng.below(entry.booms().into()) as u8;
            [code, crossing, boom, report(rng)]
        }
        code::LAMP_REPORT => [code, crossing, lamp(rng, plant, crossing), on],
        _ => [code::TICK, 0, 0, 0],
    }
}

/// A lamp of the crossing. Where some crossing is under the sheet of 1959, by numbers aside also
/// that of a boom, now and then of a crossing without it (document 02, T-09).
pub(crate) fn lamp(rng: &mut Rng, plant: &Plant, crossing: u8) -> u8 {
    let mut aside = rng.aside();
    let lamp = rng.below(5) as u8;
    let entries = &plant.site.entries;
    let often = match entries[usize::from(crossing)].has_old_booms() {
        true => 3,
        false => 12,
    };
    match entries.iter().any(Entry::is_old) && aside.once_in(often) {
        true => aside.within(5..=6) as u8,
        false => lamp,
    }
}

/// An event with junk in one field, in several, or in all.
pub fn junk_event(rng: &mut Rng, plant: &Plant) -> [u8; 4] {
    let mut e = event(rng, plant);
    if rng.once_in(4) {
        return std::array::from_fn(|_| rng.byte());
    }
    for _ in 0..rng.within(1..=2) {
        let field = rng.below(4) as usize;
        e[field] = match rng.below(3) {
            0 => rng.byte(),
            1 => rng.below(12) as u8,
            _ => e[field].wrapping_add(1),
        };
    }
    e
}

/// Every code, crossing, place and value around their bounds.
pub fn event_grid() -> Vec<[u8; 4]> {
    let upto = |last: u8| (0..=last).chain([128, 255]);
    let mut events = Vec::new();
    for code in upto(11) {
        for crossing in upto(8) {
            for place in upto(5) {
                events.extend(upto(4).map(|value| [code, crossing, place, value]));
            }
        }
    }
    events
}
