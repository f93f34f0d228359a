//! The ranges of the settings and of everything the plant holds.

use super::types::{boom, phase, Crossing, Entry, Plant, Site};
use std::ops::RangeInclusive;

const KINDS: RangeInclusive<u8> = 1..=6;
const MAX_PRE: u16 = 180;
/// 5 seconds before old booms go down (document 02, T-09).
const OLD_PRE: u16 = 15;
const MAX_GAP: u16 = 90;
const MAX_PAUSE: u16 = 540;
const MAX_COUNTDOWN: u16 = 270;
const MAX_OUT: u16 = 1080;
const MAX_TRAINS: u16 = 255;

/// Every setting inside its range.
fn entry_in_range(entry: &Entry) -> bool {
    let pre = match entry.has_old_booms() {
        true => entry.pre == OLD_PRE,
        false => (1..=MAX_PRE).contains(&entry.pre),
    };
    let gap = match entry.has_left_booms() {
        true => (1..=MAX_GAP).contains(&entry.gap),
        false => entry.gap == 0,
    };
    KINDS.contains(&entry.kind)
        && (1..=4).contains(&entry.tracks)
        && entry.mask >> entry.tracks == 0
        && pre
        && gap
        && entry.pause <= MAX_PAUSE
}

/// Between 1 and 8 crossings.
pub fn has_count(site: &Site) -> bool {
    (1..=8).contains(&site.n)
}

/// With a good count: the first n entries in range, the others zero.
pub fn entries_in_range(site: &Site) -> bool {
    let (used, past) = site.entries.split_at(site.n.into());
    used.iter().all(entry_in_range) && past.iter().all(|entry| *entry == Entry::ZERO)
}

fn track_in_range(record: &Crossing, entry: &Entry, t: usize) -> bool {
    let trains = u16::from(record.calling[t]) + u16::from(record.waiting[t]);
    let free = record.calling[t] == 0 && record.occupied[t] == 0 && record.unsure[t] == 0;
    let plain = record.waiting[t] == 0 && record.route[t] == 0;
    trains <= MAX_TRAINS && (t < entry.tracks.into() || free) && (entry.depends(t) || plain)
}

/// Position lost is the last report (document 02, T-02).
fn booms_in_range(record: &Crossing, entry: &Entry) -> bool {
    let (used, past) = record.booms.split_at(entry.booms().into());
    used.iter().all(|b| *b <= boom::LOST) && past.iter().all(|b| *b == 0)
}

fn phase_in_range(record: &Crossing, entry: &Entry) -> bool {
    match record.phase {
        phase::OPEN | phase::ALL_DOWN => record.timer == 0,
        phase::WARNING => (1..=entry.pre).contains(&record.timer),
        phase::RIGHT_DOWN => entry.has_left_booms() && (1..=entry.gap).contains(&record.timer),
        phase::RAISING => entry.has_booms() && record.timer == 0,
        _ => false,
    }
}

/// Ticks are left to motorists in phase 0 alone (document 02, T-06).
fn left_in_range(record: &Crossing, entry: &Entry) -> bool {
    match record.phase {
        phase::OPEN => record.left <= entry.pause,
        _ => record.left == 0,
    }
}

/// The lamps of booms are 0 where they do not report (document 02, T-09).
fn boom_lamps_in_range(record: &Crossing, entry: &Entry) -> bool {
    entry.has_old_booms() || record.lamps[5..] == [0; 2]
}

/// Every flag 0 or 1.
fn flags_in_range(record: &Crossing) -> bool {
    let are = |flags: &[u8]| flags.iter().all(|flag| *flag <= 1);
    are(&record.route)
        && are(&record.occupied)
        && are(&record.unsure)
        && are(&record.lamps)
        && are(&[record.kiosk, record.operator])
}

fn record_in_range(record: &Crossing, entry: &Entry) -> bool {
    record.countdown <= MAX_COUNTDOWN
        && record.out <= MAX_OUT
        && flags_in_range(record)
        && boom_lamps_in_range(record, entry)
        && phase_in_range(record, entry)
        && left_in_range(record, entry)
        && booms_in_range(record, entry)
        && (0..4).all(|t| track_in_range(record, entry, t))
}

/// Every held number, settings included, inside its range.
pub fn in_range(plant: &Plant) -> bool {
    if !has_count(&plant.site) || !entries_in_range(&plant.site) || plant.beat > 3 {
        return false;
    }
    let (used, past) = plant.crossings.split_at(plant.site.n.into());
    used.iter()
        .zip(&plant.site.entries)
        .all(|(record, entry)| record_in_range(record, entry))
        && past.iter().all(|record| *record == Crossing::ZERO)
}
