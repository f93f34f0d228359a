//! One crossing: what follows from its record, and how it settles.

use super::types::{boom, phase, Crossing, Entry};

const LONGEST_OUT: u16 = 1080;
/// Ticks out of normal that are too many under the sheet of 1959 (document 02, T-09).
const OVERDUE: u16 = 1079;

/// A hold is on.
#[inline]
pub fn is_held(record: &Crossing) -> bool {
    record.kiosk | record.operator != 0
}

/// Some track is calling or unsure (document 02, T-01), or a hold is on.
#[inline]
pub fn has_reason(record: &Crossing) -> bool {
    record.calling != [0; 4] || record.unsure != [0; 4] || is_held(record)
}

/// Booms that the crossing lacks are held as up.
#[inline]
pub fn booms_up(record: &Crossing) -> bool {
    record.booms == [boom::UP; 4]
}

/// Open, with every boom last reported up.
#[inline]
pub fn is_normal(record: &Crossing) -> bool {
    record.phase == phase::OPEN && booms_up(record)
}

/// Every boom of this kind last reported down; also true where there is none.
pub fn booms_down(record: &Crossing, entry: &Entry) -> bool {
    let booms = &record.booms[..entry.booms().into()];
    booms.iter().all(|b| *b == boom::DOWN)
}

/// The lamps of old booms whole; also true where there are none (document 02, T-09).
fn boom_lamps_whole(record: &Crossing, entry: &Entry) -> bool {
    !entry.has_old_booms() || record.lamps[5] != 0 && record.lamps[6] != 0
}

/// All ordered down, road red and boom lamps whole, every boom down; of half booms every one
/// moving or down (document 02, T-02).
pub fn is_secured(record: &Crossing, entry: &Entry) -> bool {
    let half_closed = |b: &u8| matches!(*b, boom::MOVING | boom::DOWN);
    let closed = match entry.has_half_booms() {
        true => record.booms[..2].iter().all(half_closed),
        false => booms_down(record, entry),
    };
    let whole = record.lamps[1] != 0 && boom_lamps_whole(record, entry);
    record.phase == phase::ALL_DOWN && whole && closed
}

#[inline]
fn go(record: &mut Crossing, phase: u8, timer: u16) {
    record.phase = phase;
    record.timer = timer;
}

/// Opens after a closure: the time for motorists begins (document 02, T-06).
#[inline]
fn open(record: &mut Crossing, entry: &Entry) {
    go(record, phase::OPEN, 0);
    record.left = entry.pause;
}

/// Under the sheet of 1959: closed for too long, with no hold on and no approach occupied. A route
/// does not count (document 02, T-09).
#[inline]
fn is_overdue(record: &Crossing, entry: &Entry) -> bool {
    entry.is_old() && record.out >= OVERDUE && !is_held(record) && record.occupied == [0; 4]
}

/// Lowers a running countdown, and ends it where the crossing is overdue; gives the trains
/// written off.
#[inline]
pub fn count_down(record: &mut Crossing, entry: &Entry) -> u32 {
    if is_overdue(record, entry) {
        record.countdown = 0;
        return release(record);
    }
    if record.countdown == 0 {
        return 0;
    }
    record.countdown -= 1;
    match record.countdown {
        0 => release(record),
        _ => 0,
    }
}

/// A completed release clears all trains and gives their number. No track is unsure any more,
/// which writes nothing off (document 02, T-01).
fn release(record: &mut Crossing) -> u32 {
    let trains = record.calling.iter().chain(&record.waiting);
    let written_off = trains.map(|t| u32::from(*t)).sum();
    record.calling = [0; 4];
    record.waiting = [0; 4];
    record.unsure = [0; 4];
    written_off
}

/// Lowers a running timer; at its end the next booms are ordered down.
#[inline]
pub fn run_timer(record: &mut Crossing, entry: &Entry) {
    if record.timer == 0 {
        return;
    }
    record.timer -= 1;
    if record.timer == 0 {
        if record.phase == phase::WARNING && entry.has_left_booms() {
            go(record, phase::RIGHT_DOWN, entry.gap);
        } else {
            go(record, phase::ALL_DOWN, 0);
        }
    }
}

/// Lowers the ticks left to motorists (document 02, T-06).
#[inline]
pub fn run_pause(record: &mut Crossing) {
    record.left = record.left.saturating_sub(1);
}

/// One step by the phase on entry. Raising waits on a lost boom (document 02, T-02), and a warning
/// on the ticks left to motorists (document 02, T-06).
#[inline]
pub fn settle(record: &mut Crossing, entry: &Entry) {
    let reason = has_reason(record);
    match record.phase {
        phase::OPEN if reason && record.left == 0 => go(record, phase::WARNING, entry.pre),
        phase::WARNING if !reason => go(record, phase::OPEN, 0),
        phase::RIGHT_DOWN | phase::ALL_DOWN if !reason => match entry.has_booms() {
            true => go(record, phase::RAISING, 0),
            false => open(record, entry),
        },
        phase::RAISING if booms_up(record) => match reason && entry.pause == 0 {
            true => go(record, phase::WARNING, entry.pre),
            false => open(record, entry),
        },
        _ => {}
    }
}

/// After settling: normal position ends the count out of normal, a tick adds to it.
#[inline]
pub fn count_out(record: &mut Crossing, tick: bool) {
    if is_normal(record) {
        record.out = 0;
    } else if tick && record.out < LONGEST_OUT {
        record.out += 1;
    }
}
