//! What the lights of a crossing show, and in which beats; also under the sheet of 1959 (document
//! 02, T-09).

use super::crossing::{booms_up, is_normal, is_secured};
use super::types::{phase, Crossing, Entry};

/// The bits of the lit ones.
const ROAD: u8 = 1;
const BOOM_LAMPS: u8 = 2;
const TRAIN: u8 = 4;
const DISTANT: u8 = 8;

const PASSABLE: u8 = 2;
const AMBER: u8 = 3;

/// Where the crossing stands, and its aspects of road, train signal and distant signal; whether
/// boom lamps are on.
pub struct Lights {
    pub normal: bool,
    pub secured: bool,
    pub road: u8,
    pub boom_lamps: bool,
    pub train: u8,
    pub distant: u8,
}

/// The shown aspect, or 0 where its lamp is dead.
fn aspect(whole: u8, shown: u8) -> u8 {
    if whole != 0 {
        shown
    } else {
        0
    }
}

/// Under the sheet of 1959 dark in normal position.
fn road(record: &Crossing, entry: &Entry, normal: bool) -> u8 {
    match normal {
        true if entry.is_old() => 0,
        true => aspect(record.lamps[0], 1),
        false => aspect(record.lamps[1], 2),
    }
}

fn train(record: &Crossing, entry: &Entry, secured: bool) -> u8 {
    match secured {
        _ if entry.is_old() => old_train(record, entry, secured),
        true => aspect(record.lamps[3], PASSABLE),
        false => aspect(record.lamps[2], 1),
    }
}

/// White while the road has its red, with booms only when secured; otherwise amber, which is for
/// booms alone.
fn old_train(record: &Crossing, entry: &Entry, secured: bool) -> u8 {
    let closing = matches!(record.phase, phase::WARNING | phase::ALL_DOWN);
    let closed = match entry.has_booms() {
        true => secured,
        false => closing && record.lamps[1] != 0,
    };
    match closed && record.lamps[3] != 0 {
        true => PASSABLE,
        false if entry.has_booms() => aspect(record.lamps[2], AMBER),
        false => 0,
    }
}

fn boom_lamps(record: &Crossing, entry: &Entry, normal: bool) -> bool {
    match entry.has_old_booms() {
        true => !booms_up(record),
        false => !normal && entry.has_booms(),
    }
}

/// Under the sheet of 1959 as the train signal.
fn distant(entry: &Entry, train: u8) -> u8 {
    match train {
        _ if entry.is_old() => train,
        PASSABLE => 2,
        _ => 1,
    }
}

impl Lights {
    pub fn of(record: &Crossing, entry: &Entry) -> Lights {
        let normal = is_normal(record);
        let secured = is_secured(record, entry);
        let train = train(record, entry, secured);
        Lights {
            normal,
            secured,
            road: road(record, entry, normal),
            boom_lamps: boom_lamps(record, entry, normal),
            train,
            distant: distant(entry, train),
        }
    }

    /// Those lit in this beat: slow in normal position, fast out of it, steady with the flasher
    /// dead. Amber and old boom lamps are always steady. A dark one is not lit.
    pub fn lit(&self, record: &Crossing, entry: &Entry, beat: u8) -> u8 {
        let flash = match self.normal {
            true => beat == 0,
            false => beat == 0 || beat == 2,
        };
        let flash = flash || record.lamps[4] == 0;
        let train = flash || self.train == AMBER;
        let distant = if entry.is_old() { train } else { flash };
        let bit = |lit: bool, bit: u8| if lit { bit } else { 0 };
        bit(self.road != 0 && flash, ROAD)
            | bit(self.boom_lamps && (flash || entry.is_old()), BOOM_LAMPS)
            | bit(self.train != 0 && train, TRAIN)
            | bit(self.distant != 0 && distant, DISTANT)
    }
}
