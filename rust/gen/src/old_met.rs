//! Counters of what was met under the sheet of 1959 (document 02, T-09).

use crate::books::book_entries;
use crate::coverage::{sums, KINDS};
use crate::old_shown::{half_booms, lights_only, SHOWN_5, SHOWN_6};
use engine::crossing::is_held;
use engine::{number, phase, Crossing, Entry, Plant, Site};

/// Ticks out of normal that a release under that sheet asks for, and the most that are counted.
const OVERDUE: u16 = 1079;
const MOST: u16 = 1080;

/// What a tick can show: its name in the table, its kinds, and whether it does, by the record
/// before and after.
type Tick = (
    &'static str,
    &'static [usize],
    fn(&Crossing, &Crossing) -> bool,
);

const OLD: &[usize] = &[5, 6];
const ALL: &[usize] = &[1, 2, 3, 4, 5, 6];

/// Out of normal for too long, with something to be released.
fn is_due(before: &Crossing) -> bool {
    before.out >= OVERDUE && has_trains(before)
}

fn has_trains(c: &Crossing) -> bool {
    (c.calling, c.waiting, c.unsure) != ([0; 4], [0; 4], [0; 4])
}

fn is_free(c: &Crossing) -> bool {
    !is_held(c) && c.occupied == [0; 4]
}

/// Ended by that tick.
fn ends(before: &Crossing, after: &Crossing) -> bool {
    is_due(before) && !has_trains(after) && after.countdown == 0
}

/// Not ended, though it is due and nothing but this is in the way.
fn kept(before: &Crossing, after: &Crossing, without: Crossing) -> bool {
    is_due(before) && has_trains(after) && !is_free(before) && is_free(&without)
}

pub(crate) const TICKS: [Tick; 20] = [
    ("1078", OLD, |b, a| {
        b.out == 1078 && is_free(b) && has_trains(b) && has_trains(a)
    }),
    ("1079", OLD, |b, a| b.out == 1079 && ends(b, a)),
    ("1080", OLD, |b, a| b.out == 1080 && ends(b, a)),
    ("calling", OLD, |b, a| ends(b, a) && b.calling != [0; 4]),
    ("waiting", OLD, |b, a| ends(b, a) && b.waiting != [0; 4]),
    ("marks", OLD, |b, a| ends(b, a) && b.unsure != [0; 4]),
    ("marks alone", OLD, |b, a| {
        ends(b, a) && (b.calling, b.waiting) == ([0; 4], [0; 4])
    }),
    ("route", OLD, |b, a| ends(b, a) && b.route != [0; 4]),
    ("countdown", OLD, |b, a| ends(b, a) && b.countdown > 1),
    ("countdown ends", OLD, |b, a| ends(b, a) && b.countdown == 1),
    ("in warning", OLD, |b, a| {
        ends(b, a) && b.phase == phase::WARNING
    }),
    ("closed", OLD, |b, a| {
        ends(b, a) && b.phase == phase::ALL_DOWN
    }),
    ("raising", &[6], |b, a| {
        ends(b, a) && b.phase == phase::RAISING
    }),
    ("M begins", &[5], |b, a| ends(b, a) && a.left > b.left),
    ("kiosk", OLD, |b, a| kept(b, a, Crossing { kiosk: 0, ..*b })),
    ("operator", OLD, |b, a| {
        kept(b, a, Crossing { operator: 0, ..*b })
    }),
    ("approach", OLD, |b, a| kept(b, a, with_free_approaches(b))),
    ("no release", &[1, 2, 3, 4], |b, a| {
        is_due(b) && is_free(b) && b.countdown != 1 && has_trains(a)
    }),
    ("902", ALL, |b, a| (b.out, a.out) == (901, 902)),
    ("1080 stays", ALL, |b, a| (b.out, a.out) == (MOST, MOST)),
];

fn with_free_approaches(c: &Crossing) -> Crossing {
    Crossing {
        occupied: [0; 4],
        ..*c
    }
}

fn count_all(counts: &mut [u64], met: &[bool]) {
    let counts = counts.iter_mut().zip(met);
    counts.for_each(|(count, met)| *count += u64::from(*met));
}

/// The lights whose rhythm is that sheet's: amber, boom lamps; white at kind 6 and at kind 5.
pub(crate) const LIGHTS: [&str; 4] = ["amber", "boom lamps", "white 6", "white 5"];
pub(crate) const FLASHERS: [&str; 2] = ["dead", "whole"];

/// Places of lamps that are counted, and what became of a report: dead, whole, unknown place.
pub(crate) const PLACES: [u8; 3] = [5, 6, 7];

/// What a call is handed: boom lamps by crossing, then ticks out of normal.
pub(crate) const HANDED: [&str; 9] = [
    "5 lacking",
    "6 lacking",
    "5 above 1",
    "6 above 1",
    "past n",
    "901",
    "902",
    "1080",
    "1081",
];

/// F of kind 6 in books that are read and written.
pub(crate) const PRES: [u16; 6] = [1, 14, 15, 16, 180, 271];

/// How often, by kind where there is no other word.
#[derive(Clone, Default)]
pub(crate) struct OldCounts {
    pub(crate) ticks: [[u64; KINDS]; TICKS.len()],
    /// At kind 5, and at kind 6.
    pub(crate) lights_only: [u64; SHOWN_5.len()],
    pub(crate) half_booms: [u64; SHOWN_6.len()],
    /// By light, flasher dead or whole, and beat.
    pub(crate) rhythms: [[[u64; 4]; 2]; LIGHTS.len()],
    pub(crate) reports: [[[u64; 3]; PLACES.len()]; KINDS],
    /// By call.
    pub(crate) handed: [[u64; HANDED.len()]; 6],
    /// Of a book read and of one written, with the number due: F of kind 6, and the kind alone.
    pub(crate) pres: [[u64; PRES.len()]; 2],
    pub(crate) kinds: [[u64; 9]; 2],
}

impl OldCounts {
    /// A tick at a crossing with these settings, its record before and after.
    pub(crate) fn tick(&mut self, entry: &Entry, before: &Crossing, after: &Crossing) {
        if before.out != 901 && before.out < OVERDUE - 1 {
            return;
        }
        let kind = usize::from(entry.kind);
        for (counts, (_, kinds, met)) in self.ticks.iter_mut().zip(TICKS) {
            let met = kinds.contains(&kind) && met(before, after);
            counts[kind] += u64::from(met);
        }
    }

    /// A report of a lamp with this answer.
    pub(crate) fn report(&mut self, plant: &Plant, [_, c, place, value]: [u8; 4], number: u8) {
        let Some(place) = PLACES.iter().position(|p| *p == place) else {
            return;
        };
        let entry = &plant.site.entries[usize::from(c.min(7))];
        let counts = &mut self.reports[usize::from(entry.kind) % KINDS][place];
        match number {
            number::TAKEN => counts[usize::from(value.min(1))] += 1,
            number::UNKNOWN_PLACE => counts[2] += 1,
            _ => {}
        }
    }

    /// A crossing on the panel.
    pub(crate) fn panel(&mut self, entry: &Entry, record: &Crossing, beat: u8, bytes: &[u8]) {
        if !entry.is_old() {
            return;
        }
        match entry.has_booms() {
            true => count_all(&mut self.half_booms, &half_booms(record, bytes)),
            false => count_all(&mut self.lights_only, &lights_only(record, bytes)),
        }
        let white = bytes[6] == 2;
        let lights = [
            bytes[6] == 3,
            bytes[3] == 1,
            white && entry.has_booms(),
            white && !entry.has_booms(),
        ];
        for (counts, _) in self.rhythms.iter_mut().zip(lights).filter(|(_, on)| *on) {
            counts[usize::from(record.lamps[4] != 0)][usize::from(beat)] += 1;
        }
    }

    /// A plant handed over.
    pub(crate) fn handed(&mut self, call: usize, plant: &Plant) {
        let records = plant.crossings.iter().zip(&plant.site.entries);
        for (i, (record, entry)) in records.enumerate() {
            if record.lamps[5..] == [0, 0] && record.out < 901 {
                continue;
            }
            let past = i >= usize::from(plant.site.n);
            let lamps = [5, 6].map(|lamp| lamp_class(past, entry, record, lamp));
            let out = match record.out {
                _ if past => None,
                901 | 902 => Some(usize::from(record.out) - 896),
                1080 | 1081 => Some(usize::from(record.out) - 1073),
                _ => None,
            };
            for class in lamps.into_iter().chain([out]).flatten() {
                self.handed[call][class] += 1;
            }
        }
    }

    /// A book read with this answer.
    pub(crate) fn read(&mut self, book: &[u8], number: u8) {
        self.settings(0, &book_entries(book), number);
    }

    /// Settings written with this answer.
    pub(crate) fn write(&mut self, site: &Site, number: u8) {
        self.settings(1, &site.entries[..site.n.min(8).into()], number);
    }

    /// F and kind, where the answer is what they ask for.
    fn settings(&mut self, call: usize, entries: &[Entry], number: u8) {
        for entry in entries {
            let known = (1..=6).contains(&entry.kind);
            let class = PRES.iter().position(|pre| *pre == entry.pre);
            let due = |right: bool| number == if right { 0 } else { number::WRONG_SETTING };
            if let (6, Some(class), true) = (entry.kind, class, due(entry.pre == 15)) {
                self.pres[call][class] += 1;
            }
            if let (kind @ 0..=8, true) = (usize::from(entry.kind), due(known)) {
                self.kinds[call][kind] += 1;
            }
        }
    }

    pub(crate) fn add(&mut self, other: &OldCounts) {
        sums(self.ticks.as_flattened_mut(), other.ticks.as_flattened());
        sums(&mut self.lights_only, &other.lights_only);
        sums(&mut self.half_booms, &other.half_booms);
        let rhythms = self.rhythms.as_flattened_mut().as_flattened_mut();
        sums(rhythms, other.rhythms.as_flattened().as_flattened());
        let reports = self.reports.as_flattened_mut().as_flattened_mut();
        sums(reports, other.reports.as_flattened().as_flattened());
        sums(self.handed.as_flattened_mut(), other.handed.as_flattened());
        sums(self.pres.as_flattened_mut(), other.pres.as_flattened());
        sums(self.kinds.as_flattened_mut(), other.kinds.as_flattened());
    }
}

/// The place among what calls are handed.
fn lamp_class(past: bool, entry: &Entry, record: &Crossing, lamp: usize) -> Option<usize> {
    match (record.lamps[lamp], entry.has_old_booms()) {
        (0, _) => None,
        _ if past => Some(4),
        (_, false) => Some(lamp - 5),
        (1, true) => None,
        (_, true) => Some(lamp - 3),
    }
}
