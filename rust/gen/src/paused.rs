//! Counters of what was met of the time for motorists (document 02, T-06).

use crate::books::book_entries;
use crate::coverage::{sums, KINDS};
use engine::crossing::{booms_up, has_reason, is_held};
use engine::{book_len, code, number, phase, Crossing, Entry, Plant, Site};

/// What an event or a panel met.
#[derive(Clone, Copy)]
pub(crate) enum PauseMet {
    /// It begins with the end of raising, without a reason and with one.
    Raised,
    RaisedReason,
    /// It begins where lights only leave phase 3, and where warning and release end on one tick.
    Lights,
    BothEnds,
    /// It begins after more than 900 ticks out of normal.
    LongOut,
    /// With M, a warning is given up; without, raising goes on to the warning.
    GivenUp,
    ClosesAgain,
    /// The tick that ends it begins a warning, or none; another event begins it after that.
    Warning,
    Quiet,
    LateWarning,
    /// A release completed over a reason: ticks are left, or the last one went with it.
    Released,
    ReleasedLast,
    /// A tick goes with a boom that is not up.
    BoomAway,
    /// Normal position on the panel, with an unsure track, a train calling, a hold.
    Unsure,
    Calling,
    Held,
}

impl PauseMet {
    /// Each with its name in the table and its kinds.
    pub(crate) const ALL: [(PauseMet, &'static str, &'static [usize]); 16] = [
        (PauseMet::Raised, "begun", BOOMS),
        (PauseMet::RaisedReason, "begun, reason", BOOMS),
        (PauseMet::Lights, "begun", LIGHTS),
        (PauseMet::BothEnds, "begun, both ends", LIGHTS),
        (PauseMet::LongOut, "begun, 901 out", ALL),
        (PauseMet::GivenUp, "given up", ALL),
        (PauseMet::ClosesAgain, "M 0", BOOMS),
        (PauseMet::Warning, "warning", ALL),
        (PauseMet::Quiet, "no warning", ALL),
        (PauseMet::LateWarning, "late warning", ALL),
        (PauseMet::Released, "released", ALL),
        (PauseMet::ReleasedLast, "released last", ALL),
        (PauseMet::BoomAway, "boom away", BOOMS),
        (PauseMet::Unsure, "normal unsure", ALL),
        (PauseMet::Calling, "normal calling", ALL),
        (PauseMet::Held, "normal held", ALL),
    ];
}

/// Kinds: all, those with booms, those without.
const ALL: &[usize] = &[1, 2, 3, 4, 5, 6];
const BOOMS: &[usize] = &[2, 3, 4, 6];
const LIGHTS: &[usize] = &[1, 5];

/// What a call is handed: ticks left in phase 0, then out of place, then M.
pub(crate) const HANDED: [&str; 9] = [
    "1", "M", "M+1", "over", "M 0", "phase", "past n", "M 540", "M 541",
];

/// M in books that are read and written.
pub(crate) const BOOKS: [u16; 10] = [0, 1, 256, 512, 539, 540, 541, 768, 65280, 65535];

/// How often, by kind where there is no other word.
#[derive(Clone, Default)]
pub(crate) struct PauseCounts {
    met: [[u64; KINDS]; PauseMet::ALL.len()],
    /// Events with ticks left, taken by code and refused by number.
    pub(crate) codes: [[u64; 10]; KINDS],
    pub(crate) refused: [[u64; 16]; KINDS],
    /// By call.
    pub(crate) handed: [[u64; HANDED.len()]; 6],
    /// M of a book read and of one written, by its number: 0 or 3.
    pub(crate) books: [[[u64; BOOKS.len()]; KINDS]; 2],
    /// Books without M refused as torn, by n.
    pub(crate) old: [u64; 9],
}

impl PauseCounts {
    pub(crate) fn met(&self, met: PauseMet, kind: usize) -> u64 {
        self.met[met as usize][kind]
    }

    /// A taken event at a crossing with these settings, its record before and after.
    pub(crate) fn event(&mut self, entry: &Entry, e: [u8; 4], before: &Crossing, after: &Crossing) {
        let kind = usize::from(entry.kind);
        if before.left > 0 {
            self.codes[kind][usize::from(e[0])] += 1;
        }
        let tick = e[0] == code::TICK;
        let ways = [
            on_move(entry, tick, before, after),
            on_release(tick, before, after),
            on_tick(tick, before, after),
            on_long_out(before, after),
        ];
        for met in ways.into_iter().flatten() {
            self.met[met as usize][kind] += 1;
        }
    }

    /// An event refused with a number that depends on the crossing.
    pub(crate) fn refused(&mut self, plant: &Plant, crossing: u8, number: u8) {
        let mut records = plant.crossings.iter().zip(&plant.site.entries);
        let record = records.nth(crossing.into());
        let Some((_, entry)) = record.filter(|(record, _)| record.left > 0) else {
            return;
        };
        if let 10..=13 = number {
            self.refused[usize::from(entry.kind)][usize::from(number)] += 1;
        }
    }

    /// A crossing on the panel, in normal position or not.
    pub(crate) fn panel(&mut self, entry: &Entry, record: &Crossing, normal: bool) {
        if record.left == 0 || !normal {
            return;
        }
        let shown = [
            (PauseMet::Unsure, record.unsure != [0; 4]),
            (PauseMet::Calling, record.calling != [0; 4]),
            (PauseMet::Held, is_held(record)),
        ];
        for (met, _) in shown.into_iter().filter(|(_, shown)| *shown) {
            self.met[met as usize][usize::from(entry.kind)] += 1;
        }
    }

    /// A plant handed over.
    pub(crate) fn handed(&mut self, call: usize, plant: &Plant) {
        let records = plant.crossings.iter().zip(&plant.site.entries);
        for (i, (record, entry)) in records.enumerate() {
            let past = i >= usize::from(plant.site.n);
            let classes = [left_class(past, entry, record), pause_class(past, entry)];
            for class in classes.into_iter().flatten() {
                self.handed[call][class] += 1;
            }
        }
    }

    /// A book read with this answer.
    pub(crate) fn read(&mut self, book: &[u8], number: u8) {
        let Some(n @ 1..=8) = book.first() else {
            return;
        };
        let (len, n) = (book_len(*n), usize::from(*n));
        if (book.len(), number) == (len - 2 * n, number::TORN_BOOK) {
            self.old[n] += 1;
        }
        for entry in book_entries(book) {
            self.setting(0, entry.kind, entry.pause, number);
        }
    }

    /// Settings written with this answer.
    pub(crate) fn write(&mut self, site: &Site, number: u8) {
        for entry in site.entries.iter().take(site.n.into()) {
            self.setting(1, entry.kind, entry.pause, number);
        }
    }

    /// M of one crossing, where the answer is what it asks for.
    fn setting(&mut self, call: usize, kind: u8, pause: u16, number: u8) {
        let due = match pause {
            0..=540 => number::TAKEN,
            _ => number::WRONG_SETTING,
        };
        let class = BOOKS.iter().position(|m| *m == pause);
        if let (1..=6, Some(class), true) = (kind, class, number == due) {
            self.books[call][usize::from(kind)][class] += 1;
        }
    }

    pub(crate) fn add(&mut self, other: &PauseCounts) {
        sums(self.met.as_flattened_mut(), other.met.as_flattened());
        sums(self.codes.as_flattened_mut(), other.codes.as_flattened());
        sums(
            self.refused.as_flattened_mut(),
            other.refused.as_flattened(),
        );
        sums(self.handed.as_flattened_mut(), other.handed.as_flattened());
        let books = self.books.as_flattened_mut().as_flattened_mut();
        sums(books, other.books.as_flattened().as_flattened());
        sums(&mut self.old, &other.old);
    }
}

/// Whether it begins.
fn begins(before: &Crossing, after: &Crossing) -> bool {
    before.phase != phase::OPEN && after.left > 0
}

fn on_move(entry: &Entry, tick: bool, before: &Crossing, after: &Crossing) -> Option<PauseMet> {
    match (before.phase, after.phase) {
        (phase::RAISING, phase::WARNING) => Some(PauseMet::ClosesAgain),
        _ if entry.pause == 0 => None,
        (phase::RAISING, phase::OPEN) if has_reason(after) => Some(PauseMet::RaisedReason),
        (phase::RAISING, phase::OPEN) => Some(PauseMet::Raised),
        (phase::ALL_DOWN, phase::OPEN) => Some(PauseMet::Lights),
        (phase::WARNING, phase::OPEN) if after.left > 0 => Some(PauseMet::BothEnds),
        (phase::WARNING, phase::OPEN) => Some(PauseMet::GivenUp),
        (phase::OPEN, phase::WARNING) if before.left > 0 => Some(PauseMet::Warning),
        (phase::OPEN, phase::WARNING) if !tick => Some(PauseMet::LateWarning),
        (phase::OPEN, _) if before.left == 1 && after.left == 0 => Some(PauseMet::Quiet),
        _ => None,
    }
}

fn on_release(tick: bool, before: &Crossing, after: &Crossing) -> Option<PauseMet> {
    let completed = tick && before.countdown == 1 && has_reason(before) && !has_reason(after);
    match (before.left, after.left) {
        _ if !completed => None,
        (1, 0) => Some(PauseMet::ReleasedLast),
        (2.., 1..) => Some(PauseMet::Released),
        _ => None,
    }
}

fn on_tick(tick: bool, before: &Crossing, after: &Crossing) -> Option<PauseMet> {
    let goes = tick && before.left > after.left;
    (goes && !booms_up(after)).then_some(PauseMet::BoomAway)
}

fn on_long_out(before: &Crossing, after: &Crossing) -> Option<PauseMet> {
    let ends = before.out > 900 && after.out == 0;
    (ends && begins(before, after)).then_some(PauseMet::LongOut)
}

/// The place among what calls are handed.
fn left_class(past: bool, entry: &Entry, record: &Crossing) -> Option<usize> {
    let (left, pause) = (record.left, entry.pause);
    let class = match record.phase {
        _ if left == 0 => return None,
        _ if past => "past n",
        phase::OPEN if pause == 0 => "M 0",
        phase::OPEN if left == pause => "M",
        phase::OPEN if left == 1 => "1",
        phase::OPEN if left == pause.wrapping_add(1) => "M+1",
        phase::OPEN if left > pause => "over",
        phase::OPEN => return None,
        _ if left <= pause => "phase",
        _ => return None,
    };
    HANDED.iter().position(|name| *name == class)
}

fn pause_class(past: bool, entry: &Entry) -> Option<usize> {
    let class = match entry.pause {
        _ if past => return None,
        540 => "M 540",
        541 => "M 541",
        _ => return None,
    };
    HANDED.iter().position(|name| *name == class)
}
