//! Counters of what was met at crossings with a boom's position lost (document 02, T-02).

use crate::coverage::{sums, KINDS};
use engine::crossing::{booms_down, has_reason, is_normal, is_secured};
use engine::{boom, code, phase, Crossing, Entry};

/// What an event met.
#[derive(Clone, Copy)]
pub(crate) enum LostMet {
    /// A tick in raising with every boom up but one, which is lost; those that the crossing
    /// lacks are held as up.
    Waits,
    WaitsReason,
    /// A lost boom found up in raising, the last one.
    Opens,
    ClosesAgain,
    /// A lost boom found up in phase 0, the last one.
    Normal,
    /// Secured until a boom was lost, or after it was found.
    SecuredEnds,
    SecuredAgain,
    /// With a lost boom, a warning begins or raising does.
    Warning,
    Raising,
    /// A boom lost while a countdown runs, or lost when it ends.
    Countdown,
    Released,
    /// The first value that is no report.
    Refused,
}

impl LostMet {
    /// Each with its group and name in the table.
    pub(crate) const ALL: [(LostMet, &'static str, &'static str); 12] = [
        (LostMet::Waits, "lost, kind:event", "waits"),
        (LostMet::WaitsReason, "lost, kind:event", "waits, reason"),
        (LostMet::Opens, "lost, kind:event", "opens"),
        (LostMet::ClosesAgain, "lost, kind:event", "closes again"),
        (LostMet::Normal, "lost, kind:event", "normal"),
        (LostMet::SecuredEnds, "lost, kind:event", "secured ends"),
        (LostMet::SecuredAgain, "lost, kind:event", "secured again"),
        (LostMet::Warning, "lost, kind:event", "warning"),
        (LostMet::Raising, "lost, kind:event", "raising"),
        (LostMet::Countdown, "lost, kind:event", "countdown"),
        (LostMet::Released, "lost, kind:event", "released"),
        (LostMet::Refused, "refused, kind:report", "4"),
    ];
}

/// How often, by kind.
#[derive(Clone, Default)]
pub(crate) struct LostCounts {
    met: [[u64; KINDS]; LostMet::ALL.len()],
    /// A boom lost after an event, by phase.
    phases: [[u64; 5]; KINDS],
    /// Stop shown because of this boom alone.
    stops: [[u64; 4]; KINDS],
    /// The bell sounded because of one boom alone, by phase.
    bells: [[u64; 5]; KINDS],
}

impl LostCounts {
    pub(crate) fn met(&self, met: LostMet, kind: usize) -> u64 {
        self.met[met as usize][kind]
    }

    pub(crate) fn phase(&self, kind: usize, phase: usize) -> u64 {
        self.phases[kind][phase]
    }

    pub(crate) fn stop(&self, kind: usize, boom: usize) -> u64 {
        self.stops[kind][boom]
    }

    pub(crate) fn bell(&self, kind: usize, phase: usize) -> u64 {
        self.bells[kind][phase]
    }

    /// A report was refused for its value.
    pub(crate) fn refused(&mut self, entry: &Entry, value: u8) {
        if value == boom::LOST + 1 {
            self.met[LostMet::Refused as usize][usize::from(entry.kind)] += 1;
        }
    }

    /// A taken event at a crossing with these settings, its record before and after.
    pub(crate) fn event(&mut self, entry: &Entry, e: [u8; 4], before: &Crossing, after: &Crossing) {
        if lost(before) + lost(after) == 0 {
            return;
        }
        let kind = usize::from(entry.kind);
        if lost(after) > 0 {
            self.phases[kind][usize::from(after.phase)] += 1;
        }
        let met = match e[0] {
            code::TICK => on_tick(before, after),
            code::BOOM_REPORT if e[3] == boom::LOST => on_lost(entry, before, after),
            code::BOOM_REPORT => on_found(entry, before, after),
            _ => [None; 2],
        };
        for met in met.into_iter().chain([on_move(before, after)]).flatten() {
            self.met[met as usize][kind] += 1;
        }
    }

    /// A crossing on the panel, with stop and the bell on it or not.
    pub(crate) fn panel(&mut self, entry: &Entry, record: &Crossing, stop: bool, bell: bool) {
        let place = record.booms.iter().position(|b| *b == boom::LOST);
        let Some(place) = place.filter(|_| lost(record) == 1) else {
            return;
        };
        let mut found = *record;
        found.booms[place] = boom::DOWN;
        let stops = stop && is_secured(&found, entry);
        let sounds = bell && booms_down(&found, entry);
        let (kind, phase) = (usize::from(entry.kind), usize::from(record.phase));
        self.stops[kind][place] += u64::from(stops);
        self.bells[kind][phase] += u64::from(sounds);
    }

    pub(crate) fn add(&mut self, other: &LostCounts) {
        sums(self.met.as_flattened_mut(), other.met.as_flattened());
        sums(self.phases.as_flattened_mut(), other.phases.as_flattened());
        sums(self.stops.as_flattened_mut(), other.stops.as_flattened());
        sums(self.bells.as_flattened_mut(), other.bells.as_flattened());
    }
}

/// How many booms are lost.
fn lost(record: &Crossing) -> usize {
    record.booms.iter().filter(|b| **b == boom::LOST).count()
}

fn on_tick(before: &Crossing, after: &Crossing) -> [Option<LostMet>; 2] {
    let up = after.booms.iter().filter(|b| **b == boom::UP).count();
    let raising = (before.phase, after.phase) == (phase::RAISING, phase::RAISING);
    let waits = raising && (up, lost(after)) == (3, 1);
    let wait = match has_reason(after) {
        true => LostMet::WaitsReason,
        false => LostMet::Waits,
    };
    let released = before.countdown == 1;
    [waits.then_some(wait), released.then_some(LostMet::Released)]
}

fn on_lost(entry: &Entry, before: &Crossing, after: &Crossing) -> [Option<LostMet>; 2] {
    let ends = is_secured(before, entry) && !is_secured(after, entry);
    let counts = after.countdown > 0;
    [
        ends.then_some(LostMet::SecuredEnds),
        counts.then_some(LostMet::Countdown),
    ]
}

fn on_found(entry: &Entry, before: &Crossing, after: &Crossing) -> [Option<LostMet>; 2] {
    let again = !is_secured(before, entry) && is_secured(after, entry);
    let found = lost(before) > lost(after);
    let moved = match (before.phase, after.phase) {
        _ if !found => None,
        (phase::RAISING, phase::OPEN) => Some(LostMet::Opens),
        (phase::RAISING, phase::WARNING) => Some(LostMet::ClosesAgain),
        (phase::OPEN, _) if is_normal(after) => Some(LostMet::Normal),
        _ => None,
    };
    [(found && again).then_some(LostMet::SecuredAgain), moved]
}

/// What began with a boom lost before and after.
fn on_move(before: &Crossing, after: &Crossing) -> Option<LostMet> {
    match (before.phase, after.phase) {
        _ if lost(before) == 0 || lost(after) == 0 => None,
        (phase::OPEN, phase::WARNING) => Some(LostMet::Warning),
        (phase::RIGHT_DOWN | phase::ALL_DOWN, phase::RAISING) => Some(LostMet::Raising),
        _ => None,
    }
}
