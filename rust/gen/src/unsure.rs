//! Counters of what was met at crossings with a full or an unsure track (document 02, T-01).

use crate::coverage::{sums, KINDS};
use crate::swept::trains;
use engine::crossing::{has_reason, is_held};
use engine::{code, phase, Crossing, Entry};

/// What an event met.
#[derive(Clone, Copy)]
pub(crate) enum Met {
    /// A strike-in on a full track: plain, with its route, without and closing by the flag alone.
    Plain,
    Route,
    FlagAlone,
    /// A strike-in on a full track that was unsure before, or with a countdown running.
    Again,
    Countdown,
    /// At a crossing with an unsure track.
    Passage,
    RouteSet,
    KioskOff,
    /// Taken, with the flag the only reason left.
    OperatorOff,
    BoomReport,
    ReleaseBegun,
    /// A release completed over an unsure track.
    TrainsReleased,
    FlagReleased,
    TwoUnsure,
}

impl Met {
    /// Each with its group and name in the table.
    pub(crate) const ALL: [(Met, &'static str, &'static str); 14] = [
        (Met::Plain, "swept, kind:track", "plain"),
        (Met::Route, "swept, kind:track", "route"),
        (Met::FlagAlone, "swept, kind:track", "flag alone"),
        (Met::Again, "swept, kind:track", "again"),
        (Met::Countdown, "swept, kind:track", "countdown"),
        (Met::Passage, "unsure, kind:event", "passage"),
        (Met::RouteSet, "unsure, kind:event", "route"),
        (Met::KioskOff, "unsure, kind:event", "kiosk off"),
        (Met::OperatorOff, "unsure, kind:event", "operator off"),
        (Met::BoomReport, "unsure, kind:event", "boom"),
        (Met::ReleaseBegun, "unsure, kind:event", "release"),
        (Met::TrainsReleased, "unsure, kind:released", "trains"),
        (Met::FlagReleased, "unsure, kind:released", "no train"),
        (Met::TwoUnsure, "unsure, kind:tracks", "two"),
    ];
}

/// How often, by kind.
#[derive(Clone, Default)]
pub(crate) struct UnsureCounts {
    met: [[u64; KINDS]; Met::ALL.len()],
    /// Strike-ins on a full track, by the phase before.
    phases: [[u64; 5]; KINDS],
}

impl UnsureCounts {
    pub(crate) fn met(&self, met: Met, kind: usize) -> u64 {
        self.met[met as usize][kind]
    }

    pub(crate) fn phase(&self, kind: usize, phase: usize) -> u64 {
        self.phases[kind][phase]
    }

    /// A taken event at a crossing with these settings, its record before and after.
    pub(crate) fn event(&mut self, entry: &Entry, e: [u8; 4], before: &Crossing, after: &Crossing) {
        if (before.unsure, after.unsure) == ([0; 4], [0; 4]) {
            return;
        }
        let kind = usize::from(entry.kind);
        if e[0] == code::STRIKE_IN && trains(before, e[2].into()) == 255 {
            self.phases[kind][usize::from(before.phase)] += 1;
            self.strike_in(entry, e[2].into(), before, after);
        }
        if before.unsure != [0; 4] {
            if let Some(met) = at_unsure(e, before, after) {
                self.met[met as usize][kind] += 1;
            }
        }
        if after.unsure.iter().sum::<u8>() > 1 {
            self.met[Met::TwoUnsure as usize][kind] += 1;
        }
    }

    fn strike_in(&mut self, entry: &Entry, t: usize, before: &Crossing, after: &Crossing) {
        let mut met = |met: Met| self.met[met as usize][usize::from(entry.kind)] += 1;
        let closes = (before.phase, after.phase) == (phase::OPEN, phase::WARNING);
        match (entry.depends(t), before.route[t]) {
            (false, _) => met(Met::Plain),
            (true, 1) => met(Met::Route),
            _ if closes && !has_reason(before) => met(Met::FlagAlone),
            _ => {}
        }
        if before.unsure[t] == 1 {
            met(Met::Again);
        }
        if before.countdown > 0 {
            met(Met::Countdown);
        }
    }

    pub(crate) fn add(&mut self, other: &UnsureCounts) {
        sums(self.met.as_flattened_mut(), other.met.as_flattened());
        sums(self.phases.as_flattened_mut(), other.phases.as_flattened());
    }
}

/// What an event met at a crossing with an unsure track.
fn at_unsure(e: [u8; 4], before: &Crossing, after: &Crossing) -> Option<Met> {
    let no_train = (before.calling, before.waiting) == ([0; 4], [0; 4]);
    match (e[0], e[3]) {
        (code::PASSAGE, _) => Some(Met::Passage),
        (code::ROUTE, 1) => Some(Met::RouteSet),
        (code::KIOSK_HOLD, 0) if before.kiosk == 1 => Some(Met::KioskOff),
        (code::OPERATOR_HOLD, 0) if before.operator == 1 && !is_held(after) => {
            Some(Met::OperatorOff)
        }
        (code::BOOM_REPORT, _) => Some(Met::BoomReport),
        (code::TIME_RELEASE, _) => Some(Met::ReleaseBegun),
        (code::TICK, _) if before.countdown == 1 && no_train => Some(Met::FlagReleased),
        (code::TICK, _) if before.countdown == 1 => Some(Met::TrainsReleased),
        _ => None,
    }
}
