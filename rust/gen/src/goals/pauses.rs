//! What the time for motorists should reach (document 02, T-06).

use super::{has_booms, Goal, CALLS, WITH_PLANT};
use crate::coverage::{Coverage, KINDS};
use crate::paused::{PauseMet, BOOKS, HANDED};

/// The refusals that depend on the crossing.
const REFUSALS: [usize; 4] = [10, 11, 12, 13];

impl Coverage {
    pub(super) fn pause_goals(&self) -> Vec<Goal> {
        let mut goals = Vec::new();
        let mut goal = |group, name, count| goals.push(Goal::once(group, name, count));
        let pauses = &self.pauses;
        for (met, name, kinds) in PauseMet::ALL {
            for kind in kinds {
                let count = pauses.met(met, *kind);
                goal("pause, kind:event", format!("{kind}:{name}"), count);
            }
        }
        for kind in 1..KINDS {
            for code in (0..10).filter(|code| *code != 8 || has_booms(kind)) {
                let count = pauses.codes[kind][code];
                goal("pause, kind:code", format!("{kind}:{code}"), count);
            }
        }
        for (kind, n) in (1..KINDS).flat_map(|kind| REFUSALS.map(|n| (kind, n))) {
            let count = pauses.refused[kind][n];
            goal("pause, kind:number", format!("{kind}:{n}"), count);
        }
        goals.extend(self.pause_ranges());
        goals
    }

    /// Ticks left and M around their bounds, in plants and in books.
    fn pause_ranges(&self) -> Vec<Goal> {
        let mut goals = Vec::new();
        let mut goal = |group, name, count| goals.push(Goal::once(group, name, count));
        for call in WITH_PLANT.map(|call| call as usize) {
            for (name, count) in HANDED.iter().zip(self.pauses.handed[call]) {
                goal("left, handed", format!("{} {name}", CALLS[call]), count);
            }
        }
        let groups = ["book read, kind:M", "book written, kind:M"];
        for (group, counts) in groups.into_iter().zip(&self.pauses.books) {
            for (kind, counts) in counts.iter().enumerate().skip(1) {
                for (pause, count) in BOOKS.iter().zip(counts) {
                    goal(group, format!("{kind}:{pause}"), *count);
                }
            }
        }
        for (n, count) in self.pauses.old.iter().enumerate().skip(1) {
            goal("book without M, n", format!("{n}"), *count);
        }
        goals
    }
}
