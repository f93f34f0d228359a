//! What sheets should reach in rows of ticks that only count (document 02, T-14).

use super::{has_booms, kind_phases, Goal};
use crate::coverage::{Coverage, KINDS};
use crate::ends::End;
use crate::quiet_met::{How, CODE_0, FROM, ROWS, UNSETTLED};

impl Coverage {
    pub(super) fn quiet_goals(&self) -> Vec<Goal> {
        let mut goals = Vec::new();
        let mut goal = |group, name, count| goals.push(Goal::once(group, name, count));
        for (how, group) in How::ALL {
            for (end, name, kinds) in End::ALL.iter().filter(|(end, ..)| how.can_be(*end)) {
                for kind in *kinds {
                    let count = self.quiet.end(how, *end, *kind);
                    goal(group, format!("{kind}:{name}"), count);
                }
            }
        }
        let chains = self.quiet.chains.iter().zip(["2", "3", "more"]);
        for (counts, name) in chains {
            for (kind, count) in counts.iter().enumerate().skip(1) {
                goal("ends in a row, kind", format!("{kind}:{name}"), *count);
            }
        }
        for (code, counts) in self.quiet.codes.iter().enumerate().skip(1) {
            for (name, count) in ["2", "1", "after"].into_iter().zip(counts) {
                goal("code:ticks before", format!("{code}:{name}"), *count);
            }
        }
        goals.extend(self.moved_goals());
        goals.extend(self.tick_goals());
        goals.extend(self.start_goals());
        goals
    }

    /// Events by which something is due sooner or later than it was. No lamp does that, and an
    /// approach that is freed only under the sheet of 1959.
    fn moved_goals(&self) -> Vec<Goal> {
        let mut goals = Vec::new();
        for (later, group) in [(false, "sooner, kind:code"), (true, "later, kind:code")] {
            let counts = &self.quiet.moved[usize::from(later)];
            for (code, kind) in (1..9).flat_map(|code| (1..KINDS).map(move |kind| (code, kind))) {
                let can_be = match code {
                    6 => later || kind > 4,
                    8 => has_booms(kind),
                    _ => true,
                };
                if can_be {
                    let name = format!("{kind}:{code}");
                    goals.push(Goal::once(group, name, counts[code][kind]));
                }
            }
        }
        for (kind, count) in self.quiet.soonest.iter().enumerate().skip(1) {
            goals.push(Goal::once("soonest, kind", format!("{kind}"), *count));
        }
        goals
    }

    /// What one tick meets, or a row of them.
    fn tick_goals(&self) -> Vec<Goal> {
        let mut goals = Vec::new();
        let mut goal = |group, name, count| goals.push(Goal::once(group, name, count));
        for (due, count) in self.quiet.together.iter().enumerate().skip(1) {
            let name = match due {
                9 => "unlike".into(),
                _ => format!("{due}"),
            };
            goal("due on one tick", name, *count);
        }
        for (name, count) in CODE_0.into_iter().zip(self.quiet.code_0) {
            goal("code 0, field", name.into(), count);
        }
        for (row, count) in ROWS.into_iter().zip(self.quiet.rows) {
            goal("ticks in a row", format!("{row}"), count);
        }
        goals
    }

    /// What a plant that is not fresh holds when a tick begins its sheet.
    fn start_goals(&self) -> Vec<Goal> {
        let mut goals = Vec::new();
        let mut goal = |group, name, count| goals.push(Goal::once(group, name, count));
        for ((name, _), counts) in FROM.iter().zip(&self.quiet.from) {
            for kind in (1..KINDS).filter(|kind| *kind == 4 || !name.starts_with('G')) {
                goal("from, kind:count", format!("{kind}:{name}"), counts[kind]);
            }
        }
        for (phase, (name, counts)) in UNSETTLED.iter().zip(&self.quiet.unsettled).enumerate() {
            let known = |kind: &usize| phase > 3 || kind_phases(*kind).contains(&phase);
            for kind in (1..KINDS).filter(known) {
                goal(
                    "unsettled, kind:phase",
                    format!("{kind}:{name}"),
                    counts[kind],
                );
            }
        }
        goals
    }
}
