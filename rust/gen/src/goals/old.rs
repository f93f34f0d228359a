//! What plants under the sheet of 1959 should reach (document 02, T-09).

use super::{Goal, CALLS, WITH_PLANT};
use crate::coverage::Coverage;
use crate::old_met::{FLASHERS, HANDED, LIGHTS, PLACES, PRES, TICKS};
use crate::old_shown::{SHOWN_5, SHOWN_6};

impl Coverage {
    pub(super) fn old_goals(&self) -> Vec<Goal> {
        let mut goals = Vec::new();
        let mut goal = |group, name, count| goals.push(Goal::once(group, name, count));
        for ((name, kinds, _), counts) in TICKS.iter().zip(&self.old.ticks) {
            for kind in *kinds {
                goal(
                    "long out, kind:tick",
                    format!("{kind}:{name}"),
                    counts[*kind],
                );
            }
        }
        for (name, count) in SHOWN_5.iter().zip(self.old.lights_only) {
            goal("1959, kind:shown", format!("5:{name}"), count);
        }
        for (name, count) in SHOWN_6.iter().zip(self.old.half_booms) {
            goal("1959, kind:shown", format!("6:{name}"), count);
        }
        for (light, counts) in LIGHTS.iter().zip(&self.old.rhythms) {
            for (flasher, counts) in FLASHERS.iter().zip(counts) {
                for (beat, count) in counts.iter().enumerate() {
                    goal(
                        "1959, flasher:beat",
                        format!("{light} {flasher}:{beat}"),
                        *count,
                    );
                }
            }
        }
        goals.extend(self.boom_lamp_goals());
        goals.extend(self.old_ranges());
        goals
    }

    /// Lamps 5 and 6 report at kind 6 alone, and lamp 7 nowhere.
    fn boom_lamp_goals(&self) -> Vec<Goal> {
        let mut goals = Vec::new();
        for (kind, places) in self.old.reports.iter().enumerate().skip(1) {
            for (place, [dead, whole, unknown]) in PLACES.iter().zip(places) {
                let mut goal = |group, what: u8, count: &u64| {
                    let name = format!("{kind}:{place}:{what}");
                    goals.push(Goal::once(group, name, *count));
                };
                match (kind, place) {
                    (6, 5 | 6) => {
                        goal("lamps, kind:place:value", 0, dead);
                        goal("lamps, kind:place:value", 1, whole);
                    }
                    _ => goal("lamps, kind:place:number", 7, unknown),
                }
            }
        }
        // One line of the table for a group.
        goals.sort_by_key(|goal| goal.group);
        goals
    }

    /// Boom lamps and ticks out of normal around their bounds in plants, F and kind in books.
    fn old_ranges(&self) -> Vec<Goal> {
        let mut goals = Vec::new();
        let mut goal = |group, name, count| goals.push(Goal::once(group, name, count));
        for call in WITH_PLANT.map(|call| call as usize) {
            for (name, count) in HANDED.iter().zip(self.old.handed[call]) {
                goal("1959, handed", format!("{} {name}", CALLS[call]), count);
            }
        }
        for (call, name) in ["read", "written"].into_iter().enumerate() {
            for (pre, count) in PRES.iter().zip(self.old.pres[call]) {
                goal("book, F of kind 6", format!("{name} {pre}"), count);
            }
            for (kind, count) in self.old.kinds[call].iter().enumerate() {
                goal("book, kind", format!("{name} {kind}"), *count);
            }
        }
        goals
    }
}
