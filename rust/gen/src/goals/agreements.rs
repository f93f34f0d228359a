//! What pairs of sheets should reach (document 02, T-07).

use super::Goal;
use crate::agreed::{CONTENTS, MET, SIZES, STATES};
use crate::coverage::Coverage;
use crate::stretches::HOW;

const SHEETS: [&str; 2] = ["hut", "cabin"];
const BYTES: [&str; 4] = ["code", "crossing", "place", "value"];

impl Coverage {
    pub(super) fn agree_goals(&self) -> Vec<Goal> {
        let mut goals = self.refused_sheets();
        let mut goal = |group, name, count| goals.push(Goal::once(group, name, count));
        let agrees = &self.agrees;
        for ((group, name, _), count) in MET.into_iter().zip(agrees.met) {
            goal(group, name.into(), count);
        }
        for (name, count) in HOW.into_iter().zip(agrees.how) {
            goal("agree, stretch fails", name.into(), count);
        }
        for (sheet, counts) in SHEETS.into_iter().zip(agrees.ticks) {
            for (place, count) in ["start", "middle", "end"].into_iter().zip(counts) {
                goal("agree, a tick more", format!("{sheet} {place}"), count);
            }
        }
        for (sheet, counts) in SHEETS.into_iter().zip(agrees.alone) {
            for (what, count) in ["empty", "not"].into_iter().zip(counts) {
                goal("agree, stretch alone", format!("{sheet} {what}"), count);
            }
        }
        for (byte, counts) in BYTES.into_iter().zip(agrees.bytes) {
            for (tick, count) in ["hut tick", "cabin tick", "none"].into_iter().zip(counts) {
                goal("agree, one byte", format!("{byte}:{tick}"), count);
            }
        }
        goals
    }

    /// Every sheet that is refused beside every other, and sizes around the bounds.
    fn refused_sheets(&self) -> Vec<Goal> {
        let mut goals = Vec::new();
        let mut goal = |group, name, count| goals.push(Goal::once(group, name, count));
        for (hut, counts) in STATES.into_iter().zip(self.agrees.states) {
            for (cabin, count) in STATES.into_iter().zip(counts) {
                goal("agree, hut:cabin", format!("{hut}:{cabin}"), count);
            }
        }
        for (name, count) in ["same", "not"].into_iter().zip(self.agrees.long) {
            goal("agree, 18 for two", name.into(), count);
        }
        for (sheet, sizes) in SHEETS.into_iter().zip(self.agrees.sizes) {
            for (size, counts) in SIZES.into_iter().zip(sizes) {
                for (content, count) in CONTENTS.into_iter().zip(counts) {
                    goal("agree, events", format!("{sheet} {size} {content}"), count);
                }
            }
        }
        goals
    }
}
