//! What previews should reach (document 02, T-03).

use super::{code_numbers, Goal};
use crate::coverage::Coverage;
use crate::previewed::LENT;
use engine::number;

/// The numbers that an event of a plant in range can get.
const OWN: [u8; 11] = [0, 5, 6, 7, 8, 10, 11, 12, 13, 16, 17];
/// Trains written off, by place: 0, 1 or more.
const WRITTEN_OFF: [(usize, usize, &str); 5] = [
    (0, 0, "tick 0"),
    (0, 1, "tick 1"),
    (0, 2, "tick more"),
    (1, 0, "strike-in 0"),
    (1, 1, "strike-in 1"),
];
/// The numbers that keep a tick and a strike-in from writing off. With another place or crossing
/// a strike-in is another track's.
const WITHHELD: [(&str, &[u8]); 2] = [
    ("tick", &[6, 7, 8, 14, 15, 16, 17]),
    ("strike-in", &[8, 14, 15, 16, 17]),
];

/// By n: taken, and refused for the frame.
const SIZES: [&str; 2] = ["preview, n", "preview, n wrong frame"];

impl Coverage {
    pub(super) fn preview_goals(&self) -> Vec<Goal> {
        let mut goals = self.preview_orders();
        goals.extend(self.preview_counts());
        let previews = &self.previews;
        let mut goal = |group, name, count| goals.push(Goal::once(group, name, count));
        for (code, count) in previews.moved.iter().enumerate() {
            goal("preview, panel moved", format!("{code}"), *count);
        }
        for (sizes, group) in previews.sizes.iter().zip(SIZES) {
            (1..=8).for_each(|n| goal(group, format!("{n}"), sizes[n]));
        }
        goal(
            "preview, neighbour",
            "unsettled".into(),
            previews.neighbours,
        );
        for n in OWN {
            let count = previews.lists[usize::from(n)];
            goal("preview in a list", format!("{n}"), count);
        }
        goals
    }

    /// Trains written off, and not written off by a refused call.
    fn preview_counts(&self) -> Vec<Goal> {
        let mut goals = Vec::new();
        let mut goal = |group, name, count| goals.push(Goal::once(group, name, count));
        for (code, i, name) in WRITTEN_OFF {
            let count = self.previews.written_off[code][i];
            goal("preview, written off", name.into(), count);
        }
        for ((name, numbers), counts) in WITHHELD.into_iter().zip(&self.previews.withheld) {
            for n in numbers {
                let count = counts[usize::from(*n)];
                goal("preview, withheld", format!("{name}:{n}"), count);
            }
        }
        goals
    }

    /// Every code, and every number before every number that comes later.
    fn preview_orders(&self) -> Vec<Goal> {
        let previews = &self.previews;
        let mut goals = vec![Goal {
            group: "preview, codes",
            name: "handed".into(),
            count: previews.bytes.values(),
            needed: 256,
        }];
        let mut goal = |group, name, count| goals.push(Goal::once(group, name, count));
        for (c, counts) in previews.codes.iter().enumerate() {
            for n in code_numbers(c).into_iter().chain([number::WRONG_FRAME]) {
                goal(
                    "preview, code:number",
                    format!("{c}:{n}"),
                    counts[usize::from(n)],
                );
            }
        }
        for (lent, counts) in LENT.into_iter().zip(&previews.lent) {
            for n in OWN.into_iter().chain([number::SPOILT_PLANT]) {
                goal(
                    "preview, lent:number",
                    format!("{lent}:{n}"),
                    counts[usize::from(n)],
                );
            }
        }
        for n in OWN {
            let count = previews.spoilt[usize::from(n)];
            goal("preview, 15 before", format!("{n}"), count);
        }
        goals
    }
}
