//! What distances of the arrow board should reach (document 02, T-08).

use super::Goal;
use crate::boards::{FULL, IN_RANGE};
use crate::boards::{GRADIENT_BOUNDS, RETARDATION_BOUNDS, SPEED_BOUNDS};
use crate::coverage::Coverage;
use engine::board::{PRINTED_GRADIENTS, PRINTED_SPEEDS};

const PLACES: [&str; 3] = ["below", "in", "above"];
const PARTS: [&str; 3] = ["speed", "retardation", "gradient"];
const NEAR: [&str; 3] = ["1 m", "1 mm", "1 um"];
/// The distances that there are: 10 m to 2,810 m, but for 2,800 m.
const DISTANCES: u64 = 280;

/// So many of all.
fn of(group: &'static str, name: String, count: u64, needed: u64) -> Goal {
    Goal {
        group,
        name,
        count,
        needed,
    }
}

/// How many were met at all.
fn met(counts: &[u64]) -> u64 {
    counts.iter().filter(|count| **count > 0).count() as u64
}

impl Coverage {
    pub(super) fn board_goals(&self) -> Vec<Goal> {
        let mut goals = self.board_ranges();
        let mut goal = |group, name, count| goals.push(Goal::once(group, name, count));
        let boards = &self.boards;
        for (name, count) in ["fall", "level", "rise"].into_iter().zip(boards.slopes) {
            goal("board, gradient", name.into(), count);
        }
        for (side, counts) in ["below", "above"].into_iter().zip(boards.near) {
            for (far, count) in NEAR.into_iter().zip(counts) {
                goal("board, full 10 m", format!("{far} {side}"), count);
            }
        }
        goals.push(of(
            "board, full 10 m",
            "exact".into(),
            met(&boards.full),
            FULL.len() as u64,
        ));
        for (speed, row) in PRINTED_SPEEDS.into_iter().zip(&boards.cells) {
            let cells = PRINTED_GRADIENTS.len() as u64;
            let name = format!("{speed} km/h");
            goals.push(of("board, printed", name, met(row), cells));
        }
        let short = boards.cells[1][2];
        goals.push(Goal::once("board, printed", "60:+5, short".into(), short));
        let distances = met(&boards.tens);
        goals.push(of("board, distances", "any".into(), distances, DISTANCES));
        goals
    }

    /// Each in and out of its range, around the bounds, and every value.
    fn board_ranges(&self) -> Vec<Goal> {
        let mut goals = Vec::new();
        let mut goal = |group, name, count| goals.push(Goal::once(group, name, count));
        let boards = &self.boards;
        for (v, counts) in PLACES.into_iter().zip(boards.places) {
            for (d, counts) in PLACES.into_iter().zip(counts) {
                for (h, count) in PLACES.into_iter().zip(counts) {
                    goal("board, range", format!("{v}:{d}:{h}"), count);
                }
            }
        }
        for (v, counts) in SPEED_BOUNDS.into_iter().zip(boards.bounds) {
            for (d, counts) in RETARDATION_BOUNDS.into_iter().zip(counts) {
                for (h, count) in GRADIENT_BOUNDS.into_iter().zip(counts) {
                    goal("board, bounds", format!("{v}:{d}:{h}"), count);
                }
            }
        }
        for (part, count) in PARTS.into_iter().zip(boards.values()) {
            goals.push(of("board, values", part.into(), count, 1 << 16));
        }
        let (inputs, all) = (boards.inputs(), IN_RANGE as u64);
        goals.push(of("board, inputs", "in range".into(), inputs, all));
        goals
    }
}
