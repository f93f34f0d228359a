//! The distance of the arrow board: alike on both engines, and each engine in line with itself
//! (document 02, T-08).

use super::{same, Check, Pair};
use crate::{BoardDistance, Engine};
use engine::number;
use gen::{Board, Coverage};

/// By which of the three is the first out of its range.
const REFUSALS: [u8; 3] = [
    number::SPEED_OUT_OF_RANGE,
    number::RETARDATION_OUT_OF_RANGE,
    number::GRADIENT_OUT_OF_RANGE,
];

impl Pair<'_> {
    /// One distance.
    pub(super) fn board(&self, board: Board, seen: &mut Coverage) -> Check {
        let [answer, other] = [self.first, self.second].map(|engine| engine.board_distance(board));
        same("board distance", &answer, &other)?;
        seen.board(board, answer);
        let first_out = board.places().iter().position(|place| *place != 1);
        if let Some(first) = first_out {
            let due = BoardDistance {
                number: REFUSALS[first],
                distance: 0,
            };
            return same("refusal by the ranges", &due, &answer);
        }
        same("number in range", &number::TAKEN, &answer.number)?;
        same("metres above a full 10", &0, &(answer.distance % 10))?;
        same("whether there is a distance", &true, &(answer.distance > 0))?;
        let further = further(board);
        for engine in [self.first, self.second] {
            let what = step(engine, answer.distance, further);
            what.map_err(|what| format!("{}: {what}", engine.name()))?;
        }
        Ok(())
    }
}

/// One step along one of the three, by turns: the speed or not, and the input there.
fn further(board: Board) -> (bool, Board) {
    let mut further = board;
    let parts = [board.speed, board.retardation, board.gradient as u16];
    let turn = parts.map(u32::from).iter().sum::<u32>() % 3;
    match turn {
        0 => further.speed += 1,
        1 => further.retardation += 1,
        _ => further.gradient += 1,
    }
    (turn == 0, further)
}

/// More speed gives no less, more retardation or a higher gradient no more.
fn step(engine: &dyn Engine, distance: u16, (more_speed, further): (bool, Board)) -> Check {
    if !further.is_in_range() {
        return Ok(());
    }
    let there = engine.board_distance(further).distance;
    let due = match more_speed {
        true => distance.max(there),
        false => distance.min(there),
    };
    same("distance one step further", &due, &there)
}
