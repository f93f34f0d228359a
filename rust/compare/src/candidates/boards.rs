//! Inputs for the distance of the arrow board with one of the three lowered.

use crate::case::Case;
use gen::Board;

/// Halves, tens and ones fewer, and what is just in or just out of its range.
pub(super) fn board_candidates(board: Board) -> Vec<Case> {
    let Board {
        speed,
        retardation,
        gradient,
    } = board;
    let fewer = |n: u16| [1, 10, 100].map(|less| n.saturating_sub(less));
    let toward_0 = gradient - gradient.signum();
    let speeds = [1, 0, 121, speed / 2].into_iter().chain(fewer(speed));
    let retardations = [500, 1000, 499, 1501, retardation / 2].into_iter();
    let retardations = retardations.chain(fewer(retardation));
    let gradients = [
        0,
        31,
        -31,
        gradient.saturating_neg(),
        gradient / 2,
        toward_0,
    ];
    let speeds = speeds.map(|speed| Board { speed, ..board });
    let retardations = retardations.map(|retardation| Board {
        retardation,
        ..board
    });
    let gradients = gradients.map(|gradient| Board { gradient, ..board });
    let all = speeds.chain(retardations).chain(gradients);
    all.map(Case::Board).collect()
}
