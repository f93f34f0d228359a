//! Inputs for the distance of the arrow board (document 02, T-08): seeded ones, and grids.

use crate::rng::Rng;
use engine::board::{PRINTED_FOR, PRINTED_GRADIENTS, PRINTED_SPEEDS};
use std::ops::RangeInclusive;

/// Speed in km/h, retardation in mm/s2, gradient in per mille, a fall negative.
#[derive(Clone, Copy, PartialEq, Debug)]
pub struct Board {
    pub speed: u16,
    pub retardation: u16,
    pub gradient: i16,
}

const SPEEDS: RangeInclusive<u16> = 1..=120;
const RETARDATIONS: RangeInclusive<u16> = 500..=1500;
const GRADIENTS: RangeInclusive<i16> = -30..=30;

/// The bounds of each with what lies just outside.
pub(crate) const SPEED_BOUNDS: [u16; 4] = [0, 1, 120, 121];
pub(crate) const RETARDATION_BOUNDS: [u16; 4] = [499, 500, 1500, 1501];
pub(crate) const GRADIENT_BOUNDS: [i16; 4] = [-31, -30, 30, 31];

/// How many inputs are in range.
pub const IN_RANGE: usize = 120 * 1001 * 61;

impl Board {
    pub const fn new(speed: u16, retardation: u16, gradient: i16) -> Board {
        Board {
            speed,
            retardation,
            gradient,
        }
    }

    /// Where speed, retardation and gradient are: 0 below the range, 1 in it, 2 above it.
    pub fn places(self) -> [usize; 3] {
        [
            place(&SPEEDS, self.speed),
            place(&RETARDATIONS, self.retardation),
            place(&GRADIENTS, self.gradient),
        ]
    }

    pub fn is_in_range(self) -> bool {
        self.places() == [1; 3]
    }
}

fn place<T: PartialOrd>(range: &RangeInclusive<T>, value: T) -> usize {
    match range.contains(&value) {
        true => 1,
        false => 2 * usize::from(value > *range.end()),
    }
}

/// The inputs in range whose exact distance is a full 10 m.
pub const FULL: [Board; 33] = [
    Board::new(9, 1250, 0),
    Board::new(18, 500, 0),
    Board::new(27, 750, 0),
    Board::new(36, 500, 0),
    Board::new(36, 625, 0),
    Board::new(36, 1000, 0),
    Board::new(36, 1250, 0),
    Board::new(45, 1250, 0),
    Board::new(54, 500, 0),
    Board::new(54, 900, 0),
    Board::new(54, 1500, 0),
    Board::new(72, 500, 0),
    Board::new(72, 625, 0),
    Board::new(72, 800, 0),
    Board::new(72, 1000, 0),
    Board::new(72, 1250, 0),
    Board::new(81, 810, 0),
    Board::new(81, 1250, 0),
    Board::new(90, 500, 0),
    Board::new(99, 550, 0),
    Board::new(108, 500, 0),
    Board::new(108, 600, 0),
    Board::new(108, 625, 0),
    Board::new(108, 714, -25),
    Board::new(108, 750, 0),
    Board::new(108, 900, 0),
    Board::new(108, 1000, 0),
    Board::new(108, 1125, 0),
    Board::new(108, 1161, 25),
    Board::new(108, 1250, 0),
    Board::new(108, 1500, 0),
    Board::new(117, 650, 0),
    Board::new(117, 1250, 0),
];

/// Those that come within a hundredth of a millimetre of one.
pub const NEAR_FULL: [Board; 15] = [
    Board::new(13, 829, -12),
    Board::new(16, 1403, 8),
    Board::new(22, 1473, 13),
    Board::new(23, 754, 23),
    Board::new(26, 555, -11),
    Board::new(31, 1144, -6),
    Board::new(37, 950, -19),
    Board::new(38, 721, -1),
    Board::new(39, 1255, -2),
    Board::new(66, 980, -27),
    Board::new(76, 744, 29),
    Board::new(85, 1285, -7),
    Board::new(91, 1046, -12),
    Board::new(106, 1122, 23),
    Board::new(113, 1140, -29),
];

/// Mostly in range; three in sixteen are a printed cell, a full 10 m or near one, or one step from
/// these, or have each number at a bound or just outside.
pub fn board(rng: &mut Rng) -> Board {
    match rng.below(16) {
        0 => {
            let cell = Board {
                speed: rng.pick(&PRINTED_SPEEDS),
                retardation: PRINTED_FOR,
                gradient: rng.pick(&PRINTED_GRADIENTS),
            };
            rng.pick(&beside(cell))
        }
        1 => {
            let full = match rng.flag() {
                true => rng.pick(&FULL),
                false => rng.pick(&NEAR_FULL),
            };
            rng.pick(&beside(full))
        }
        2 => Board {
            speed: rng.pick(&SPEED_BOUNDS),
            retardation: rng.pick(&RETARDATION_BOUNDS),
            gradient: rng.pick(&GRADIENT_BOUNDS),
        },
        _ => Board {
            speed: value(rng, 1, 120),
            retardation: value(rng, 500, 1500),
            gradient: value(rng, -30, 30) as i16,
        },
    }
}

/// In range, or once in eight around a bound, right but for its high byte, or any.
fn value(rng: &mut Rng, low: i32, high: i32) -> u16 {
    let inside = low + rng.below((high - low + 1) as u32) as i32;
    let value = match rng.below(24) {
        0 => rng.pick(&[low - 1, low, high, high + 1]),
        1 => inside + 256 * rng.below(256) as i32,
        2 => rng.below(1 << 16) as i32,
        _ => inside,
    };
    value as u16
}

/// An input and those one step away.
fn beside(board: Board) -> [Board; 7] {
    let Board {
        speed,
        retardation,
        gradient,
    } = board;
    [
        board,
        Board::new(speed - 1, retardation, gradient),
        Board::new(speed + 1, retardation, gradient),
        Board::new(speed, retardation - 1, gradient),
        Board::new(speed, retardation + 1, gradient),
        Board::new(speed, retardation, gradient - 1),
        Board::new(speed, retardation, gradient + 1),
    ]
}

/// Bounds of the ranges and of the types, and values that are right but for their high byte.
const SPEED_EDGES: [u16; 14] = [
    0, 1, 2, 60, 119, 120, 121, 127, 255, 256, 257, 316, 32_828, 65_535,
];
const RETARDATION_EDGES: [u16; 14] = [
    0, 1, 120, 499, 500, 501, 870, 1499, 1500, 1501, 2548, 2918, 33_638, 65_535,
];
const GRADIENT_EDGES: [i16; 17] = [
    -32_768, -32_763, -256, -251, -31, -30, -29, -1, 0, 1, 29, 30, 31, 255, 256, 261, 32_767,
];

/// All of these with each other; the printed cells, every full 10 m and those near one, each with
/// the inputs beside it.
pub fn board_edges() -> impl Iterator<Item = Board> {
    let edges = SPEED_EDGES.into_iter().flat_map(|speed| {
        let others = RETARDATION_EDGES.into_iter().flat_map(|retardation| {
            let gradients = GRADIENT_EDGES.into_iter();
            gradients.map(move |gradient| (retardation, gradient))
        });
        others.map(move |(retardation, gradient)| Board::new(speed, retardation, gradient))
    });
    let cells = PRINTED_SPEEDS.into_iter().flat_map(|speed| {
        PRINTED_GRADIENTS.map(|gradient| Board::new(speed, PRINTED_FOR, gradient))
    });
    let few = cells.chain(FULL).chain(NEAR_FULL);
    edges.chain(few.flat_map(beside))
}

/// Just below each range, in it, and just above.
const NEAR: [Board; 3] = [
    Board::new(0, 499, -31),
    Board::new(60, 870, 5),
    Board::new(121, 1501, 31),
];

/// Every value of each, with every pair of places of the others; then every input in range.
pub fn board_grid() -> impl Iterator<Item = Board> {
    let pairs = || NEAR.iter().flat_map(|one| NEAR.map(|other| (one, other)));
    let values = (0..=u16::MAX).flat_map(move |value| {
        pairs().flat_map(move |(one, other)| {
            [
                Board::new(value, one.retardation, other.gradient),
                Board::new(one.speed, value, other.gradient),
                Board::new(one.speed, other.retardation, value as i16),
            ]
        })
    });
    let inputs = SPEEDS.flat_map(|speed| {
        let others = RETARDATIONS.flat_map(|retardation| GRADIENTS.map(move |h| (retardation, h)));
        others.map(move |(retardation, gradient)| Board::new(speed, retardation, gradient))
    });
    values.chain(inputs)
}
