//! Board distance (document 02, T-08): how far before the crossing the arrow board stands, by
//! source document 000, section 3.4.3.

use super::types::{number, BoardDistance};
use std::ops::{Add, Div, Mul, RangeInclusive};

/// Speeds in km/h, retardations in mm/s2 and gradients in per mille, a fall negative.
const SPEEDS: RangeInclusive<u16> = 1..=120;
const RETARDATIONS: RangeInclusive<u16> = 500..=1500;
const GRADIENTS: RangeInclusive<i16> = -30..=30;

/// A distance is a whole number of such steps, in metres.
const STEP: u16 = 10;

/// The printed table: its retardation, then metres by speed and gradient. The formula decides; at
/// 60 km/h and +5 it gives 210.
pub const PRINTED_FOR: u16 = 870;
pub const PRINTED_SPEEDS: [u16; 5] = [45, 60, 75, 100, 120];
pub const PRINTED_GRADIENTS: [i16; 7] = [15, 10, 5, 0, -5, -10, -15];
pub const PRINTED: [[u16; 7]; 5] = [
    [120, 120, 130, 130, 140, 140, 150],
    [190, 200, 200, 210, 220, 230, 250],
    [280, 290, 300, 320, 330, 350, 370],
    [470, 490, 510, 530, 560, 590, 620],
    [650, 680, 710, 740, 780, 820, 870],
];

/// The distance, or the number of the first that is out of range.
pub fn board_distance(speed: u16, retardation: u16, gradient: i16) -> BoardDistance {
    let answer = |number, distance| BoardDistance { number, distance };
    if !SPEEDS.contains(&speed) {
        return answer(number::SPEED_OUT_OF_RANGE, 0);
    }
    if !RETARDATIONS.contains(&retardation) {
        return answer(number::RETARDATION_OUT_OF_RANGE, 0);
    }
    if !GRADIENTS.contains(&gradient) {
        return answer(number::GRADIENT_OUT_OF_RANGE, 0);
    }
    let metres = metres(speed, retardation, gradient);
    answer(number::TAKEN, STEP * steps(metres))
}

/// The formula as it is printed, in metres and seconds. At the least retardation and the steepest
/// fall it still divides by more than 0.
fn metres(speed: u16, retardation: u16, gradient: i16) -> Fraction {
    let v = whole(speed) * fraction(1000, 3600);
    let d = fraction(retardation, 1000);
    let h = whole(gradient);
    let g = fraction(981, 100);
    v * v / (whole(2) * (d + g * h / whole(1000))) + whole(3) * v
}

/// The fewest steps that are not less, by halving.
fn steps(metres: Fraction) -> u16 {
    let (mut low, mut high) = (0, u16::MAX / STEP);
    while low < high {
        let middle = low + (high - low) / 2;
        match metres.is_above(STEP * middle) {
            true => low = middle + 1,
            false => high = middle,
        }
    }
    low
}

/// An exact number. Never reduced: what is worked out here is far below the bound of i128.
#[derive(Clone, Copy)]
struct Fraction {
    over: i128,
    /// More than 0.
    under: i128,
}

fn fraction(over: impl Into<i128>, under: impl Into<i128>) -> Fraction {
    Fraction {
        over: over.into(),
        under: under.into(),
    }
}

fn whole(number: impl Into<i128>) -> Fraction {
    fraction(number, 1)
}

impl Fraction {
    fn is_above(self, number: u16) -> bool {
        self.over > i128::from(number) * self.under
    }
}

impl Add for Fraction {
    type Output = Fraction;

    fn add(self, other: Fraction) -> Fraction {
        let over = self.over * other.under + other.over * self.under;
        fraction(over, self.under * other.under)
    }
}

impl Mul for Fraction {
    type Output = Fraction;

    fn mul(self, other: Fraction) -> Fraction {
        fraction(self.over * other.over, self.under * other.under)
    }
}

impl Div for Fraction {
    type Output = Fraction;

    fn div(self, other: Fraction) -> Fraction {
        fraction(self.over * other.under, self.under * other.over)
    }
}
