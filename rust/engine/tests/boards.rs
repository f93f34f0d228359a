//! Board distance, document 02, T-08: the formula of source document 000, section 3.4.3, exact, up to
//! a full 10 m.

use engine::board::{PRINTED, PRINTED_FOR, PRINTED_GRADIENTS, PRINTED_SPEEDS};
use engine::{board_distance, BoardDistance};
use std::ops::RangeInclusive;

const SPEEDS: RangeInclusive<u16> = 1..=120;
const RETARDATIONS: RangeInclusive<u16> = 500..=1500;
const GRADIENTS: RangeInclusive<i16> = -30..=30;

/// The distance of an input in range.
fn taken(speed: u16, retardation: u16, gradient: i16) -> u16 {
    let answer = board_distance(speed, retardation, gradient);
    assert_eq!(answer.number, 0, "{speed} {retardation} {gradient}");
    answer.distance
}

/// The formula cleared by hand to one fraction in metres: over, under.
fn cleared(speed: u16, retardation: u16, gradient: i16) -> (i64, i64) {
    let [s, d, h]: [i64; 3] = [speed.into(), retardation.into(), gradient.into()];
    let a = 100 * d + 981 * h;
    (625_000 * s * s + 135 * s * a, 162 * a)
}

/// All inputs in range with one retardation in so many.
fn inputs(stride: usize) -> impl Iterator<Item = (u16, u16, i16)> {
    RETARDATIONS.step_by(stride).flat_map(|d| {
        let speeds = SPEEDS.flat_map(|s| GRADIENTS.map(move |h| (s, h)));
        speeds.map(move |(s, h)| (s, d, h))
    })
}

#[test]
fn the_printed_table() {
    let mut short = vec![];
    for (speed, row) in PRINTED_SPEEDS.into_iter().zip(PRINTED) {
        for (gradient, printed) in PRINTED_GRADIENTS.into_iter().zip(row) {
            let distance = taken(speed, PRINTED_FOR, gradient);
            if distance != printed {
                short.push((speed, gradient, printed, distance));
            }
        }
    }
    assert_eq!(short, [(60, 5, 200, 210)]);
    // 201.1 m.
    let (over, under) = cleared(60, 870, 5);
    assert_eq!((10 * over + under / 2) / under, 2011);
}

/// Every input in range whose exact distance is a full 10 m, found by the cleared fraction.
fn full() -> impl Iterator<Item = ((u16, u16, i16), i64)> {
    inputs(1).filter_map(|(s, d, h)| {
        let (over, under) = cleared(s, d, h);
        (over % (10 * under) == 0).then(|| ((s, d, h), over / under))
    })
}

#[test]
fn a_full_ten_stays() {
    let mut count = 0;
    for ((s, d, h), metres) in full() {
        assert_eq!(i64::from(taken(s, d, h)), metres, "{s} {d} {h}");
        count += 1;
    }
    assert_eq!(count, 33);
    assert_eq!(taken(9, 1250, 0), 10);
    assert_eq!(taken(108, 714, -25), 1050);
    assert_eq!(taken(108, 1161, 25), 410);
}

/// A little more speed, less retardation or more fall takes the next 10 m; the other way it stays.
#[test]
fn beside_a_full_ten() {
    let more = [taken(10, 1250, 0), taken(9, 1249, 0), taken(9, 1250, -1)];
    assert_eq!(more, [20; 3]);
    let less = [taken(8, 1250, 0), taken(9, 1251, 0), taken(9, 1250, 1)];
    assert_eq!(less, [10; 3]);
}

#[test]
fn the_least_full_ten_that_is_not_less() {
    for (s, d, h) in inputs(13) {
        let (over, under) = cleared(s, d, h);
        let distance = i64::from(taken(s, d, h));
        assert_eq!(distance % 10, 0, "{s} {d} {h}");
        let not_less = distance * under >= over;
        assert!(
            not_less && (distance - 10) * under < over,
            "{s} {d} {h}: {distance}"
        );
    }
}

#[test]
fn least_and_greatest() {
    assert_eq!(taken(1, 1500, 30), 10);
    assert_eq!(taken(120, 500, -30), 2810);
    let all = || inputs(20).map(|(s, d, h)| taken(s, d, h));
    assert_eq!((all().min(), all().max()), (Some(10), Some(2810)));
}

/// More speed never gives less; more retardation or more rise never gives more.
#[test]
fn one_step_along_each() {
    for (s, d, h) in inputs(50) {
        let distance = taken(s, d, h);
        assert!(s == 120 || taken(s + 1, d, h) >= distance, "{s} {d} {h}");
        assert!(d == 1500 || taken(s, d + 1, h) <= distance, "{s} {d} {h}");
        assert!(h == 30 || taken(s, d, h + 1) <= distance, "{s} {d} {h}");
    }
}

/// Refused with this number and distance 0.
fn refused(speed: u16, retardation: u16, gradient: i16, number: u8) {
    let distance = 0;
    let expected = BoardDistance { number, distance };
    let answer = board_distance(speed, retardation, gradient);
    assert_eq!(answer, expected, "{speed} {retardation} {gradient}");
}

#[test]
fn the_bounds() {
    let bounds = [
        (1, 500, -30),
        (120, 1500, 30),
        (1, 1500, -30),
        (120, 500, 30),
    ];
    for (s, d, h) in bounds {
        taken(s, d, h);
        for speed in [0, 121, 256 + 60, u16::MAX] {
            refused(speed, d, h, 19);
        }
        for retardation in [0, 499, 1501, u16::MAX] {
            refused(s, retardation, h, 20);
        }
        for gradient in [i16::MIN, -31, 31, 256, i16::MAX] {
            refused(s, d, gradient, 21);
        }
    }
}

/// Below, in range and above, each with each: the first that is out of range gives the number.
#[test]
fn the_order_of_the_numbers() {
    let speeds = [[0, 0], [1, 120], [121, u16::MAX]];
    let retardations = [[0, 499], [500, 1500], [1501, u16::MAX]];
    let gradients = [[i16::MIN, -31], [-30, 30], [31, i16::MAX]];
    let places = (0..27).map(|i| [i / 9, i / 3 % 3, i % 3]);
    for ([i, j, k], end) in places.flat_map(|place| [0, 1].map(|end| (place, end))) {
        let (s, d, h) = (speeds[i][end], retardations[j][end], gradients[k][end]);
        match [i, j, k].iter().position(|place| *place != 1) {
            Some(first) => refused(s, d, h, 19 + first as u8),
            None => assert!(taken(s, d, h) > 0),
        }
    }
}

/// Every value of each with the others in range.
#[test]
fn every_value() {
    for value in 0..=u16::MAX {
        let number = board_distance(value, 870, 5).number;
        assert_eq!(number == 0, SPEEDS.contains(&value), "speed {value}");
        let number = board_distance(60, value, 5).number;
        assert_eq!(number == 0, RETARDATIONS.contains(&value), "{value} mm/s2");
        let gradient = value as i16;
        let number = board_distance(60, 870, gradient).number;
        assert_eq!(number == 0, GRADIENTS.contains(&gradient), "{gradient}");
    }
}
