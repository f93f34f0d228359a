//! Events refused: every number, and their order.

mod common;

use common::{entry, four_kinds, fresh, refuse, take, TICK};
use engine::boom;

#[test]
fn unknown_code() {
    let plant = four_kinds();
    for code in 10..=255 {
        refuse(&plant, [code, 0, 0, 0], 5);
        refuse(&plant, [code, 255, 255, 255], 5);
    }
}

#[test]
fn unknown_crossing() {
    let plant = four_kinds();
    for code in 1..=9 {
        for crossing in 4..=255 {
            refuse(&plant, [code, crossing, 255, 255], 6);
        }
    }
    for crossing in 1..=255 {
        refuse(&plant, [0, crossing, 255, 255], 6);
        refuse(&plant, [0, crossing, 0, 0], 6);
    }
}

#[test]
fn unknown_place() {
    let plant = four_kinds();
    let places = |code: u8, kind: u8| match code {
        1 | 2 | 5 | 6 => 2,
        8 => [0, 2, 2, 4][usize::from(kind) - 1],
        9 => 5,
        _ => 1,
    };
    for code in 0..=9 {
        for kind in 1..=4 {
            let crossing = if code == 0 { 0 } else { kind - 1 };
            for place in places(code, kind)..=255 {
                refuse(&plant, [code, crossing, place, 255], 7);
                refuse(&plant, [code, crossing, place, 0], 7);
            }
        }
    }
}

#[test]
fn unknown_value() {
    let plant = four_kinds();
    let values = [1, 1, 1, 2, 2, 2, 2, 1, boom::LOST + 1, 2];
    for (code, known) in (0..).zip(values) {
        let crossing = if code == 0 { 0 } else { 3 };
        for value in known..=255 {
            refuse(&plant, [code, crossing, 0, value], 8);
        }
    }
}

#[test]
fn plain_track_after_place_and_value() {
    let plant = four_kinds();
    for crossing in 0..4 {
        refuse(&plant, [5, crossing, 0, 0], 13);
        refuse(&plant, [5, crossing, 0, 1], 13);
        refuse(&plant, [5, crossing, 0, 2], 8);
        refuse(&plant, [5, crossing, 2, 0], 7);
    }
}

/// Document 02, T-01: number 9 is not given, the others as on any track.
#[test]
fn full_track() {
    let mut plant = four_kinds();
    take(&mut plant, &[[1, 3, 0, 0]; 255]);
    for (e, number) in [([1, 3, 0, 1], 8), ([1, 3, 2, 0], 7), ([1, 4, 0, 0], 6)] {
        refuse(&plant, e, number);
    }
    assert_eq!(take(&mut plant, &[[1, 3, 0, 0]; 3]), 3);
}

#[test]
fn ghost_passage() {
    let mut plant = four_kinds();
    for crossing in 0..4 {
        for track in 0..2 {
            refuse(&plant, [2, crossing, track, 0], 10);
            refuse(&plant, [2, crossing, track, 1], 8);
        }
    }
    take(&mut plant, &[[1, 0, 0, 0], [2, 0, 0, 0]]);
    refuse(&plant, [2, 0, 0, 0], 10);
}

#[test]
fn train_calling() {
    let mut plant = four_kinds();
    take(&mut plant, &[[1, 1, 0, 0]]);
    refuse(&plant, [4, 1, 0, 0], 11);
    take(&mut plant, &[[4, 1, 0, 1]]);
    refuse(&plant, [4, 1, 0, 0], 11);
    take(&mut plant, &[[4, 0, 0, 0], [2, 1, 0, 0], [1, 1, 1, 0]]);
    take(&mut plant, &[[4, 1, 0, 0]]);
    assert_eq!(plant.crossings[1].operator, 0);
}

#[test]
fn not_clear() {
    let mut plant = fresh(&[entry(4, 4, 0b1111, 2, 1), entry(1, 1, 0, 1, 0)]);
    for track in 0..4 {
        for code in [5, 6] {
            take(&mut plant, &[[code, 0, track, 1]]);
            refuse(&plant, [7, 0, 0, 0], 12);
            take(&mut plant, &[[7, 1, 0, 0], [code, 0, track, 0]]);
        }
    }
    for code in [3, 4] {
        take(&mut plant, &[[code, 0, 0, 1]]);
        refuse(&plant, [7, 0, 0, 0], 12);
        take(&mut plant, &[[code, 0, 0, 0], [7, 0, 0, 0]]);
    }
    refuse(&plant, [7, 0, 1, 0], 7);
    refuse(&plant, [7, 0, 0, 1], 8);
}

#[test]
fn spoilt_plant_comes_first() {
    let mut plant = four_kinds();
    plant.beat = 4;
    refuse(&plant, TICK, 15);
    refuse(&plant, [255; 4], 15);
    let mut panel = [7; 3];
    assert_eq!(engine::draw(&plant, 0, &mut panel), 15);
    assert_eq!(engine::run(&mut plant, &[], &mut panel).number, 15);
    assert_eq!(panel, [7; 3]);
}
