//! The panel, byte by byte.

mod common;

use common::{entry, four_kinds, fresh, panel, program_case, take, ticks, TICK};
use engine::{boom, draw, sender, Plant};

/// All four kinds with a train, all ordered down, every boom down.
fn closed() -> Plant {
    let mut plant = four_kinds();
    for c in 0..4 {
        take(&mut plant, &[[1, c, 0, 0]]);
    }
    ticks(&mut plant, 5);
    for (c, booms) in [(1, 2), (2, 2), (3, 4)] {
        for b in 0..booms {
            take(&mut plant, &[[8, c, b, boom::DOWN]]);
        }
    }
    plant
}

#[test]
fn closed_kinds() {
    let plant = closed();
    let bell_and_lamps = [[1, 0], [0, 1], [0, 1], [0, 1]];
    let orders = [[0, 0], [1, 0], [1, 0], [1, 1]];
    for c in 0..4 {
        let bytes = panel(&plant, c);
        assert_eq!(bytes[0], 2);
        assert_eq!(bytes[1], 0);
        assert_eq!(bytes[2..4], bell_and_lamps[c]);
        assert_eq!(bytes[4..6], orders[c]);
        assert_eq!(bytes[6..10], [2, 2, 0, 2]);
        assert_eq!(bytes[10..], [3, 0, 1, 0, 0, 0]);
    }
}

#[test]
fn rhythms() {
    let normal = [13, 0, 0, 0];
    let closed_lit = [15, 0, 15, 0];
    let mut quiet = fresh(&[entry(3, 1, 0, 2, 0)]);
    let mut busy = program_case();
    for tick in 0..8 {
        assert_eq!(panel(&quiet, 0)[1], normal[tick % 4]);
        assert_eq!(panel(&busy, 0)[1], closed_lit[(tick + 2) % 4]);
        ticks(&mut quiet, 1);
        ticks(&mut busy, 1);
    }
    take(&mut quiet, &[[9, 0, 4, 0]]);
    take(&mut busy, &[[9, 0, 4, 0]]);
    for _ in 0..4 {
        assert_eq!(panel(&quiet, 0)[1], 13);
        assert_eq!(panel(&busy, 0)[1], 15);
        ticks(&mut quiet, 1);
        ticks(&mut busy, 1);
    }
}

#[test]
fn dead_lamps_count_where_their_aspect_is_due() {
    let quiet = fresh(&[entry(3, 1, 0, 2, 0)]);
    let busy = program_case();
    let shown = |plant: &Plant, lamp: u8| {
        let mut dead = *plant;
        take(&mut dead, &[[9, 0, lamp, 0]]);
        let bytes = panel(&dead, 0);
        [bytes[0], bytes[1], bytes[6], bytes[7]]
    };
    assert_eq!(shown(&quiet, 0), [0, 12, 1, 1]);
    assert_eq!(shown(&quiet, 1), [1, 13, 1, 1]);
    assert_eq!(shown(&quiet, 2), [1, 9, 0, 1]);
    assert_eq!(shown(&quiet, 3), [1, 13, 1, 1]);
    assert_eq!(shown(&busy, 0), [2, 15, 2, 2]);
    assert_eq!(shown(&busy, 1), [0, 14, 1, 1]);
    assert_eq!(shown(&busy, 2), [2, 15, 2, 2]);
    assert_eq!(shown(&busy, 3), [2, 11, 0, 1]);
}

#[test]
fn secured_and_released_go_by_secured_alone() {
    let mut plant = fresh(&[entry(3, 3, 0b110, 1, 0)]);
    take(
        &mut plant,
        &[[5, 0, 1, 1], [5, 0, 2, 1], [1, 0, 1, 0], TICK],
    );
    take(&mut plant, &[[8, 0, 0, boom::DOWN]]);
    assert_eq!(panel(&plant, 0)[8], 0);
    take(&mut plant, &[[8, 0, 1, boom::DOWN], [9, 0, 3, 0]]);
    let bytes = panel(&plant, 0);
    assert_eq!(bytes[6..10], [0, 1, 0b110, 2]);
    take(&mut plant, &[[5, 0, 1, 0]]);
    assert_eq!(panel(&plant, 0)[8], 0b100);
}

#[test]
fn bell_is_silent_whenever_all_booms_are_down() {
    let mut plant = four_kinds();
    take(&mut plant, &[[8, 1, 0, boom::DOWN]]);
    assert_eq!(panel(&plant, 1)[2..4], [1, 1]);
    take(&mut plant, &[[8, 1, 1, boom::DOWN]]);
    assert_eq!(panel(&plant, 1)[2..4], [0, 1]);
    assert_eq!(plant.crossings[1].phase, 0);
    assert_eq!(panel(&plant, 1)[0], 2);
    assert_eq!(panel(&plant, 1)[9], 0);
}

#[test]
fn secured_by_kind() {
    let plant = closed();
    let secure = |c: u8| match c {
        1 => vec![boom::MOVING, boom::DOWN],
        _ => vec![boom::DOWN],
    };
    for b in 0..4u8 {
        for value in boom::UP..=boom::LOST {
            for c in 1..4u8 {
                if c < 3 && b > 1 {
                    continue;
                }
                let mut changed = plant;
                take(&mut changed, &[[8, c, b, value]]);
                let secured = secure(c).contains(&value);
                let bytes = panel(&changed, c.into());
                assert_eq!(bytes[9] & 2 == 2, secured);
                assert_eq!(bytes[6], if secured { 2 } else { 1 });
            }
        }
    }
}

#[test]
fn sums_low_byte_first() {
    let mut plant = fresh(&[entry(1, 4, 0b1100, 2, 0)]);
    plant.crossings[0].calling = [255, 254, 3, 0];
    plant.crossings[0].waiting = [0, 0, 252, 255];
    let bytes = panel(&plant, 0);
    assert_eq!(bytes[12..14], 512u16.to_le_bytes());
    assert_eq!(bytes[14..16], 507u16.to_le_bytes());
}

#[test]
fn wrong_frame_leaves_the_bytes() {
    let plant = four_kinds();
    for len in (0..130).filter(|len| *len != 64) {
        let mut bytes = vec![0x77; len];
        assert_eq!(draw(&plant, sender::DETECTION, &mut bytes), 14);
        assert_eq!(bytes, vec![0x77; len]);
    }
}
