//! The chart: the starred rows, the two lines after them and the traps.

mod common;

use common::{entry, fresh, panel, program_case, refuse, take, ticks, TICK};
use engine::boom;

const STRIKE_IN: [u8; 4] = [1, 0, 0, 0];
const PASSAGE: [u8; 4] = [2, 0, 0, 0];
const BOTH_UP: [[u8; 4]; 2] = [[8, 0, 0, boom::UP], [8, 0, 1, boom::UP]];
const BOTH_MOVING: [[u8; 4]; 2] = [[8, 0, 0, boom::MOVING], [8, 0, 1, boom::MOVING]];
const BOTH_DOWN: [[u8; 4]; 2] = [[8, 0, 0, boom::DOWN], [8, 0, 1, boom::DOWN]];
const STOP: u8 = 1;
const PASSABLE: u8 = 2;

#[test]
fn fresh_kind_3() {
    let plant = fresh(&[entry(3, 1, 0, 2, 0)]);
    let bytes = [1, 0x0d, 0, 0, 0, 0, 1, 1, 0, 1, 0, 0, 0, 0, 0, 0];
    assert_eq!(panel(&plant, 0), bytes);
}

#[test]
fn program_case_panel() {
    let bytes = [2, 0x0f, 0, 1, 1, 0, 2, 2, 0, 2, 3, 0, 1, 0, 0, 0];
    assert_eq!(panel(&program_case(), 0), bytes);
}

#[test]
fn program_case_one_tick_fewer() {
    let mut plant = fresh(&[entry(3, 1, 0, 2, 0)]);
    take(&mut plant, &[STRIKE_IN, TICK]);
    take(&mut plant, &BOTH_DOWN);
    assert_eq!(plant.crossings[0].phase, 1);
    assert_eq!(panel(&plant, 0)[6], STOP);
}

#[test]
fn passage_during_warning() {
    let mut plant = fresh(&[entry(3, 1, 0, 2, 0)]);
    take(&mut plant, &[STRIKE_IN, TICK, PASSAGE]);
    assert_eq!(plant.crossings[0].phase, 0);
    assert_eq!(plant.crossings[0].timer, 0);
}

#[test]
fn passage_then_both_up() {
    let mut plant = program_case();
    take(&mut plant, &[PASSAGE]);
    assert_eq!(plant.crossings[0].phase, 4);
    assert_eq!(panel(&plant, 0)[6], STOP);
    take(&mut plant, &BOTH_UP);
    assert_eq!(plant.crossings[0].phase, 0);
}

#[test]
fn strike_in_while_rising() {
    let mut plant = program_case();
    take(&mut plant, &[PASSAGE, STRIKE_IN]);
    assert_eq!(plant.crossings[0].phase, 4);
    take(&mut plant, &BOTH_UP[..1]);
    assert_eq!(plant.crossings[0].phase, 4);
    take(&mut plant, &BOTH_UP[1..]);
    assert_eq!(plant.crossings[0].phase, 1);
    assert_eq!(plant.crossings[0].timer, 2);
}

#[test]
fn dependent_track() {
    for kind in 1..=4 {
        for track in 0..4 {
            let gap = if kind == 4 { 7 } else { 0 };
            let mut plant = fresh(&[entry(kind, 4, 1 << track, 5, gap)]);
            let t = usize::from(track);
            take(&mut plant, &[[1, 0, track, 0]]);
            assert_eq!(plant.crossings[0].waiting[t], 1);
            assert_eq!(plant.crossings[0].phase, 0);
            take(&mut plant, &[[5, 0, track, 1]]);
            assert_eq!(plant.crossings[0].waiting[t], 0);
            assert_eq!(plant.crossings[0].calling[t], 1);
            assert_eq!(plant.crossings[0].phase, 1);
        }
    }
}

#[test]
fn release_of_lights_only() {
    let mut plant = fresh(&[entry(1, 1, 0, 2, 0)]);
    take(&mut plant, &[STRIKE_IN, [7, 0, 0, 0]]);
    assert_eq!(ticks(&mut plant, 269), 0);
    assert_eq!(plant.crossings[0].phase, 3);
    assert_eq!(ticks(&mut plant, 1), 1);
    assert_eq!(plant.crossings[0].phase, 0);
}

#[test]
fn half_booms() {
    let mut plant = fresh(&[entry(2, 1, 0, 2, 0)]);
    take(&mut plant, &[STRIKE_IN, TICK, TICK]);
    take(&mut plant, &BOTH_MOVING);
    assert_eq!(plant.crossings[0].phase, 3);
    assert_eq!(panel(&plant, 0)[6], PASSABLE);
    for b in 0..2 {
        let mut one_up = plant;
        take(&mut one_up, &[[8, 0, b, boom::UP]]);
        assert_eq!(panel(&one_up, 0)[6], STOP);
    }
}

#[test]
fn road_red_dead() {
    let mut plant = program_case();
    take(&mut plant, &[[9, 0, 1, 0]]);
    let bytes = panel(&plant, 0);
    assert_eq!(bytes[0], 0);
    assert_eq!(bytes[6], STOP);
}

#[test]
fn fresh_one_tick() {
    let mut plant = fresh(&[entry(3, 1, 0, 2, 0)]);
    take(&mut plant, &[TICK]);
    assert_eq!(panel(&plant, 0)[1], 0);
    take(&mut plant, &[[9, 0, 4, 0]]);
    assert_eq!(panel(&plant, 0)[1], 13);
}

/// As document 02, T-01, has it; tests/swept.rs has the rest of that request.
#[test]
fn strike_in_255_and_256() {
    for (kind, mask) in (1..=4).flat_map(|kind| [(kind, 0), (kind, 1)]) {
        let gap = if kind == 4 { 1 } else { 0 };
        let mut plant = fresh(&[entry(kind, 1, mask, 2, gap)]);
        assert_eq!(take(&mut plant, &[STRIKE_IN; 255]), 0);
        assert_eq!(take(&mut plant, &[STRIKE_IN]), 1);
        let c = plant.crossings[0];
        let (calling, waiting) = if mask == 0 { (255, 0) } else { (0, 255) };
        assert_eq!((c.calling[0], c.waiting[0]), (calling, waiting));
        assert_eq!((c.unsure, c.phase), ([1, 0, 0, 0], 1));
        take(&mut plant, &[[7, 0, 0, 0]]);
        assert_eq!(ticks(&mut plant, 269), 0);
        assert_eq!(plant.crossings[0].unsure, [1, 0, 0, 0]);
        assert_eq!(ticks(&mut plant, 1), 255);
        assert_eq!(plant.crossings[0].unsure, [0; 4]);
    }
}

#[test]
fn out_of_normal_900_and_901() {
    for kind in 1..=4 {
        let gap = if kind == 4 { 1 } else { 0 };
        let mut plant = fresh(&[entry(kind, 1, 0, 2, gap)]);
        take(&mut plant, &[STRIKE_IN]);
        ticks(&mut plant, 900);
        assert_eq!(panel(&plant, 0)[9] & 4, 0);
        ticks(&mut plant, 1);
        assert_eq!(panel(&plant, 0)[9] & 4, 4);
        ticks(&mut plant, 300);
        assert_eq!(plant.crossings[0].out, 1080);
    }
}

#[test]
fn trap_neighbour_does_not_settle() {
    let mut plant = fresh(&[entry(3, 1, 0, 1, 0), entry(3, 1, 0, 1, 0)]);
    take(&mut plant, &[STRIKE_IN, TICK, PASSAGE]);
    assert_eq!(plant.crossings[0].phase, 4);
    take(&mut plant, &[[1, 1, 0, 0]]);
    assert_eq!(plant.crossings[0].phase, 4);
    take(&mut plant, &[[9, 0, 0, 1]]);
    assert_eq!(plant.crossings[0].phase, 0);
}

#[test]
fn trap_passage_keeps_holds() {
    let mut plant = fresh(&[entry(3, 1, 0, 1, 0)]);
    take(
        &mut plant,
        &[STRIKE_IN, [3, 0, 0, 1], [4, 0, 0, 1], PASSAGE],
    );
    assert_eq!(
        (plant.crossings[0].kiosk, plant.crossings[0].operator),
        (1, 1)
    );
    assert_eq!(plant.crossings[0].phase, 1);
}

#[test]
fn trap_refusal_does_not_settle() {
    let mut plant = fresh(&[entry(3, 1, 0, 1, 0)]);
    take(&mut plant, &[STRIKE_IN, TICK, PASSAGE]);
    assert_eq!(plant.crossings[0].phase, 4);
    refuse(&plant, PASSAGE, 10);
    refuse(&plant, [9, 0, 5, 0], 7);
}

#[test]
fn trap_stale_moving_in_warning() {
    let mut plant = fresh(&[entry(2, 1, 0, 2, 0)]);
    take(&mut plant, &BOTH_MOVING);
    take(&mut plant, &[STRIKE_IN, TICK]);
    assert_eq!(plant.crossings[0].phase, 1);
    assert_eq!(panel(&plant, 0)[6], STOP);
    take(&mut plant, &[TICK]);
    assert_eq!(panel(&plant, 0)[6], PASSABLE);
}

#[test]
fn a_passage_between_two_operator_commands() {
    let mut plant = program_case();
    take(&mut plant, &[[4, 0, 0, 1], PASSAGE]);
    assert_eq!(plant.crossings[0].phase, 3);
    take(&mut plant, &[[4, 0, 0, 0]]);
    assert_eq!(plant.crossings[0].phase, 4);
    take(&mut plant, &BOTH_UP);
    assert_eq!(panel(&plant, 0)[9], 1);
}
