//! Taken events: trains, holds, routes, releases, timers, settling.

mod common;

use common::{at, entry, four_kinds, fresh, panel, send, take, ticks, TICK};
use engine::{boom, phase};

#[test]
fn strike_in_by_track_and_route() {
    let mut plant = four_kinds();
    take(&mut plant, &[[1, 2, 0, 0], [1, 2, 1, 0]]);
    assert_eq!(plant.crossings[2].calling, [1, 0, 0, 0]);
    assert_eq!(plant.crossings[2].waiting, [0, 1, 0, 0]);
    take(&mut plant, &[[5, 2, 1, 1], [1, 2, 1, 0]]);
    assert_eq!(plant.crossings[2].calling, [1, 2, 0, 0]);
    take(&mut plant, &[[5, 2, 1, 0], [1, 2, 1, 0]]);
    assert_eq!(plant.crossings[2].calling, [1, 2, 0, 0]);
    assert_eq!(plant.crossings[2].waiting, [0, 1, 0, 0]);
    assert_eq!(plant.crossings[2].route[1], 0);
}

#[test]
fn passage_takes_calling_first() {
    let mut plant = four_kinds();
    take(&mut plant, &[[5, 0, 1, 1], [1, 0, 1, 0], [5, 0, 1, 0]]);
    take(&mut plant, &[[1, 0, 1, 0], [2, 0, 1, 0]]);
    assert_eq!(plant.crossings[0].calling[1], 0);
    assert_eq!(plant.crossings[0].waiting[1], 1);
    take(&mut plant, &[[2, 0, 1, 0]]);
    assert_eq!(plant.crossings[0].waiting[1], 0);
}

#[test]
fn holds_close_and_open() {
    for code in [3, 4] {
        let mut plant = four_kinds();
        take(&mut plant, &[[code, 1, 0, 1], [code, 1, 0, 1]]);
        assert_eq!(at(&plant, 1), (phase::WARNING, 2));
        assert_eq!(panel(&plant, 1)[11], code - 2);
        take(&mut plant, &[[code, 1, 0, 0], [code, 1, 0, 0]]);
        assert_eq!(at(&plant, 1), (phase::OPEN, 0));
    }
}

#[test]
fn kiosk_off_is_taken_while_calling() {
    let mut plant = four_kinds();
    take(&mut plant, &[[3, 0, 0, 1], [1, 0, 0, 0], [3, 0, 0, 0]]);
    assert_eq!(plant.crossings[0].kiosk, 0);
    assert_eq!(at(&plant, 0), (phase::WARNING, 2));
}

#[test]
fn every_kind_closes_in_its_order() {
    let mut plant = four_kinds();
    let all: Vec<[u8; 4]> = (0..4).map(|c| [1, c, 0, 0]).collect();
    take(&mut plant, &all);
    ticks(&mut plant, 1);
    (0..4).for_each(|c| assert_eq!(at(&plant, c), (phase::WARNING, 1)));
    ticks(&mut plant, 1);
    (0..3).for_each(|c| assert_eq!(at(&plant, c), (phase::ALL_DOWN, 0)));
    assert_eq!(at(&plant, 3), (phase::RIGHT_DOWN, 3));
    assert_eq!(panel(&plant, 3)[4..6], [1, 0]);
    ticks(&mut plant, 2);
    assert_eq!(at(&plant, 3), (phase::RIGHT_DOWN, 1));
    ticks(&mut plant, 1);
    assert_eq!(at(&plant, 3), (phase::ALL_DOWN, 0));
    assert_eq!(panel(&plant, 3)[4..6], [1, 1]);
}

#[test]
fn four_booms_open_from_phase_2() {
    let mut plant = four_kinds();
    take(
        &mut plant,
        &[[1, 3, 0, 0], TICK, TICK, [8, 3, 0, boom::MOVING]],
    );
    take(&mut plant, &[[2, 3, 0, 0]]);
    assert_eq!(at(&plant, 3), (phase::RAISING, 0));
    take(&mut plant, &[[8, 3, 0, boom::UP]]);
    assert_eq!(at(&plant, 3), (phase::OPEN, 0));
}

#[test]
fn settles_once() {
    let mut plant = four_kinds();
    take(&mut plant, &[[1, 2, 0, 0], TICK, TICK, [2, 2, 0, 0]]);
    assert_eq!(at(&plant, 2), (phase::RAISING, 0));
    ticks(&mut plant, 1);
    assert_eq!(at(&plant, 2), (phase::OPEN, 0));
    take(&mut plant, &[[1, 0, 0, 0], TICK, TICK, [2, 0, 0, 0]]);
    assert_eq!(at(&plant, 0), (phase::OPEN, 0));
}

#[test]
fn release_and_warning_end_on_one_tick() {
    let after = [(0, 0), (4, 0), (4, 0), (4, 0)];
    for (crossing, expected) in after.into_iter().enumerate() {
        let mut plant = four_kinds();
        take(&mut plant, &[[1, crossing as u8, 0, 0]]);
        plant.crossings[crossing].timer = 1;
        plant.crossings[crossing].countdown = 1;
        assert_eq!(send(&mut plant, TICK), (0, 1));
        assert_eq!(at(&plant, crossing), expected);
    }
}

#[test]
fn release_is_cancelled() {
    let cancelling = [
        [1, 0, 0, 0],
        [1, 0, 1, 0],
        [3, 0, 0, 1],
        [4, 0, 0, 1],
        [5, 0, 1, 1],
        [6, 0, 0, 1],
        [6, 0, 1, 1],
    ];
    for e in cancelling {
        let mut plant = four_kinds();
        take(&mut plant, &[[1, 0, 0, 0], [7, 0, 0, 0], TICK]);
        assert_eq!(plant.crossings[0].countdown, 269);
        take(&mut plant, &[e]);
        assert_eq!(plant.crossings[0].countdown, 0);
        assert_eq!(ticks(&mut plant, 600), 0);
    }
}

#[test]
fn a_repeat_cancels_too() {
    for e in [[3, 0, 0, 1], [4, 0, 0, 1], [5, 0, 1, 1], [6, 0, 0, 1]] {
        let mut plant = four_kinds();
        take(&mut plant, &[e]);
        plant.crossings[0].countdown = 5;
        take(&mut plant, &[e]);
        assert_eq!(plant.crossings[0].countdown, 0);
    }
}

#[test]
fn release_is_kept() {
    let mut plant = four_kinds();
    take(
        &mut plant,
        &[[1, 1, 0, 0], [1, 1, 0, 0], [7, 1, 0, 0], TICK],
    );
    let kept = [
        [2, 1, 0, 0],
        [3, 1, 0, 0],
        [5, 1, 1, 0],
        [6, 1, 0, 0],
        [8, 1, 0, boom::MOVING],
        [9, 1, 0, 0],
        [1, 0, 0, 0],
    ];
    take(&mut plant, &kept);
    assert_eq!(plant.crossings[1].countdown, 269);
    common::refuse(&plant, [4, 1, 0, 0], 11);
    take(&mut plant, &[[2, 1, 0, 0], [4, 1, 0, 0]]);
    assert_eq!(plant.crossings[1].countdown, 269);
    take(&mut plant, &[[7, 1, 0, 0]]);
    assert_eq!(plant.crossings[1].countdown, 270);
}

#[test]
fn release_clears_all_tracks_of_all_due_crossings() {
    let mut plant = fresh(&[entry(4, 4, 0b1010, 2, 2), entry(2, 2, 0b11, 2, 0)]);
    take(&mut plant, &[[1, 0, 0, 0], [1, 0, 1, 0], [1, 0, 3, 0]]);
    take(&mut plant, &[[1, 1, 0, 0], [1, 1, 1, 0]]);
    take(&mut plant, &[[7, 0, 0, 0], [7, 1, 0, 0]]);
    assert_eq!(ticks(&mut plant, 269), 0);
    assert_eq!(send(&mut plant, TICK), (0, 5));
    for c in &plant.crossings[..2] {
        assert_eq!((c.calling, c.waiting), ([0; 4], [0; 4]));
    }
    assert_eq!(ticks(&mut plant, 300), 0);
}

#[test]
fn out_of_normal_is_counted_by_ticks_and_cleared_at_once() {
    let mut plant = four_kinds();
    take(
        &mut plant,
        &[[8, 1, 1, boom::MOVING], TICK, TICK, [9, 1, 0, 0]],
    );
    assert_eq!(plant.crossings[1].out, 2);
    assert_eq!(plant.crossings[1].phase, phase::OPEN);
    assert_eq!(plant.crossings[0].out, 0);
    take(&mut plant, &[[8, 1, 1, boom::UP]]);
    assert_eq!(plant.crossings[1].out, 0);
}

#[test]
fn beat_goes_round() {
    let mut plant = four_kinds();
    for expected in [1, 2, 3, 0, 1] {
        ticks(&mut plant, 1);
        assert_eq!(plant.beat, expected);
    }
}

#[test]
fn reports_are_kept() {
    let mut plant = four_kinds();
    for value in [boom::LOST, boom::DOWN, boom::MOVING, boom::UP] {
        for b in 0..4 {
            take(&mut plant, &[[8, 3, b, value]]);
            assert_eq!(plant.crossings[3].booms[usize::from(b)], value);
        }
    }
    for value in [0, 1] {
        for lamp in 0..5 {
            take(&mut plant, &[[9, 0, lamp, value]]);
            assert_eq!(plant.crossings[0].lamps[usize::from(lamp)], value);
        }
    }
}
