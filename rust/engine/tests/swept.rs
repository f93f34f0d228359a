//! Swept counters, document 02, T-01: a full track, the flag unsure and its end.

mod common;

use common::{entry, four_kinds, fresh, panel, refuse, send, take, ticks, TICK};
use engine::{boom, phase, Plant};

const RELEASE: [u8; 4] = [7, 0, 0, 0];

/// Kinds 1 to 4, tracks 0 plain and 1 dependent, one of them swept at every crossing.
fn swept(track: u8) -> Plant {
    let mut plant = four_kinds();
    for c in 0..4 {
        assert_eq!(take(&mut plant, &[[1, c, track, 0]; 255]), 0);
        assert_eq!(send(&mut plant, [1, c, track, 0]), (0, 1));
    }
    plant
}

#[test]
fn calling_and_waiting_fill_a_track_together() {
    let mut plant = fresh(&[entry(2, 2, 0b11, 2, 0)]);
    take(&mut plant, &[[5, 0, 0, 1]]);
    take(&mut plant, &[[1, 0, 0, 0]; 200]);
    take(&mut plant, &[[5, 0, 0, 0]]);
    assert_eq!(take(&mut plant, &[[1, 0, 0, 0]; 55]), 0);
    assert_eq!(plant.crossings[0].unsure, [0; 4]);
    for _ in 0..3 {
        assert_eq!(send(&mut plant, [1, 0, 0, 0]), (0, 1));
        assert_eq!(plant.crossings[0].calling, [200, 0, 0, 0]);
        assert_eq!(plant.crossings[0].waiting, [55, 0, 0, 0]);
        assert_eq!(plant.crossings[0].unsure, [1, 0, 0, 0]);
    }
    assert_eq!(take(&mut plant, &[[1, 0, 1, 0], [5, 0, 0, 1]]), 0);
    assert_eq!(send(&mut plant, [1, 0, 0, 0]), (0, 1));
    assert_eq!(plant.crossings[0].calling, [255, 0, 0, 0]);
    assert_eq!(plant.crossings[0].waiting, [0, 1, 0, 0]);
    assert_eq!(plant.crossings[0].unsure, [1, 0, 0, 0]);
}

#[test]
fn a_train_gone_makes_room_but_the_flag_stays() {
    let mut plant = swept(0);
    for c in 0..4 {
        assert_eq!(take(&mut plant, &[[2, c, 0, 0], [1, c, 0, 0]]), 0);
        assert_eq!(send(&mut plant, [1, c, 0, 0]), (0, 1));
        assert_eq!(plant.crossings[usize::from(c)].unsure, [1, 0, 0, 0]);
    }
}

#[test]
fn the_flag_alone_closes_and_keeps_closed() {
    let mut plant = swept(1);
    for c in 0..4 {
        let record = plant.crossings[usize::from(c)];
        assert_eq!((record.phase, record.timer), (phase::WARNING, 2));
        assert_eq!(record.calling, [0; 4]);
        take(&mut plant, &[[2, c, 1, 0]; 255]);
    }
    ticks(&mut plant, 5);
    for c in 0..4 {
        let record = plant.crossings[c];
        assert_eq!(record.phase, phase::ALL_DOWN);
        assert_eq!((record.calling, record.waiting), ([0; 4], [0; 4]));
        assert_eq!(panel(&plant, c)[12..], [0; 4]);
    }
}

#[test]
fn a_swept_strike_in_settles_its_crossing() {
    for kind in 2..=4 {
        let gap = if kind == 4 { 1 } else { 0 };
        let mut plant = fresh(&[entry(kind, 1, 1, 2, gap)]);
        plant.crossings[0].waiting[0] = 255;
        plant.crossings[0].phase = phase::RAISING;
        take(&mut plant, &[[1, 0, 0, 0]]);
        assert_eq!(plant.crossings[0].phase, phase::WARNING);
        plant.crossings[0].phase = phase::RAISING;
        plant.crossings[0].timer = 0;
        plant.crossings[0].booms[1] = boom::MOVING;
        take(&mut plant, &[[1, 0, 0, 0]]);
        assert_eq!(plant.crossings[0].phase, phase::RAISING);
    }
}

#[test]
fn what_leaves_the_flag() {
    let mut plant = swept(1);
    let others = [
        [2, 3, 1, 0],
        [5, 3, 1, 1],
        [2, 3, 1, 0],
        [5, 3, 1, 0],
        [1, 3, 1, 0],
        [3, 3, 0, 1],
        [3, 3, 0, 0],
        [4, 3, 0, 1],
        [6, 3, 1, 1],
        [6, 3, 1, 0],
        [7, 3, 0, 0],
        [8, 3, 2, boom::DOWN],
        [8, 3, 2, boom::UP],
        [9, 3, 1, 0],
        [9, 3, 1, 1],
        TICK,
    ];
    for e in others {
        if e[0] == 7 {
            take(&mut plant, &[[2, 3, 1, 0]; 254]);
            take(&mut plant, &[[4, 3, 0, 0]]);
        }
        assert_eq!(take(&mut plant, &[e]), 0);
        assert_eq!(plant.crossings[3].unsure, [0, 1, 0, 0], "{e:?}");
    }
}

#[test]
fn numbers_11_and_12_go_by_the_trains_and_holds() {
    let mut plant = swept(1);
    take(&mut plant, &[[4, 2, 0, 1]]);
    refuse(&plant, [7, 2, 0, 0], 12);
    take(&mut plant, &[[4, 2, 0, 0], [7, 2, 0, 0]]);
    assert_eq!(plant.crossings[2].countdown, 270);
    take(&mut plant, &[[5, 2, 1, 1], [4, 2, 0, 1]]);
    refuse(&plant, [4, 2, 0, 0], 11);
}

#[test]
fn a_swept_strike_in_cancels_a_release() {
    for track in 0..2 {
        let mut plant = swept(track);
        take(&mut plant, &[RELEASE]);
        ticks(&mut plant, 269);
        assert_eq!(send(&mut plant, [1, 0, track, 0]), (0, 1));
        assert_eq!(plant.crossings[0].countdown, 0);
        assert_eq!(ticks(&mut plant, 300), 0);
        assert_eq!(plant.crossings[0].unsure[usize::from(track)], 1);
    }
}

#[test]
fn other_cancelled_releases_leave_the_flag() {
    for e in [[3, 0, 0, 1], [4, 0, 0, 1], [5, 0, 1, 1], [6, 0, 0, 1]] {
        let mut plant = swept(1);
        take(&mut plant, &[RELEASE, TICK, e]);
        assert_eq!(ticks(&mut plant, 300), 0);
        assert_eq!(plant.crossings[0].unsure, [0, 1, 0, 0]);
    }
}

#[test]
fn a_release_clears_the_flags_of_its_crossing() {
    let mut plant = swept(0);
    for c in 0..4 {
        assert_eq!(take(&mut plant, &[[1, c, 1, 0]; 257]), 2);
        assert_eq!(plant.crossings[usize::from(c)].unsure, [1, 1, 0, 0]);
    }
    take(&mut plant, &[[7, 1, 0, 0], [7, 3, 0, 0]]);
    assert_eq!(ticks(&mut plant, 269), 0);
    assert_eq!(send(&mut plant, TICK), (0, 2 * 2 * 255));
    let unsure = [0, 1, 2, 3].map(|c: usize| plant.crossings[c].unsure);
    assert_eq!(unsure, [[1, 1, 0, 0], [0; 4], [1, 1, 0, 0], [0; 4]]);
    ticks(&mut plant, 1);
    let normal = [0, 1, 2, 3].map(|c| panel(&plant, c)[9] & 1);
    assert_eq!(normal, [0, 1, 0, 1]);
}

#[test]
fn the_flag_writes_nothing_off() {
    let mut plant = swept(0);
    take(&mut plant, &[[2, 2, 0, 0]; 255]);
    take(&mut plant, &[[7, 2, 0, 0]]);
    assert_eq!(ticks(&mut plant, 269), 0);
    assert_eq!(plant.crossings[2].phase, phase::ALL_DOWN);
    assert_eq!(send(&mut plant, TICK), (0, 0));
    assert_eq!(plant.crossings[2].unsure, [0; 4]);
    assert_eq!(plant.crossings[2].phase, phase::RAISING);
}

#[test]
fn a_run_sums_swept_trains() {
    let mut plant = fresh(&[entry(1, 1, 0, 2, 0)]);
    let mut events = vec![[1, 0, 0, 0]; 258];
    events.push(RELEASE);
    events.extend([TICK; 270]);
    let run = engine::run(&mut plant, &common::sheet(&events), &mut [0; 16]);
    assert_eq!((run.taken, run.refused, run.written_off), (529, 0, 258));
    assert_eq!(plant.crossings[0].unsure, [0; 4]);
}
