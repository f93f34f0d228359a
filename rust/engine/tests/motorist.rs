//! The time for motorists between closures, document 02, T-06.

mod common;

use common::{at, closed, four_kinds, fresh, panel, pausing, refuse, report_all};
use common::{send, settings, take, ticks, TICK};
use engine::boom::{LOST, MOVING, UP};
use engine::{phase, Plant, PANEL};

const STRIKE_IN: [u8; 4] = [1, 0, 0, 0];
const PASSAGE: [u8; 4] = [2, 0, 0, 0];
const RELEASE: [u8; 4] = [7, 0, 0, 0];
/// A report that changes nothing.
const WHOLE: [u8; 4] = [9, 0, 0, 1];

/// An event, the ticks left after it and the whole panel.
type Row = ([u8; 4], u16, [u8; PANEL]);

/// Every event is taken and writes nothing off.
fn play(plant: &mut Plant, rows: &[Row]) {
    for (i, (e, left, bytes)) in rows.iter().enumerate() {
        assert_eq!(send(plant, *e), (0, 0), "row {i}");
        assert_eq!(plant.crossings[0].left, *left, "row {i}");
        assert_eq!(panel(plant, 0), *bytes, "row {i}");
    }
}

fn left(plant: &Plant) -> u16 {
    plant.crossings[0].left
}

fn is_normal(plant: &Plant) -> bool {
    panel(plant, 0)[9] & 1 == 1
}

/// Kind 3, F 2, M 3, from phase 3 at beat 2.
#[rustfmt::skip]
const CALLED: [Row; 12] = [
    (PASSAGE, 0, [2, 15, 0, 1, 0, 0, 1, 1, 0, 0, 4, 0, 0, 0, 0, 0]),
    (STRIKE_IN, 0, [2, 15, 0, 1, 0, 0, 1, 1, 0, 0, 4, 0, 1, 0, 0, 0]),
    ([8, 0, 0, UP], 0, [2, 15, 1, 1, 0, 0, 1, 1, 0, 0, 4, 0, 1, 0, 0, 0]),
    (TICK, 0, [2, 0, 1, 1, 0, 0, 1, 1, 0, 0, 4, 0, 1, 0, 0, 0]),
    ([8, 0, 1, UP], 3, [1, 0, 0, 0, 0, 0, 1, 1, 0, 1, 0, 0, 1, 0, 0, 0]),
    (TICK, 2, [1, 13, 0, 0, 0, 0, 1, 1, 0, 1, 0, 0, 1, 0, 0, 0]),
    (STRIKE_IN, 2, [1, 13, 0, 0, 0, 0, 1, 1, 0, 1, 0, 0, 2, 0, 0, 0]),
    (TICK, 1, [1, 0, 0, 0, 0, 0, 1, 1, 0, 1, 0, 0, 2, 0, 0, 0]),
    (PASSAGE, 1, [1, 0, 0, 0, 0, 0, 1, 1, 0, 1, 0, 0, 1, 0, 0, 0]),
    (TICK, 0, [2, 15, 1, 1, 0, 0, 1, 1, 0, 0, 1, 0, 1, 0, 0, 0]),
    (TICK, 0, [2, 0, 1, 1, 0, 0, 1, 1, 0, 0, 1, 0, 1, 0, 0, 0]),
    (TICK, 0, [2, 15, 1, 1, 1, 0, 1, 1, 0, 0, 3, 0, 1, 0, 0, 0]),
];

#[test]
fn a_train_calls_through_the_pause() {
    let mut plant = closed(3, 2, 3);
    play(&mut plant, &CALLED);
}

/// Kind 4, F 1, G 2, M 3, from the fresh plant.
#[rustfmt::skip]
const HELD: [Row; 13] = [
    ([3, 0, 0, 1], 0, [2, 15, 1, 1, 0, 0, 1, 1, 0, 0, 1, 1, 0, 0, 0, 0]),
    (TICK, 0, [2, 0, 1, 1, 1, 0, 1, 1, 0, 0, 2, 1, 0, 0, 0, 0]),
    ([3, 0, 0, 0], 0, [2, 0, 1, 1, 0, 0, 1, 1, 0, 0, 4, 0, 0, 0, 0, 0]),
    (WHOLE, 3, [1, 0, 0, 0, 0, 0, 1, 1, 0, 1, 0, 0, 0, 0, 0, 0]),
    ([4, 0, 0, 1], 3, [1, 0, 0, 0, 0, 0, 1, 1, 0, 1, 0, 2, 0, 0, 0, 0]),
    (TICK, 2, [1, 0, 0, 0, 0, 0, 1, 1, 0, 1, 0, 2, 0, 0, 0, 0]),
    ([3, 0, 0, 1], 2, [1, 0, 0, 0, 0, 0, 1, 1, 0, 1, 0, 3, 0, 0, 0, 0]),
    (TICK, 1, [1, 0, 0, 0, 0, 0, 1, 1, 0, 1, 0, 3, 0, 0, 0, 0]),
    ([4, 0, 0, 0], 1, [1, 0, 0, 0, 0, 0, 1, 1, 0, 1, 0, 1, 0, 0, 0, 0]),
    (TICK, 0, [2, 15, 1, 1, 0, 0, 1, 1, 0, 0, 1, 1, 0, 0, 0, 0]),
    (TICK, 0, [2, 0, 1, 1, 1, 0, 1, 1, 0, 0, 2, 1, 0, 0, 0, 0]),
    (TICK, 0, [2, 15, 1, 1, 1, 0, 1, 1, 0, 0, 2, 1, 0, 0, 0, 0]),
    (TICK, 0, [2, 0, 1, 1, 1, 1, 1, 1, 0, 0, 3, 1, 0, 0, 0, 0]),
];

#[test]
fn holds_wait_like_trains() {
    let mut plant = fresh(&[settings(4, 1, 3)]);
    play(&mut plant, &HELD);
}

/// Kind 1, F 2, M 3, from phase 3 at beat 2.
#[rustfmt::skip]
const LIGHTS: [Row; 8] = [
    (WHOLE, 0, [2, 13, 1, 0, 0, 0, 2, 2, 0, 2, 3, 0, 1, 0, 0, 0]),
    (PASSAGE, 3, [1, 0, 0, 0, 0, 0, 1, 1, 0, 1, 0, 0, 0, 0, 0, 0]),
    (STRIKE_IN, 3, [1, 0, 0, 0, 0, 0, 1, 1, 0, 1, 0, 0, 1, 0, 0, 0]),
    (TICK, 2, [1, 0, 0, 0, 0, 0, 1, 1, 0, 1, 0, 0, 1, 0, 0, 0]),
    (TICK, 1, [1, 13, 0, 0, 0, 0, 1, 1, 0, 1, 0, 0, 1, 0, 0, 0]),
    (TICK, 0, [2, 0, 1, 0, 0, 0, 1, 1, 0, 0, 1, 0, 1, 0, 0, 0]),
    (TICK, 0, [2, 13, 1, 0, 0, 0, 1, 1, 0, 0, 1, 0, 1, 0, 0, 0]),
    (TICK, 0, [2, 0, 1, 0, 0, 0, 2, 2, 0, 2, 3, 0, 1, 0, 0, 0]),
];

#[test]
fn lights_only_start_it_on_leaving_phase_3() {
    let mut plant = closed(1, 2, 3);
    play(&mut plant, &LIGHTS);
}

/// A release and a warning of lights only end on one tick: phase 3 for no longer than that, and
/// the time for motorists begins.
#[test]
fn lights_only_start_it_on_the_tick_of_both_ends() {
    let mut plant = pausing(1, 180, 100);
    ticks(&mut plant, 10);
    take(&mut plant, &[STRIKE_IN, RELEASE]);
    ticks(&mut plant, 90);
    assert_eq!((at(&plant, 0), left(&plant)), ((phase::WARNING, 180), 0));
    assert_eq!(ticks(&mut plant, 179), 0);
    assert_eq!(at(&plant, 0), (phase::WARNING, 1));
    assert_eq!(send(&mut plant, TICK), (0, 1));
    assert_eq!((at(&plant, 0), left(&plant)), ((phase::OPEN, 0), 100));
    let bytes = [1, 13, 0, 0, 0, 0, 1, 1, 0, 1, 0, 0, 0, 0, 0, 0];
    assert_eq!((plant.beat, panel(&plant, 0)), (0, bytes));
}

#[test]
fn a_warning_given_up_starts_none() {
    for kind in 1..=6 {
        let mut plant = fresh(&[settings(kind, 3, 5)]);
        for _ in 0..3 {
            take(&mut plant, &[STRIKE_IN, TICK, PASSAGE]);
            assert_eq!((at(&plant, 0), left(&plant)), ((phase::OPEN, 0), 0));
        }
        take(&mut plant, &[STRIKE_IN]);
        let pre = plant.site.entries[0].pre;
        assert_eq!(at(&plant, 0), (phase::WARNING, pre));
    }
}

/// One that a release gives up, in the first of its ticks after a pause, starts none either.
#[test]
fn a_release_ends_around_the_end_of_the_pause() {
    let after = [
        (540, phase::OPEN, 270),
        (271, phase::OPEN, 1),
        (270, phase::OPEN, 0),
        (269, phase::OPEN, 0),
        (265, phase::RAISING, 0),
    ];
    for (pause, phase, ticks_left) in after {
        let mut plant = pausing(2, 5, pause);
        take(&mut plant, &[STRIKE_IN, RELEASE]);
        assert_eq!(ticks(&mut plant, 269), 0);
        let warns = pause < 270;
        assert_eq!(plant.crossings[0].phase == phase::WARNING, warns);
        assert_eq!(is_normal(&plant), !warns);
        assert_eq!(send(&mut plant, TICK), (0, 1));
        assert_eq!(plant.crossings[0].phase, phase, "M {pause}");
        assert_eq!(left(&plant), ticks_left, "M {pause}");
        take(&mut plant, &[STRIKE_IN]);
        let waits = ticks_left > 0 || phase == phase::RAISING;
        let warning = plant.crossings[0].phase == phase::WARNING;
        assert_eq!(warning, !waits, "M {pause}");
    }
}

/// The release leaves the ticks; its panel has no train any more.
#[test]
fn a_release_within_the_pause() {
    let mut plant = pausing(2, 1, 540);
    take(&mut plant, &[STRIKE_IN, RELEASE]);
    assert_eq!(ticks(&mut plant, 269), 0);
    let calling = [1, 0, 0, 0, 0, 0, 1, 1, 0, 1, 0, 0, 1, 0, 0, 0];
    assert_eq!((plant.beat, panel(&plant, 0)), (2, calling));
    assert_eq!(send(&mut plant, TICK), (0, 1));
    let none = [1, 0, 0, 0, 0, 0, 1, 1, 0, 1, 0, 0, 0, 0, 0, 0];
    assert_eq!((left(&plant), panel(&plant, 0)), (270, none));
    assert_eq!(ticks(&mut plant, 270), 0);
    assert_eq!((at(&plant, 0), left(&plant)), ((phase::OPEN, 0), 0));
}

/// As document 01 has it.
#[test]
fn without_a_time_nothing_waits() {
    for kind in 1..=6 {
        let mut plant = pausing(kind, 2, 0);
        let pre = plant.site.entries[0].pre;
        take(&mut plant, &[STRIKE_IN]);
        assert_eq!(at(&plant, 0), (phase::WARNING, pre));
        let mut plant = closed(kind, 2, 0);
        take(&mut plant, &[PASSAGE, STRIKE_IN]);
        report_all(&mut plant, UP);
        assert_eq!((at(&plant, 0), left(&plant)), ((phase::WARNING, pre), 0));
    }
}

/// A mark set meanwhile leaves the crossing in normal position until no tick is left.
#[test]
fn a_marked_crossing_is_normal_meanwhile() {
    for kind in 1..=6 {
        let mut plant = pausing(kind, 2, 2);
        assert_eq!(take(&mut plant, &[STRIKE_IN; 256]), 1);
        assert_eq!(plant.crossings[0].unsure, [1, 0, 0, 0]);
        assert!(is_normal(&plant));
        take(&mut plant, &[TICK]);
        assert!(is_normal(&plant));
        assert_eq!(panel(&plant, 0)[12..], [255, 0, 0, 0]);
        take(&mut plant, &[TICK]);
        assert!(!is_normal(&plant));
        assert_eq!(plant.crossings[0].phase, phase::WARNING);
    }
}

/// Whatever comes, the crossing stays open and the ticks are left to the tick.
#[test]
fn no_event_but_a_tick_moves_it() {
    let events: [[u8; 4]; 16] = [
        [1, 0, 0, 0],
        [2, 0, 0, 0],
        [1, 0, 1, 0],
        [5, 0, 1, 1],
        [1, 0, 1, 0],
        [5, 0, 1, 0],
        [3, 0, 0, 1],
        [3, 0, 0, 0],
        [4, 0, 0, 1],
        [6, 0, 0, 1],
        [6, 0, 0, 0],
        [9, 0, 1, 0],
        [9, 0, 1, 1],
        [8, 0, 0, LOST],
        [8, 0, 0, MOVING],
        [8, 0, 0, UP],
    ];
    let mut plant = four_kinds();
    for c in 0..4u8 {
        plant.site.entries[usize::from(c)].pause = 9;
        plant.crossings[usize::from(c)].left = 7;
        // Kind 1 has no boom.
        for [code, _, place, value] in events.into_iter().filter(|e| e[0] != 8 || c > 0) {
            take(&mut plant, &[[code, c, place, value]]);
            let record = &plant.crossings[usize::from(c)];
            assert_eq!((record.phase, record.left), (phase::OPEN, 7));
            assert_eq!(panel(&plant, c.into())[6..9], [1, 1, 0]);
        }
    }
    ticks(&mut plant, 6);
    let lasts = |record: &engine::Crossing| (record.phase, record.left) == (phase::OPEN, 1);
    assert!(plant.crossings[..4].iter().all(lasts));
    ticks(&mut plant, 1);
    (0..4).for_each(|c| assert_eq!(at(&plant, c), (phase::WARNING, 2)));
}

#[test]
fn refusals_are_as_ever_meanwhile() {
    let mut plant = pausing(3, 2, 9);
    refuse(&plant, PASSAGE, 10);
    refuse(&plant, [5, 0, 0, 1], 13);
    take(&mut plant, &[[4, 0, 0, 1], STRIKE_IN]);
    refuse(&plant, [4, 0, 0, 0], 11);
    refuse(&plant, RELEASE, 12);
}

/// A boom that leaves its place ends normal position, and not the time for motorists.
#[test]
fn a_boom_lost_meanwhile() {
    let mut plant = pausing(3, 2, 3);
    take(&mut plant, &[[8, 0, 1, LOST], STRIKE_IN, TICK]);
    assert_eq!((left(&plant), plant.crossings[0].out), (2, 1));
    assert!(!is_normal(&plant));
    take(&mut plant, &[[8, 0, 1, UP]]);
    assert_eq!((left(&plant), plant.crossings[0].out), (2, 0));
    assert!(is_normal(&plant));
    take(&mut plant, &[[8, 0, 1, LOST], TICK]);
    assert_eq!(plant.crossings[0].phase, phase::OPEN);
    take(&mut plant, &[TICK]);
    assert_eq!(at(&plant, 0), (phase::WARNING, 2));
}

/// The time begins in normal position: ticks out of it end, however many there were.
#[test]
fn out_of_normal_ends_with_the_closure() {
    for kind in 2..=4 {
        let mut plant = closed(kind, 2, 3);
        ticks(&mut plant, 901);
        assert_eq!(panel(&plant, 0)[9] & 4, 4);
        take(&mut plant, &[PASSAGE, STRIKE_IN]);
        report_all(&mut plant, UP);
        assert_eq!((panel(&plant, 0)[9], plant.crossings[0].out), (1, 0));
        ticks(&mut plant, 2);
        assert_eq!((panel(&plant, 0)[9], plant.crossings[0].out), (1, 0));
        ticks(&mut plant, 1);
        assert_eq!((panel(&plant, 0)[9], plant.crossings[0].out), (0, 1));
    }
}

#[test]
fn neighbours_keep_their_own_time() {
    let mut plant = fresh(&[settings(1, 1, 2), settings(1, 1, 5)]);
    take(&mut plant, &[STRIKE_IN, [1, 1, 0, 0], TICK]);
    take(&mut plant, &[PASSAGE, [2, 1, 0, 0], STRIKE_IN]);
    let lefts = |plant: &Plant| [0, 1].map(|c: usize| plant.crossings[c].left);
    assert_eq!(lefts(&plant), [2, 5]);
    ticks(&mut plant, 2);
    assert_eq!(lefts(&plant), [0, 3]);
    assert_eq!(at(&plant, 0), (phase::WARNING, 1));
    assert_eq!(at(&plant, 1), (phase::OPEN, 0));
}
