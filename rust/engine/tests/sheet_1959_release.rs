//! What ends a closure of six minutes under the sheet of 1959, document 02, T-09.

mod common;

use common::{at, closed, entry, fresh, panel, paused, report_all, send, settings, sheet};
use common::{take, ticks, TICK};
use engine::boom::{DOWN, LOST, UP};
use engine::{phase, Crossing, Plant};

const STRIKE_IN: [u8; 4] = [1, 0, 0, 0];
const PASSAGE: [u8; 4] = [2, 0, 0, 0];

/// Closed by trains on a plain track and on a dependent one, its route set; out of normal for so
/// long.
fn overdue(kind: u8, out: u16) -> Plant {
    let mut plant = fresh(&[entry(kind, 2, 0b10, 15, u16::from(kind == 4))]);
    take(&mut plant, &[STRIKE_IN, [1, 0, 1, 0], [1, 0, 1, 0]]);
    ticks(&mut plant, 16);
    report_all(&mut plant, DOWN);
    assert_eq!(at(&plant, 0), (phase::ALL_DOWN, 0));
    plant.crossings[0].out = out;
    plant
}

/// The record after a tick, and what it wrote off.
fn after_tick(mut plant: Plant) -> (Crossing, u32) {
    let (number, written_off) = send(&mut plant, TICK);
    assert_eq!(number, 0);
    (plant.crossings[0], written_off)
}

#[test]
fn six_minutes_from_fresh() {
    for kind in 1..=6 {
        let mut plant = fresh(&[settings(kind, 2, 0)]);
        take(&mut plant, &[STRIKE_IN]);
        ticks(&mut plant, 20);
        report_all(&mut plant, DOWN);
        assert_eq!(ticks(&mut plant, 1059), 0);
        assert_eq!((at(&plant, 0), plant.crossings[0].out), ((3, 0), 1079));
        let (record, written_off) = after_tick(plant);
        match kind {
            5 => assert_eq!((record.phase, record.out, written_off), (0, 0, 1)),
            6 => assert_eq!((record.phase, record.out, written_off), (4, 1080, 1)),
            _ => assert_eq!((record.phase, record.out, written_off), (3, 1080, 0)),
        }
    }
}

/// The same as a sheet, whose counts carry the train.
#[test]
fn six_minutes_as_a_sheet() {
    for (count, written_off) in [(1079, 0), (1080, 1), (1081, 1)] {
        let mut events = vec![TICK; 1 + count];
        events[0] = STRIKE_IN;
        let mut plant = fresh(&[settings(5, 2, 0)]);
        let answer = engine::run(&mut plant, &sheet(&events), &mut [0; 16]);
        assert_eq!(answer.number, 0);
        assert_eq!(answer.written_off, written_off);
    }
}

#[test]
fn from_1079_on() {
    for (kind, out) in [5, 6]
        .into_iter()
        .flat_map(|k| (0..=1080).map(move |o| (k, o)))
    {
        let (record, written_off) = after_tick(overdue(kind, out));
        let due = out >= 1079;
        assert_eq!(written_off, if due { 3 } else { 0 }, "{kind} {out}");
        assert_eq!(record.phase == phase::ALL_DOWN, !due, "{kind} {out}");
    }
}

/// At no other kind, however long.
#[test]
fn never_at_kinds_1_to_4() {
    for kind in 1..=4 {
        for out in [1078, 1079, 1080] {
            let mut plant = overdue(kind, out);
            assert_eq!(ticks(&mut plant, 10), 0);
            let record = &plant.crossings[0];
            assert_eq!((record.phase, record.out), (phase::ALL_DOWN, 1080));
            assert_eq!((record.calling[0], record.waiting[1]), (1, 2));
        }
    }
}

/// Each of these keeps it closed, for as long as it is there.
#[test]
fn holds_and_approaches_hinder() {
    let hindrances: [([u8; 4], [u8; 4]); 4] = [
        ([3, 0, 0, 1], [3, 0, 0, 0]),
        ([4, 0, 0, 1], [4, 0, 0, 0]),
        ([6, 0, 0, 1], [6, 0, 0, 0]),
        ([6, 0, 1, 1], [6, 0, 1, 0]),
    ];
    for (kind, (on, off)) in [5, 6].into_iter().flat_map(|k| hindrances.map(|h| (k, h))) {
        let mut plant = overdue(kind, 1078);
        take(&mut plant, &[on]);
        assert_eq!(ticks(&mut plant, 20), 0);
        let record = plant.crossings[0];
        assert_eq!((record.phase, record.out), (phase::ALL_DOWN, 1080));
        if on[0] == 4 {
            // Not off while a train is calling.
            plant.crossings[0].operator = 0;
        } else {
            take(&mut plant, &[off]);
        }
        assert_eq!(after_tick(plant).1, 3);
    }
}

/// Both kinds also with a hold beside a free approach, and the other way round.
#[test]
fn every_hindrance_is_looked_at() {
    for (kind, out) in [5, 6]
        .into_iter()
        .flat_map(|k| [1079, 1080].map(|o| (k, o)))
    {
        for bits in 0..16u8 {
            let mut plant = overdue(kind, out);
            let c = &mut plant.crossings[0];
            (c.kiosk, c.operator) = (bits & 1, bits >> 1 & 1);
            (c.occupied[0], c.occupied[1]) = (bits >> 2 & 1, bits >> 3);
            let written_off = if bits == 0 { 3 } else { 0 };
            assert_eq!(after_tick(plant).1, written_off, "{bits}");
        }
    }
}

#[test]
fn a_route_does_not_hinder() {
    for kind in [5, 6] {
        let mut plant = overdue(kind, 1079);
        take(&mut plant, &[[5, 0, 1, 1]]);
        assert_eq!(plant.crossings[0].calling, [1, 2, 0, 0]);
        let (record, written_off) = after_tick(plant);
        assert_eq!(written_off, 3);
        assert_eq!(record.route, [0, 1, 0, 0]);
        assert_eq!((record.calling, record.waiting), ([0; 4], [0; 4]));
    }
}

/// Nothing is written off over the marks.
#[test]
fn marks_end_too() {
    for (kind, trains) in [5, 6].into_iter().flat_map(|k| [0, 1].map(|t| (k, t))) {
        let mut plant = overdue(kind, 1079);
        let c = &mut plant.crossings[0];
        (c.unsure[0], c.unsure[1]) = (1, 1);
        (c.calling[0], c.waiting[1]) = (trains, 0);
        let (record, written_off) = after_tick(plant);
        assert_eq!((record.unsure, written_off), ([0; 4], trains.into()));
        assert_ne!(record.phase, phase::ALL_DOWN);
    }
}

/// A running countdown ends with it, its last tick writes off no more, and a later one is as ever.
#[test]
fn in_the_place_of_the_countdown() {
    for (kind, countdown) in [5, 6]
        .into_iter()
        .flat_map(|k| [0, 1, 2, 270].map(|c| (k, c)))
    {
        let mut plant = overdue(kind, 1079);
        plant.crossings[0].countdown = countdown;
        let (record, written_off) = after_tick(plant);
        assert_eq!((record.countdown, written_off), (0, 3));
        plant.crossings[0].out = 1078;
        let (record, written_off) = after_tick(plant);
        assert_eq!(record.countdown, countdown.saturating_sub(1));
        assert_eq!(written_off, if countdown == 1 { 3 } else { 0 });
        plant.crossings[0].out = 1079;
        plant.crossings[0].kiosk = 1;
        assert_eq!(after_tick(plant).0.countdown, countdown.saturating_sub(1));
    }
}

/// A warning that ends on that tick: the timer comes after, so the booms are ordered down first.
#[test]
fn before_the_timer() {
    for kind in [5, 6] {
        for (timer, phase) in [
            (2, phase::OPEN),
            (1, [phase::OPEN, phase::RAISING][kind - 5]),
        ] {
            let mut plant = overdue(kind as u8, 1079);
            let c = &mut plant.crossings[0];
            (c.phase, c.timer, c.booms) = (phase::WARNING, timer, [0; 4]);
            let (record, written_off) = after_tick(plant);
            assert_eq!((record.phase, record.timer, written_off), (phase, 0, 3));
        }
    }
}

/// Ticks out of normal stay at 1,080 until the booms are up, and every tick meanwhile ends what
/// has struck in since.
#[test]
fn booms_that_do_not_rise() {
    let mut plant = overdue(6, 1079);
    assert_eq!(send(&mut plant, TICK), (0, 3));
    assert_eq!(ticks(&mut plant, 10), 0);
    assert_eq!((at(&plant, 0), plant.crossings[0].out), ((4, 0), 1080));
    take(&mut plant, &[STRIKE_IN]);
    assert_eq!(send(&mut plant, TICK), (0, 1));
    assert_eq!((at(&plant, 0), plant.crossings[0].out), ((4, 0), 1080));
    report_all(&mut plant, UP);
    assert_eq!((at(&plant, 0), plant.crossings[0].out), ((0, 0), 0));
    take(&mut plant, &[STRIKE_IN]);
    assert_eq!(at(&plant, 0), (phase::WARNING, 15));
}

/// A boom that is lost all the while ends a warning one tick after its train; the signal is amber.
#[test]
fn a_boom_lost_for_six_minutes() {
    let mut plant = fresh(&[settings(6, 15, 0)]);
    take(&mut plant, &[[8, 0, 1, LOST]]);
    assert_eq!(ticks(&mut plant, 1085), 0);
    assert_eq!((at(&plant, 0), plant.crossings[0].out), ((0, 0), 1080));
    take(&mut plant, &[STRIKE_IN]);
    assert_eq!(at(&plant, 0), (phase::WARNING, 15));
    assert_eq!(send(&mut plant, TICK), (0, 1));
    assert_eq!(at(&plant, 0), (phase::OPEN, 0));
    assert_eq!(panel(&plant, 0)[6], 3);
}

/// As after any release: kind 5 on leaving phase 3, kind 6 at the end of raising.
#[test]
fn time_for_motorists_after_it() {
    let mut plant = overdue(5, 1079);
    plant.site.entries[0] = paused(plant.site.entries[0], 9);
    let (record, _) = after_tick(plant);
    assert_eq!((record.phase, record.left, record.out), (0, 9, 0));
    let mut plant = overdue(6, 1079);
    plant.site.entries[0] = paused(plant.site.entries[0], 9);
    take(&mut plant, &[TICK]);
    report_all(&mut plant, UP);
    let record = &plant.crossings[0];
    assert_eq!((record.phase, record.left, record.out), (0, 9, 0));
}

/// Every crossing by its own ticks; the answer has the sum.
#[test]
fn each_crossing_by_itself() {
    let one = overdue(5, 1079);
    let mut plant = fresh(&[one.site.entries[0]; 4]);
    plant.crossings[..4].fill(one.crossings[0]);
    plant.crossings[1].out = 1078;
    plant.crossings[2].kiosk = 1;
    plant.crossings[3].out = 1080;
    assert_eq!(send(&mut plant, TICK), (0, 6));
    let phases = [0, 1, 2, 3].map(|c: usize| plant.crossings[c].phase);
    assert_eq!(phases, [0, 3, 3, 0]);
    assert_eq!(send(&mut plant, TICK), (0, 3));
}

/// No other event does it.
#[test]
fn by_a_tick_alone() {
    for kind in [5, 6] {
        let mut plant = overdue(kind, 1080);
        take(&mut plant, &[[9, 0, 0, 1], [6, 0, 0, 0], [3, 0, 0, 0]]);
        assert_eq!(at(&plant, 0), (phase::ALL_DOWN, 0));
        assert_eq!(plant.crossings[0].calling[0], 1);
    }
}

/// Trains that pass in time leave nothing to end, and the count begins anew.
#[test]
fn a_closure_in_time() {
    let mut plant = closed(5, 15, 0);
    ticks(&mut plant, 1064);
    assert_eq!(plant.crossings[0].out, 1079);
    take(&mut plant, &[PASSAGE, STRIKE_IN]);
    assert_eq!(plant.crossings[0].out, 0);
    assert_eq!(ticks(&mut plant, 1079), 0);
    assert_eq!(ticks(&mut plant, 1), 1);
}
