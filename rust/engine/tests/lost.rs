//! A boom's position lost, document 02, T-02.

mod common;

use common::{at, entry, four_kinds, fresh, panel, refuse, send, sheet, take, ticks, TICK};
use engine::boom::{DOWN, LOST, MOVING, UP};
use engine::{in_range, phase, Plant};

/// The kinds with booms, and how many.
const KINDS: [(u8, u8); 3] = [(2, 2), (3, 2), (4, 4)];
const STRIKE_IN: [u8; 4] = [1, 0, 0, 0];
const PASSAGE: [u8; 4] = [2, 0, 0, 0];
const SET_ROUTE: [u8; 4] = [5, 0, 1, 1];
const RELEASE: [u8; 4] = [7, 0, 0, 0];

/// One crossing, track 0 plain and 1 dependent, F 2 and for kind 4 G 1.
fn of_kind(kind: u8) -> Plant {
    fresh(&[entry(kind, 2, 0b10, 2, u16::from(kind == 4))])
}

/// The booms in turn report these.
fn report(plant: &mut Plant, reports: &[u8]) {
    for (b, value) in (0..).zip(reports) {
        take(plant, &[[8, 0, b, *value]]);
    }
}

/// Boom `b` lost, the others of this kind alike.
fn but_one(kind: u8, b: u8, others: u8) -> Vec<u8> {
    let of = |i| if i == b { LOST } else { others };
    (0..if kind == 4 { 4 } else { 2 }).map(of).collect()
}

/// The phases that a kind with booms has.
fn phases(kind: u8) -> impl Iterator<Item = u8> {
    (0..=4).filter(move |p| kind == 4 || *p != phase::RIGHT_DOWN)
}

/// After a strike-in, in this phase; raising with every boom down and the train gone.
fn in_phase(kind: u8, phase: u8) -> Plant {
    let mut plant = of_kind(kind);
    if phase == phase::OPEN {
        return plant;
    }
    take(&mut plant, &[STRIKE_IN]);
    match phase {
        phase::WARNING => {}
        phase::RIGHT_DOWN => assert_eq!(ticks(&mut plant, 2), 0),
        _ => assert_eq!(ticks(&mut plant, if kind == 4 { 3 } else { 2 }), 0),
    }
    if phase == phase::RAISING {
        report(&mut plant, &[DOWN; 4][..if kind == 4 { 4 } else { 2 }]);
        take(&mut plant, &[PASSAGE]);
    }
    assert_eq!(plant.crossings[0].phase, phase);
    plant
}

/// Each boom of each kind.
fn each_boom() -> impl Iterator<Item = (u8, u8)> {
    let of_kind = |(kind, booms)| (0..booms).map(move |b| (kind, b));
    KINDS.into_iter().flat_map(of_kind)
}

/// Every way in which so many booms can report last.
fn combinations(booms: u8) -> Vec<Vec<u8>> {
    let more = |list: Vec<Vec<u8>>| {
        let longer = |shorter: Vec<u8>| (UP..=LOST).map(move |r| [&shorter[..], &[r]].concat());
        list.into_iter().flat_map(longer).collect()
    };
    (0..booms).fold(vec![vec![]], |list, _| more(list))
}

/// The last reports that a kind demands for passable.
fn are_closed(kind: u8, reports: &[u8]) -> bool {
    let closed: &[u8] = if kind == 2 { &[MOVING, DOWN] } else { &[DOWN] };
    reports.iter().all(|r| closed.contains(r))
}

#[test]
fn a_report_of_3_is_taken_and_kept_in_every_phase() {
    for (kind, booms) in KINDS {
        for plant in phases(kind).map(|phase| in_phase(kind, phase)) {
            for b in 0..booms {
                let (mut after, mut expected) = (plant, plant);
                assert_eq!(send(&mut after, [8, 0, b, 3]), (0, 0));
                expected.crossings[0].booms[usize::from(b)] = 3;
                assert_eq!(after, expected);
                (4..=255).for_each(|value| refuse(&plant, [8, 0, b, value], 8));
            }
            for value in [LOST, 4, 255] {
                (booms..=255).for_each(|b| refuse(&plant, [8, 0, b, value], 7));
            }
        }
    }
    (0..=4).for_each(|b| refuse(&of_kind(1), [8, 0, b, LOST], 7));
}

#[test]
fn a_plant_holds_3_and_no_more() {
    for (kind, booms) in KINDS.into_iter().chain([(1, 0)]) {
        for (b, value) in (0..4).flat_map(|b| (1..=255).map(move |value| (b, value))) {
            let mut plant = of_kind(kind);
            plant.crossings[0].booms[usize::from(b)] = value;
            let known = b < booms && value <= 3;
            assert_eq!(in_range(&plant), known, "{kind} {b} {value}");
            if !known {
                refuse(&plant, TICK, 15);
            }
        }
    }
}

#[test]
fn secured_and_bell_by_every_combination() {
    for (kind, booms) in KINDS {
        let mut plant = in_phase(kind, phase::ALL_DOWN);
        take(&mut plant, &[SET_ROUTE]);
        for reports in combinations(booms) {
            report(&mut plant, &reports);
            let bytes = panel(&plant, 0);
            let secured = match are_closed(kind, &reports) {
                true => [2, 2, 0b10, 2],
                false => [1, 1, 0, 0],
            };
            assert_eq!(bytes[6..10], secured, "kind {kind} {reports:?}");
            let all_down = reports == vec![DOWN; booms.into()];
            assert_eq!(bytes[2], u8::from(!all_down), "kind {kind} {reports:?}");
        }
    }
}

#[test]
fn half_booms_are_secured_by_moving_or_down() {
    let mut plant = in_phase(2, phase::ALL_DOWN);
    let mut passable = Vec::new();
    for reports in combinations(2) {
        report(&mut plant, &reports);
        if panel(&plant, 0)[6] == 2 {
            passable.push(reports);
        }
    }
    assert_eq!(passable, [[1, 1], [1, 2], [2, 1], [2, 2]]);
    take(
        &mut plant,
        &[[8, 0, 0, DOWN], [8, 0, 1, DOWN], [9, 0, 1, 0]],
    );
    assert_eq!(panel(&plant, 0)[6], 1);
}

#[test]
fn a_lost_boom_takes_passable_away_until_it_is_found() {
    let mut plant = common::program_case();
    let passable = [2, 0x0f, 0, 1, 1, 0, 2, 2, 0, 2, 3, 0, 1, 0, 0, 0];
    let stop = [2, 0x0f, 1, 1, 1, 0, 1, 1, 0, 0, 3, 0, 1, 0, 0, 0];
    for b in 0..2 {
        for (value, bytes) in [(LOST, stop), (MOVING, stop), (LOST, stop), (DOWN, passable)] {
            take(&mut plant, &[[8, 0, b, value]]);
            assert_eq!(panel(&plant, 0), bytes);
        }
    }
}

#[test]
fn the_bell_sounds_on_in_every_phase() {
    for (kind, b) in each_boom() {
        for mut plant in phases(kind).map(|phase| in_phase(kind, phase)) {
            report(&mut plant, &but_one(kind, b, DOWN));
            assert_eq!(panel(&plant, 0)[2], 1);
            ticks(&mut plant, 1);
            assert_eq!(panel(&plant, 0)[2], 1);
            take(&mut plant, &[[8, 0, b, DOWN]]);
            assert_eq!(panel(&plant, 0)[2], 0);
        }
    }
}

/// Raising, boom `b` lost through a thousand ticks and every report of the others.
fn waits(kind: u8, b: u8, reason: bool) -> Plant {
    let mut plant = in_phase(kind, phase::RAISING);
    report(&mut plant, &but_one(kind, b, UP));
    if reason {
        take(&mut plant, &[STRIKE_IN]);
    }
    ticks(&mut plant, 1000);
    assert_eq!(at(&plant, 0), (phase::RAISING, 0));
    for others in [MOVING, DOWN, LOST, UP] {
        report(&mut plant, &but_one(kind, b, others));
        ticks(&mut plant, 1);
        assert_eq!(at(&plant, 0), (phase::RAISING, 0));
    }
    plant
}

#[test]
fn raising_waits_until_the_boom_is_found_up() {
    for (kind, b) in each_boom() {
        for (reason, end) in [(false, (phase::OPEN, 0)), (true, (phase::WARNING, 2))] {
            let mut plant = waits(kind, b, reason);
            for found in [MOVING, DOWN, LOST] {
                take(&mut plant, &[[8, 0, b, found], TICK]);
                assert_eq!(at(&plant, 0), (phase::RAISING, 0));
            }
            take(&mut plant, &[[8, 0, b, UP]]);
            assert_eq!(at(&plant, 0), end);
        }
    }
}

#[test]
fn open_with_a_lost_boom_is_not_normal() {
    for (kind, b) in each_boom() {
        let mut plant = of_kind(kind);
        take(&mut plant, &[[8, 0, b, LOST]]);
        let bytes = [2, 0x0f, 1, 1, 0, 0, 1, 1, 0, 0, 0, 0, 0, 0, 0, 0];
        assert_eq!(panel(&plant, 0), bytes);
        ticks(&mut plant, 900);
        assert_eq!((plant.crossings[0].out, panel(&plant, 0)[9]), (900, 0));
        ticks(&mut plant, 1);
        assert_eq!((plant.crossings[0].out, panel(&plant, 0)[9]), (901, 4));
        take(&mut plant, &[[8, 0, b, UP]]);
        assert_eq!((plant.crossings[0].out, panel(&plant, 0)[9]), (0, 1));
    }
}

#[test]
fn closing_and_opening_begin_as_ever() {
    for (kind, b) in each_boom() {
        let lost = |phase| {
            let mut plant = in_phase(kind, phase);
            take(&mut plant, &[[8, 0, b, LOST]]);
            plant
        };
        let mut open = lost(phase::OPEN);
        take(&mut open, &[STRIKE_IN]);
        assert_eq!(at(&open, 0), (phase::WARNING, 2));
        ticks(&mut open, if kind == 4 { 3 } else { 2 });
        assert_eq!(open.crossings[0].phase, phase::ALL_DOWN);
        for phase in phases(kind).filter(|p| (1..=3).contains(p)) {
            let mut plant = lost(phase);
            take(&mut plant, &[PASSAGE]);
            let after = match phase {
                phase::WARNING => phase::OPEN,
                _ => phase::RAISING,
            };
            assert_eq!(at(&plant, 0), (after, 0));
            assert_eq!(panel(&plant, 0)[9] & 1, 0);
        }
    }
}

#[test]
fn a_release_runs_to_its_end() {
    for (kind, b) in each_boom() {
        let mut plant = in_phase(kind, phase::ALL_DOWN);
        take(&mut plant, &[RELEASE, [8, 0, b, LOST]]);
        assert_eq!(ticks(&mut plant, 269), 0);
        take(&mut plant, &[[8, 0, b, LOST]]);
        assert_eq!(send(&mut plant, TICK), (0, 1));
        assert_eq!(ticks(&mut plant, 300), 0);
        assert_eq!(plant.crossings[0].phase, phase::RAISING);
        take(&mut plant, &[[8, 0, b, UP]]);
        assert_eq!(panel(&plant, 0)[9], 1);
    }
}

#[test]
fn neighbours_do_not_see_it() {
    let mut plant = four_kinds();
    take(&mut plant, &[[8, 2, 1, LOST]]);
    let normal = [0, 1, 2, 3].map(|c| panel(&plant, c)[9]);
    assert_eq!(normal, [1, 1, 0, 1]);
}

/// Three reports of each boom and value, one before the strike-in, then two between ticks:
/// passable after F or F + G ticks, and by the last reports.
#[test]
fn the_passage_rule_with_lost_reports() {
    for (kind, booms) in KINDS {
        let all: Vec<(u8, u8)> = (0..booms)
            .flat_map(|b| (UP..=LOST).map(move |r| (b, r)))
            .collect();
        let mut closed = in_phase(kind, phase::OPEN);
        report(&mut closed, &[DOWN; 4][..booms.into()]);
        let first = all.iter().flat_map(|i| all.iter().map(move |j| [*i, *j]));
        for list in first.flat_map(|[i, j]| all.iter().map(move |k| [i, j, *k])) {
            let (mut plant, mut last) = (closed, vec![DOWN; booms.into()]);
            for (n, (b, value)) in list.into_iter().enumerate() {
                take(&mut plant, &[[8, 0, b, value]]);
                last[usize::from(b)] = value;
                match n {
                    0 => take(&mut plant, &[STRIKE_IN, TICK]),
                    1 => take(&mut plant, &[TICK]),
                    _ => ticks(&mut plant, usize::from(kind == 4)),
                };
                let due = n == 2 || n == 1 && kind != 4;
                let passable = panel(&plant, 0)[6] == 2;
                let expected = due && are_closed(kind, &last);
                assert_eq!(passable, expected, "kind {kind} {list:?}");
            }
        }
    }
}

#[test]
fn a_run_counts_lost_reports_as_taken() {
    let mut plant = of_kind(3);
    let events = [
        [8, 0, 0, LOST],
        [8, 0, 0, 4],
        [8, 0, 2, LOST],
        [8, 0, 1, LOST],
    ];
    let run = engine::run(&mut plant, &sheet(&events), &mut [0; 16]);
    assert_eq!((run.number, run.taken, run.refused), (0, 2, 2));
    assert_eq!(plant.crossings[0].booms, [LOST, LOST, UP, UP]);
}
