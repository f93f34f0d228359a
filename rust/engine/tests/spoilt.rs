//! Number 15: each held number at its bounds.

mod common;

use common::{entry, four_kinds, fresh, paused};
use engine::{boom, in_range, Crossing, Entry, Plant};

fn spoilt(plant: &Plant, change: impl FnOnce(&mut Plant)) {
    let mut changed = *plant;
    change(&mut changed);
    common::refuse(&changed, [9, 0, 0, 1], 15);
    assert_eq!(engine::draw(&changed, 0, &mut [0; 48]), 15);
    for len in [0, 48, engine::panel_len(changed.site.n)] {
        let mut bytes = vec![7; len];
        let answer = engine::preview(&changed, 0, [9, 0, 0, 1], &mut bytes);
        assert_eq!(answer, (15, 0));
        assert_eq!(bytes, vec![7; len]);
    }
    let after = &mut changed.clone();
    assert_eq!(engine::run(after, &[0, 0], &mut [0; 48]).number, 15);
    assert_eq!(*after, changed);
}

fn sound(plant: &Plant, change: impl FnOnce(&mut Plant)) {
    let mut changed = *plant;
    change(&mut changed);
    assert!(in_range(&changed));
    assert_eq!(engine::event(&mut changed, 0, [9, 0, 0, 1]).0, 0);
}

#[test]
fn settings_and_beat() {
    let plant = four_kinds();
    for n in [0, 9, 255] {
        spoilt(&plant, |p| p.site.n = n);
    }
    spoilt(&plant, |p| p.site.entries[0].kind = 0);
    spoilt(&plant, |p| p.site.entries[0].kind = 7);
    spoilt(&plant, |p| p.site.entries[1].tracks = 0);
    spoilt(&plant, |p| p.site.entries[1].tracks = 5);
    spoilt(&plant, |p| p.site.entries[1].tracks = 255);
    spoilt(&plant, |p| p.site.entries[2].mask = 0b100);
    spoilt(&plant, |p| p.site.entries[2].pre = 0);
    spoilt(&plant, |p| p.site.entries[2].pre = 181);
    spoilt(&plant, |p| p.site.entries[2].gap = 1);
    spoilt(&plant, |p| p.site.entries[3].gap = 0);
    spoilt(&plant, |p| p.site.entries[3].gap = 91);
    for i in 0..4 {
        spoilt(&plant, |p| p.site.entries[i].pause = 541);
        spoilt(&plant, |p| p.site.entries[i].pause = 65535);
        sound(&plant, |p| p.site.entries[i].pause = 540);
    }
    spoilt(&plant, |p| p.site.entries[7] = entry(1, 1, 0, 1, 0));
    spoilt(&plant, |p| p.beat = 4);
    for beat in 0..4 {
        sound(&plant, |p| p.beat = beat);
    }
}

#[test]
fn tracks() {
    let plant = four_kinds();
    sound(&plant, |p| p.crossings[0].calling[0] = 255);
    sound(&plant, |p| p.crossings[0].waiting[1] = 255);
    spoilt(&plant, |p| p.crossings[0].waiting[0] = 1);
    spoilt(&plant, |p| p.crossings[0].route[0] = 1);
    sound(&plant, |p| p.crossings[0].route[1] = 1);
    sound(&plant, |p| p.crossings[0].occupied = [1, 1, 0, 0]);
    sound(&plant, |p| p.crossings[0].unsure = [1, 1, 0, 0]);
    spoilt(&plant, |p| {
        p.crossings[3].calling[1] = 128;
        p.crossings[3].waiting[1] = 128;
    });
    for track in 2..4 {
        spoilt(&plant, |p| p.crossings[1].calling[track] = 1);
        spoilt(&plant, |p| p.crossings[1].waiting[track] = 1);
        spoilt(&plant, |p| p.crossings[1].route[track] = 1);
        spoilt(&plant, |p| p.crossings[1].occupied[track] = 1);
        spoilt(&plant, |p| p.crossings[1].unsure[track] = 1);
    }
}

#[test]
fn booms() {
    let plant = four_kinds();
    for (crossing, count) in [0, 2, 2, 4].into_iter().enumerate() {
        for b in 0..4 {
            let last = if b < count { boom::LOST } else { 0 };
            sound(&plant, |p| p.crossings[crossing].booms[b] = last);
            spoilt(&plant, |p| p.crossings[crossing].booms[b] = last + 1);
        }
    }
}

/// The flags in turn; kind 6 has them all.
fn flag(c: &mut Crossing, i: usize) -> &mut u8 {
    match i {
        0..=3 => &mut c.route[i],
        4..=7 => &mut c.occupied[i - 4],
        8..=11 => &mut c.unsure[i - 8],
        12..=18 => &mut c.lamps[i - 12],
        19 => &mut c.kiosk,
        _ => &mut c.operator,
    }
}

#[test]
fn every_byte_as_every_flag() {
    let plant = fresh(&[entry(6, 4, 0b1111, 15, 0); 3]);
    for (i, crossing) in (0..21).flat_map(|i| (0..8).map(move |c| (i, c))) {
        for value in 0..=255 {
            let known = value == 0 || value == 1 && crossing < 3;
            match known {
                true => sound(&plant, |p| *flag(&mut p.crossings[crossing], i) = value),
                false => spoilt(&plant, |p| *flag(&mut p.crossings[crossing], i) = value),
            }
        }
    }
}

#[test]
fn phases_and_timers() {
    let plant = four_kinds();
    let timers = |kind: u8, phase: u8| match (kind, phase) {
        (_, 0 | 3) => Some(0..=0),
        (_, 1) => Some(1..=2),
        (4, 2) => Some(1..=3),
        (2..=4, 4) => Some(0..=0),
        _ => None,
    };
    for kind in 1..=4u8 {
        for phase in 0..=255 {
            for timer in [0, 1, 2, 3, 4, 180, 65535] {
                let known = timers(kind, phase).is_some_and(|t| t.contains(&timer));
                let mut changed = plant;
                changed.crossings[usize::from(kind) - 1].phase = phase;
                changed.crossings[usize::from(kind) - 1].timer = timer;
                assert_eq!(in_range(&changed), known, "{kind} {phase} {timer}");
            }
        }
    }
}

#[test]
fn counters() {
    let plant = four_kinds();
    sound(&plant, |p| p.crossings[2].countdown = 270);
    spoilt(&plant, |p| p.crossings[2].countdown = 271);
    sound(&plant, |p| p.crossings[2].out = 1080);
    spoilt(&plant, |p| p.crossings[2].out = 1081);
}

/// Document 02, T-06: 0 to M in phase 0, otherwise 0.
#[test]
fn ticks_left_to_motorists() {
    let phases = [(0, 0), (1, 1), (2, 1), (3, 0), (4, 0)];
    for (kind, pause) in (1..=6).flat_map(|kind| [0, 1, 3, 540].map(|pause| (kind, pause))) {
        let plant = fresh(&[paused(entry(kind, 1, 0, 15, u16::from(kind == 4)), pause)]);
        for (phase, timer) in phases {
            let mut at = plant;
            (at.crossings[0].phase, at.crossings[0].timer) = (phase, timer);
            if !in_range(&at) {
                continue;
            }
            let most = if phase == 0 { pause } else { 0 };
            for left in (0..=545).chain([556, 796, 65535]) {
                at.crossings[0].left = left;
                assert_eq!(in_range(&at), left <= most, "{kind} {pause} {phase} {left}");
            }
            at.crossings[0].left = most;
            sound(&at, |_| {});
            spoilt(&at, |p| p.crossings[0].left = most + 1);
        }
    }
}

#[test]
fn past_n() {
    let plant = four_kinds();
    let changes: [fn(&mut Crossing); 16] = [
        |c| c.calling[0] = 1,
        |c| c.waiting[0] = 1,
        |c| c.route[0] = 1,
        |c| c.occupied[3] = 1,
        |c| c.unsure[3] = 1,
        |c| c.booms[0] = 1,
        |c| c.lamps[4] = 1,
        |c| c.lamps[5] = 1,
        |c| c.lamps[6] = 1,
        |c| c.kiosk = 1,
        |c| c.operator = 1,
        |c| c.countdown = 1,
        |c| c.phase = 3,
        |c| c.timer = 1,
        |c| c.left = 1,
        |c| c.out = 1,
    ];
    for change in changes {
        for i in 4..8 {
            spoilt(&plant, |p| change(&mut p.crossings[i]));
        }
    }
    let entries: [fn(&mut Entry); 6] = [
        |e| e.kind = 1,
        |e| e.tracks = 1,
        |e| e.mask = 1,
        |e| e.pre = 1,
        |e| e.gap = 1,
        |e| e.pause = 1,
    ];
    for change in entries {
        for i in 4..8 {
            spoilt(&plant, |p| change(&mut p.site.entries[i]));
        }
    }
}

#[test]
fn relations_between_fields_are_free() {
    let plant = fresh(&[entry(3, 1, 1, 2, 0)]);
    sound(&plant, |p| {
        let c = &mut p.crossings[0];
        c.route[0] = 1;
        c.waiting[0] = 3;
        c.kiosk = 1;
        c.countdown = 9;
        c.out = 5;
    });
}
