//! The panel under the sheet of 1959, document 02, T-09.

mod common;

use common::{closed, fresh, panel, send, settings, take, ticks, view, TICK};
use engine::boom::{DOWN, LOST, MOVING, UP};
use engine::{in_range, phase, Plant, PANEL};

const STRIKE_IN: [u8; 4] = [1, 0, 0, 0];
const PASSAGE: [u8; 4] = [2, 0, 0, 0];

/// An event and the whole panel after it.
type Row = ([u8; 4], [u8; PANEL]);

fn play(plant: &mut Plant, rows: &[Row]) {
    for (i, (e, bytes)) in rows.iter().enumerate() {
        assert_eq!(send(plant, *e), (0, 0), "row {i}");
        assert_eq!(panel(plant, 0), *bytes, "row {i}");
    }
}

/// Kind 5, F 2, from the fresh plant.
#[rustfmt::skip]
const LIGHTS: [Row; 10] = [
    (TICK, [0, 0, 0, 0, 0, 0, 0, 0, 0, 1, 0, 0, 0, 0, 0, 0]),
    (STRIKE_IN, [2, 0, 1, 0, 0, 0, 2, 2, 0, 0, 1, 0, 1, 0, 0, 0]),
    (TICK, [2, 13, 1, 0, 0, 0, 2, 2, 0, 0, 1, 0, 1, 0, 0, 0]),
    (TICK, [2, 0, 1, 0, 0, 0, 2, 2, 0, 2, 3, 0, 1, 0, 0, 0]),
    (TICK, [2, 13, 1, 0, 0, 0, 2, 2, 0, 2, 3, 0, 1, 0, 0, 0]),
    ([9, 0, 2, 0], [2, 13, 1, 0, 0, 0, 2, 2, 0, 2, 3, 0, 1, 0, 0, 0]),
    ([9, 0, 3, 0], [2, 1, 1, 0, 0, 0, 0, 0, 0, 2, 3, 0, 1, 0, 0, 0]),
    ([9, 0, 3, 1], [2, 13, 1, 0, 0, 0, 2, 2, 0, 2, 3, 0, 1, 0, 0, 0]),
    ([9, 0, 1, 0], [0, 0, 1, 0, 0, 0, 0, 0, 0, 0, 3, 0, 1, 0, 0, 0]),
    (PASSAGE, [0, 0, 0, 0, 0, 0, 0, 0, 0, 1, 0, 0, 0, 0, 0, 0]),
];

#[test]
fn lights_only() {
    let mut plant = fresh(&[settings(5, 2, 0)]);
    assert_eq!(panel(&plant, 0), LIGHTS[0].1);
    play(&mut plant, &LIGHTS);
}

/// Kind 6, from phase 1 with one tick to go at beat 2.
#[rustfmt::skip]
const BOOMS: [Row; 20] = [
    (TICK, [2, 12, 1, 0, 1, 0, 3, 3, 0, 0, 3, 0, 1, 0, 0, 0]),
    ([8, 0, 0, MOVING], [2, 14, 1, 1, 1, 0, 3, 3, 0, 0, 3, 0, 1, 0, 0, 0]),
    ([8, 0, 1, MOVING], [2, 2, 1, 1, 1, 0, 2, 2, 0, 2, 3, 0, 1, 0, 0, 0]),
    (TICK, [2, 15, 1, 1, 1, 0, 2, 2, 0, 2, 3, 0, 1, 0, 0, 0]),
    ([8, 0, 0, DOWN], [2, 15, 1, 1, 1, 0, 2, 2, 0, 2, 3, 0, 1, 0, 0, 0]),
    ([8, 0, 1, DOWN], [2, 15, 0, 1, 1, 0, 2, 2, 0, 2, 3, 0, 1, 0, 0, 0]),
    (TICK, [2, 2, 0, 1, 1, 0, 2, 2, 0, 2, 3, 0, 1, 0, 0, 0]),
    ([9, 0, 5, 0], [2, 14, 0, 1, 1, 0, 3, 3, 0, 0, 3, 0, 1, 0, 0, 0]),
    ([9, 0, 5, 1], [2, 2, 0, 1, 1, 0, 2, 2, 0, 2, 3, 0, 1, 0, 0, 0]),
    ([9, 0, 6, 0], [2, 14, 0, 1, 1, 0, 3, 3, 0, 0, 3, 0, 1, 0, 0, 0]),
    ([9, 0, 6, 1], [2, 2, 0, 1, 1, 0, 2, 2, 0, 2, 3, 0, 1, 0, 0, 0]),
    ([9, 0, 3, 0], [2, 14, 0, 1, 1, 0, 3, 3, 0, 2, 3, 0, 1, 0, 0, 0]),
    ([9, 0, 2, 0], [2, 2, 0, 1, 1, 0, 0, 0, 0, 2, 3, 0, 1, 0, 0, 0]),
    ([9, 0, 3, 1], [2, 2, 0, 1, 1, 0, 2, 2, 0, 2, 3, 0, 1, 0, 0, 0]),
    ([9, 0, 2, 1], [2, 2, 0, 1, 1, 0, 2, 2, 0, 2, 3, 0, 1, 0, 0, 0]),
    ([8, 0, 1, LOST], [2, 14, 1, 1, 1, 0, 3, 3, 0, 0, 3, 0, 1, 0, 0, 0]),
    (PASSAGE, [2, 14, 1, 1, 0, 0, 3, 3, 0, 0, 4, 0, 0, 0, 0, 0]),
    ([8, 0, 0, UP], [2, 14, 1, 1, 0, 0, 3, 3, 0, 0, 4, 0, 0, 0, 0, 0]),
    ([8, 0, 1, UP], [0, 12, 0, 0, 0, 0, 3, 3, 0, 1, 0, 0, 0, 0, 0, 0]),
    (TICK, [0, 12, 0, 0, 0, 0, 3, 3, 0, 1, 0, 0, 0, 0, 0, 0]),
];

#[test]
fn half_booms() {
    let mut plant = fresh(&[settings(6, 15, 0)]);
    assert_eq!(panel(&plant, 0), BOOMS[18].1);
    take(&mut plant, &[STRIKE_IN]);
    ticks(&mut plant, 14);
    let warning = [2, 13, 1, 0, 0, 0, 3, 3, 0, 0, 1, 0, 1, 0, 0, 0];
    assert_eq!((plant.beat, panel(&plant, 0)), (2, warning));
    play(&mut plant, &BOOMS);
}

/// The lit byte at beats 0 to 3.
fn beats(plant: &Plant) -> [u8; 4] {
    [0, 1, 2, 3].map(|beat| panel(&Plant { beat, ..*plant }, 0)[1])
}

/// A lamp reported dead.
fn without(plant: &Plant, lamp: u8) -> Plant {
    let mut dead = *plant;
    take(&mut dead, &[[9, 0, lamp, 0]]);
    dead
}

#[test]
fn rhythms_of_half_booms() {
    let normal = fresh(&[settings(6, 15, 0)]);
    let mut warning = normal;
    take(&mut warning, &[STRIKE_IN]);
    let white = closed(6, 15, 0);
    let mut raising = white;
    take(&mut raising, &[PASSAGE]);
    let mut lost = normal;
    take(&mut lost, &[[8, 0, 1, LOST]]);
    let rows = [
        (normal, [12, 12, 12, 12], 12),
        (warning, [13, 12, 13, 12], 13),
        (white, [15, 2, 15, 2], 15),
        (without(&white, 3), [15, 14, 15, 14], 15),
        (without(&without(&white, 3), 2), [3, 2, 3, 2], 3),
        (without(&white, 1), [14, 14, 14, 14], 14),
        (without(&white, 5), [15, 14, 15, 14], 15),
        (without(&white, 6), [15, 14, 15, 14], 15),
        (raising, [15, 14, 15, 14], 15),
        (lost, [15, 14, 15, 14], 15),
    ];
    for (i, (plant, lit, steady)) in rows.into_iter().enumerate() {
        assert_eq!(beats(&plant), lit, "row {i}");
        assert_eq!(beats(&without(&plant, 4)), [steady; 4], "row {i}");
    }
}

#[test]
fn rhythms_of_lights_only() {
    let normal = fresh(&[settings(5, 9, 0)]);
    let mut warning = normal;
    take(&mut warning, &[STRIKE_IN]);
    for plant in [warning, closed(5, 9, 0)] {
        let rows = [
            (plant, [13, 0, 13, 0], 13),
            (without(&plant, 3), [1, 0, 1, 0], 1),
            (without(&plant, 1), [0; 4], 0),
        ];
        for (plant, lit, steady) in rows {
            assert_eq!(beats(&plant), lit);
            assert_eq!(beats(&without(&plant, 4)), [steady; 4]);
        }
    }
    assert_eq!(beats(&normal), [0; 4]);
    assert_eq!(beats(&without(&normal, 4)), [0; 4]);
}

/// Both kinds in every phase with every lamp and boom: the words of the request.
fn every_record(kind: u8) -> Vec<Plant> {
    let mut plants = Vec::new();
    let base = fresh(&[settings(kind, 15, 0)]);
    for lamps in 0..128u8 {
        for (phase, booms) in (0..5).flat_map(|p| (0..16u8).map(move |b| (p, b))) {
            let mut plant = base;
            let c = &mut plant.crossings[0];
            c.lamps = [0, 1, 2, 3, 4, 5, 6].map(|l| lamps >> l & 1);
            (c.phase, c.timer) = (phase, u16::from(phase == phase::WARNING));
            (c.booms[0], c.booms[1]) = (booms & 3, booms >> 2);
            plants.extend(in_range(&plant).then_some(plant));
        }
    }
    plants
}

#[test]
fn every_lamp_at_kind_6() {
    let plants = every_record(6);
    assert_eq!(plants.len(), 128 * 4 * 16);
    for plant in plants {
        let c = &plant.crossings[0];
        let whole = |lamp: usize| c.lamps[lamp] == 1;
        let up = c.booms == [UP; 4];
        let half_closed = c.booms[..2].iter().all(|b| matches!(*b, MOVING | DOWN));
        let secured = c.phase == 3 && half_closed && whole(1) && whole(5) && whole(6);
        let normal = c.phase == 0 && up;
        let bytes = panel(&plant, 0);
        assert_eq!(bytes[0], if !normal && whole(1) { 2 } else { 0 });
        assert_eq!(bytes[3], u8::from(!up));
        let signal = match secured && whole(3) {
            true => 2,
            false if whole(2) => 3,
            false => 0,
        };
        assert_eq!(bytes[6..8], [signal; 2]);
        assert_eq!(bytes[9], u8::from(normal) + 2 * u8::from(secured));
        for (beat, lit) in beats(&plant).into_iter().enumerate() {
            let flash = beat % 2 == 0 || !whole(4);
            let steady = signal == 3 || signal == 2 && flash;
            let road = u8::from(bytes[0] == 2 && flash);
            assert_eq!(lit, road + 2 * u8::from(!up) + 12 * u8::from(steady));
        }
    }
}

#[test]
fn every_lamp_at_kind_5() {
    let plants = every_record(5);
    assert_eq!(plants.len(), 32 * 3);
    for plant in plants {
        let c = &plant.crossings[0];
        let whole = |lamp: usize| c.lamps[lamp] == 1;
        let red = c.phase != 0 && whole(1);
        let white = red && whole(3);
        let bytes = panel(&plant, 0);
        assert_eq!(bytes[0], if red { 2 } else { 0 });
        assert_eq!(bytes[3..6], [0; 3]);
        assert_eq!(bytes[6..8], [if white { 2 } else { 0 }; 2]);
        let secured = c.phase == 3 && whole(1);
        assert_eq!(bytes[9], u8::from(c.phase == 0) + 2 * u8::from(secured));
        for (beat, lit) in beats(&plant).into_iter().enumerate() {
            let flash = beat % 2 == 0 || !whole(4);
            let shown = u8::from(red) + 12 * u8::from(white);
            assert_eq!(lit, if flash { shown } else { 0 });
        }
    }
}

/// A main signal goes by secured, whose lamps are those of the booms too.
#[test]
fn main_signals_of_half_booms() {
    let mut plant = closed(6, 15, 0);
    plant.site.entries[0].mask = 1;
    take(&mut plant, &[[5, 0, 0, 1]]);
    assert_eq!(panel(&plant, 0)[6..10], [2, 2, 1, 2]);
    assert_eq!(panel(&without(&plant, 3), 0)[6..10], [3, 3, 1, 2]);
    for lamp in [1, 5, 6] {
        assert_eq!(panel(&without(&plant, lamp), 0)[6..10], [3, 3, 0, 0]);
    }
}

/// Lamp 0 belongs to nothing under that sheet.
#[test]
fn road_white_shows_nowhere() {
    for kind in [5, 6] {
        let plant = fresh(&[settings(kind, 15, 0)]);
        assert_eq!(panel(&plant, 0), panel(&without(&plant, 0), 0));
        let plant = closed(kind, 15, 0);
        assert_eq!(panel(&plant, 0), panel(&without(&plant, 0), 0));
    }
}

/// Amber is among the bytes that operator and centre see.
#[test]
fn amber_in_every_view() {
    let plant = fresh(&[settings(6, 15, 0)]);
    for sender in 0..4 {
        assert_eq!(view(&plant, sender, 0)[6..10], [3, 3, 0, 1]);
    }
}

/// The bit of byte 9 as at every kind: at more than 900 ticks, not only at 1,080.
#[test]
fn long_out_of_normal() {
    for kind in 1..=6 {
        let mut plant = closed(kind, 15, 0);
        for (out, bit) in [(900, 0), (901, 4), (1078, 4), (1079, 4), (1080, 4)] {
            plant.crossings[0].out = out;
            assert_eq!(panel(&plant, 0)[9] & 4, bit);
        }
    }
}
