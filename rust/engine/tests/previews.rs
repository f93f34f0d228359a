//! The preview, document 02, T-03.

mod common;

use common::{entry, four_kinds, fresh, panel, program_case, rightful, take, ticks, view, TICK};
use engine::{boom, draw, event, panel_len, preview, sender, Plant};

const STRIKE_IN: [u8; 4] = [1, 0, 0, 0];
const HOLD_OFF: [u8; 4] = [4, 0, 0, 0];
const RELEASE: [u8; 4] = [7, 0, 0, 0];

/// Bytes of an older panel, each another than its neighbour.
fn old(len: usize) -> Vec<u8> {
    (0..len).map(|i| 0xa5 ^ i as u8).collect()
}

/// A preview into old bytes of the right length: its answer, and the bytes after it.
fn look(plant: &Plant, e: [u8; 4]) -> ((u8, u32), Vec<u8>) {
    let mut bytes = old(panel_len(plant.site.n));
    let answer = preview(plant, rightful(e), e, &mut bytes);
    (answer, bytes)
}

/// What the preview says is what the event does; gives its answer.
fn as_pressed(plant: &Plant, e: [u8; 4]) -> (u8, u32) {
    let (answer, bytes) = look(plant, e);
    assert_eq!(look(plant, e), (answer, bytes.clone()), "again {e:?}");
    let (mut after, sender) = (*plant, rightful(e));
    assert_eq!(event(&mut after, sender, e), answer, "{e:?}");
    let mut expected = old(bytes.len());
    if answer.0 == 0 {
        assert_eq!(draw(&after, sender, &mut expected), 0);
    }
    assert_eq!(bytes, expected, "{e:?}");
    answer
}

/// Refused with this number over a frame of this length: no count, no byte changed.
fn refused(plant: &Plant, e: [u8; 4], len: usize, number: u8) {
    let mut bytes = old(len);
    let answer = preview(plant, rightful(e), e, &mut bytes);
    assert_eq!(answer, (number, 0), "{e:?} {len}");
    assert_eq!(bytes, old(len), "{e:?} {len}");
}

/// Lengths that are wrong for `n` crossings.
fn wrong_frames(n: u8) -> [usize; 9] {
    let right = panel_len(n);
    let [fewer, more] = [right - 1, right + 1];
    let [bytes, words] = [right + 256, right + 65_536];
    [
        0,
        1,
        right - 16,
        fewer,
        more,
        right + 16,
        2 * right,
        bytes,
        words,
    ]
}

/// Trains call on track 0 of every crossing, and on track 1 an approach is occupied; the last
/// tick of a release is next.
fn busy() -> Plant {
    let mut plant = four_kinds();
    for c in &mut plant.crossings[..4] {
        c.calling[0] = 255;
        c.occupied[1] = 1;
        c.countdown = 1;
        c.phase = 3;
    }
    plant
}

/// Events at crossing `c` of `busy`, and the numbers they are refused with.
fn refusals(c: u8) -> [([u8; 4], u8); 12] {
    [
        ([10, c, 0, 0], 5),
        ([255, 255, 255, 255], 5),
        ([1, 4, 0, 0], 6),
        ([0, 1, 0, 0], 6),
        ([1, c, 2, 0], 7),
        ([0, 0, 1, 0], 7),
        ([1, c, 0, 1], 8),
        ([0, 0, 0, 1], 8),
        ([2, c, 1, 0], 10),
        ([4, c, 0, 0], 11),
        ([7, c, 0, 0], 12),
        ([5, c, 0, 1], 13),
    ]
}

#[test]
fn bytes_by_hand() {
    let plant = fresh(&[entry(3, 1, 0, 2, 0)]);
    let shown = [2, 15, 1, 1, 0, 0, 1, 1, 0, 0, 1, 0, 1, 0, 0, 0];
    assert_eq!(look(&plant, STRIKE_IN), ((0, 0), shown.to_vec()));
    let shown = [1, 0, 0, 0, 0, 0, 1, 1, 0, 1, 0, 0, 0, 0, 0, 0];
    assert_eq!(look(&plant, TICK), ((0, 0), shown.to_vec()));
    assert_eq!(plant, fresh(&[entry(3, 1, 0, 2, 0)]));
}

/// The last report of the program's case, looked at before it is in.
#[test]
fn the_printed_panel_before_the_last_report() {
    let mut plant = program_case();
    plant.crossings[0].booms[1] = boom::UP;
    assert_eq!(panel(&plant, 0)[6], 1);
    let shown = [2, 15, 0, 1, 1, 0, 2, 2, 0, 2, 3, 0, 1, 0, 0, 0];
    let answer = look(&plant, [8, 0, 1, boom::DOWN]);
    assert_eq!(answer, ((0, 0), shown.to_vec()));
}

#[test]
fn every_code() {
    let mut raising = four_kinds();
    for (c, phase) in raising.crossings.iter_mut().zip([3, 4, 4, 4]) {
        c.phase = phase;
    }
    for plant in [four_kinds(), busy(), raising] {
        for code in 0..=255 {
            for (crossing, value) in (0..5).flat_map(|c| [(c, 0), (c, 1)]) {
                let (number, _) = as_pressed(&plant, [code, crossing, 0, value]);
                assert!(code < 10 || number == 5);
            }
        }
    }
}

/// From looking to pressing at every event of a list.
#[test]
fn looking_before_every_event() {
    let mut events = vec![STRIKE_IN, [2, 0, 1, 0], [1, 3, 1, 0], [5, 3, 1, 1]];
    events.extend([TICK; 6]);
    events.extend((0..4).map(|b| [8, 3, b, boom::DOWN]));
    events.extend([[4, 3, 0, 1], [2, 3, 1, 0], [4, 3, 0, 0], [99, 0, 0, 0]]);
    events.extend([
        [5, 3, 1, 0],
        [9, 3, 1, 0],
        [6, 0, 0, 1],
        RELEASE,
        [6, 0, 0, 0],
    ]);
    events.extend([RELEASE, [3, 1, 0, 1], [8, 3, 0, boom::LOST]]);
    events.extend([TICK; 272]);
    let mut plant = four_kinds();
    let (mut refused, mut written_off) = (0, 0);
    for e in events {
        let answer = as_pressed(&plant, e);
        refused += u32::from(answer.0 != 0);
        written_off += answer.1;
        event(&mut plant, rightful(e), e);
    }
    assert_eq!((refused, written_off), (3, 1));
}

#[test]
fn each_number_over_the_right_frame() {
    for c in 0..4 {
        for (e, number) in refusals(c) {
            refused(&busy(), e, 64, number);
            assert_eq!(as_pressed(&busy(), e), (number, 0));
        }
    }
}

/// Taken or refused by itself, an event over a wrong frame is 14.
#[test]
fn the_frame_before_the_event() {
    for len in wrong_frames(4) {
        refused(&busy(), TICK, len, 14);
        refused(&busy(), STRIKE_IN, len, 14);
        for (e, _) in refusals(3) {
            refused(&busy(), e, len, 14);
        }
    }
    for len in (0..=145).filter(|len| *len != 64) {
        refused(&busy(), TICK, len, 14);
        refused(&busy(), [255; 4], len, 14);
    }
}

/// tests/spoilt.rs has each held number.
#[test]
fn the_plant_before_the_frame() {
    let mut spoilt = busy();
    spoilt.beat = 4;
    for len in wrong_frames(4).into_iter().chain([64]) {
        refused(&spoilt, TICK, len, 15);
        refused(&spoilt, STRIKE_IN, len, 15);
        for (e, _) in refusals(0) {
            refused(&spoilt, e, len, 15);
        }
    }
    for n in [0, 9, 255] {
        spoilt.site.n = n;
        for len in [0, 1, 64, 128, panel_len(n)] {
            refused(&spoilt, TICK, len, 15);
        }
    }
}

#[test]
fn frames_of_every_size() {
    for n in 1..=8u8 {
        let mut plant = fresh(&vec![entry(2, 1, 0, 2, 0); n.into()]);
        take(&mut plant, &[[1, n - 1, 0, 0]]);
        for e in [TICK, [1, n - 1, 0, 0], [9, 0, 4, 0]] {
            assert_eq!(as_pressed(&plant, e), (0, 0));
            for len in wrong_frames(n) {
                refused(&plant, e, len, 14);
            }
        }
        refused(&plant, [1, n, 0, 0], panel_len(n), 6);
    }
}

/// Trains that the last tick of a release writes off, at one crossing and over the plant.
#[test]
fn a_release_that_a_tick_would_complete() {
    let mut plant = four_kinds();
    take(&mut plant, &[STRIKE_IN, [1, 0, 1, 0], [1, 2, 0, 0]]);
    take(&mut plant, &[RELEASE, [7, 2, 0, 0]]);
    assert_eq!(ticks(&mut plant, 268), 0);
    assert_eq!(as_pressed(&plant, TICK), (0, 0));
    take(&mut plant, &[TICK]);
    assert_eq!(as_pressed(&plant, TICK), (0, 3));
    refused(&plant, [0, 0, 0, 1], 64, 8);
    refused(&plant, TICK, 63, 14);
    let (_, bytes) = look(&plant, TICK);
    assert_eq!((panel(&plant, 0)[10], bytes[10]), (3, 0));
    assert_eq!(bytes[12..16], [0; 4]);
    assert_eq!(take(&mut plant, &[TICK]), 3);
    assert_eq!(as_pressed(&busy(), TICK), (0, 1020));
}

/// Document 02, T-01, looked at: the counts stay, the train is written off, the road closes.
#[test]
fn a_strike_in_at_255_trains() {
    for kind in 1..=4 {
        let mut plant = fresh(&[entry(kind, 1, 1, 2, u16::from(kind == 4))]);
        assert_eq!(take(&mut plant, &[STRIKE_IN; 254]), 0);
        assert_eq!(as_pressed(&plant, STRIKE_IN), (0, 0));
        take(&mut plant, &[STRIKE_IN]);
        assert_eq!(as_pressed(&plant, STRIKE_IN), (0, 1));
        let (_, bytes) = look(&plant, STRIKE_IN);
        assert_eq!((panel(&plant, 0)[10], bytes[10]), (0, 1));
        assert_eq!(bytes[14..16], [255, 0]);
        refused(&plant, [1, 0, 0, 1], 16, 8);
        refused(&plant, STRIKE_IN, 17, 14);
        assert_eq!(plant.crossings[0].unsure, [0; 4]);
    }
}

/// Only the event's own crossing settles.
#[test]
fn the_neighbour_stays() {
    let mut plant = fresh(&[entry(3, 1, 0, 1, 0), entry(3, 1, 0, 1, 0)]);
    take(&mut plant, &[STRIKE_IN, TICK, [2, 0, 0, 0]]);
    assert_eq!(plant.crossings[0].phase, 4);
    let (answer, bytes) = look(&plant, [1, 1, 0, 0]);
    assert_eq!(answer, (0, 0));
    assert_eq!(bytes[..16], panel(&plant, 0));
    assert_eq!((bytes[10], bytes[16 + 10]), (4, 1));
    let (_, bytes) = look(&plant, [9, 0, 0, 1]);
    assert_eq!((bytes[10], bytes[16 + 10]), (0, 0));
}

/// The operator looks at taking off the hold: not while a train calls; then the booms rise.
#[test]
fn the_operator_looks_at_hold_off() {
    let mut plant = program_case();
    take(&mut plant, &[[4, 0, 0, 1]]);
    refused(&plant, HOLD_OFF, 16, 11);
    take(&mut plant, &[[2, 0, 0, 0]]);
    assert_eq!(panel(&plant, 0)[10..12], [3, 2]);
    let shown = [2, 0, 0, 0, 0, 0, 1, 1, 0, 0, 4, 0, 0, 0, 0, 0];
    assert_eq!(look(&plant, HOLD_OFF), ((0, 0), shown.to_vec()));
    assert_eq!(panel(&plant, 0)[10..12], [3, 2]);
    assert_eq!(as_pressed(&plant, HOLD_OFF), (0, 0));
}

/// The operator looks at a time release: not clear with the hold on; else the panel stays, since
/// a release shows at its end. Where the booms are up again the crossing opens on any event.
#[test]
fn the_operator_looks_at_a_release() {
    let mut plant = program_case();
    take(&mut plant, &[[4, 0, 0, 1]]);
    refused(&plant, RELEASE, 16, 12);
    let plant = program_case();
    let shown = view(&plant, sender::OPERATOR, 0);
    assert_eq!(look(&plant, RELEASE), ((0, 0), shown.to_vec()));
    assert_eq!(plant.crossings[0].countdown, 0);

    let mut plant = fresh(&[entry(3, 1, 0, 2, 0)]);
    take(&mut plant, &[STRIKE_IN, TICK, TICK, [2, 0, 0, 0]]);
    assert_eq!(panel(&plant, 0)[10], 4);
    let shown = [1, 0, 0, 0, 0, 0, 1, 1, 0, 1, 0, 0, 0, 0, 0, 0];
    assert_eq!(look(&plant, RELEASE), ((0, 0), shown.to_vec()));
    assert_eq!(as_pressed(&plant, RELEASE), (0, 0));
}
