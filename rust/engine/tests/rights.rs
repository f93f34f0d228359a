//! Rights at the desk, document 02, T-04: who may send what, the order of the numbers, and the
//! sheet, which has every right. tests/views.rs has what each sender sees.

mod common;

use common::{four_kinds, rightful, sheet, take, TICK};
use engine::{draw, event, panel_len, preview, run, sender, Plant, Run};

const SENDERS: [u8; 4] = [0, 1, 2, 3];

/// A train waits at every crossing, so that each of `events` is taken from who may send it.
fn ready() -> Plant {
    let mut plant = four_kinds();
    take(&mut plant, &[0, 1, 2, 3].map(|c| [1, c, 1, 0]));
    plant
}

/// Every code with every value, at crossing `c`.
fn events(c: u8) -> Vec<[u8; 4]> {
    let mut list = vec![TICK, [1, c, 0, 0], [1, c, 1, 0], [2, c, 1, 0], [7, c, 0, 0]];
    for value in [0, 1] {
        list.extend([[3, c, 0, value], [4, c, 0, value], [5, c, 1, value]]);
        list.extend([0, 1].map(|track| [6, c, track, value]));
        list.extend([0, 1, 2, 3, 4].map(|lamp| [9, c, lamp, value]));
    }
    if c > 0 {
        list.extend([0, 1, 2, 3].map(|report| [8, c, 1, report]));
    }
    list
}

/// The rights in words of their own: by code, the senders; - for none.
fn may(sender: u8, e: [u8; 4]) -> bool {
    let senders = match (e[0], e[3]) {
        (0 | 1 | 2 | 5 | 6 | 8 | 9, _) => "0",
        (3, _) => "1",
        (4, 1) | (7, _) => "23",
        (4, 0) => "2",
        _ => "-",
    };
    senders.contains(char::from(b'0' + sender))
}

/// Refused with this number: no count, and the plant as it was.
fn refused(plant: &Plant, sender: u8, e: [u8; 4], number: u8) {
    let mut after = *plant;
    let answer = event(&mut after, sender, e);
    assert_eq!(answer, (number, 0), "sender {sender}, event {e:?}");
    assert_eq!(after, *plant, "sender {sender}, event {e:?}");
}

/// The preview of it too, over a frame of this length, whose bytes stay.
fn refused_look(plant: &Plant, sender: u8, e: [u8; 4], len: usize, number: u8) {
    let mut bytes = vec![0x5b; len];
    let answer = preview(plant, sender, e, &mut bytes);
    assert_eq!(answer, (number, 0), "sender {sender}, event {e:?}, {len}");
    assert_eq!(bytes, vec![0x5b; len]);
}

fn refused_panel(plant: &Plant, sender: u8, len: usize, number: u8) {
    let mut bytes = vec![0x5b; len];
    assert_eq!(draw(plant, sender, &mut bytes), number, "{sender}, {len}");
    assert_eq!(bytes, vec![0x5b; len]);
}

#[test]
fn each_sender_and_each_event() {
    let plant = ready();
    for (c, sender) in (0..4).flat_map(|c| SENDERS.map(|sender| (c, sender))) {
        for e in events(c) {
            if !may(sender, e) {
                refused(&plant, sender, e, 17);
                refused_look(&plant, sender, e, 64, 17);
                continue;
            }
            let (mut after, mut expected) = (plant, plant);
            assert_eq!(event(&mut after, sender, e), (0, 0), "{sender} {e:?}");
            take(&mut expected, &[e]);
            assert_eq!(after, expected, "{sender} {e:?}");
        }
    }
}

#[test]
fn the_centre_may_set_the_hold_and_not_take_it_off() {
    let mut plant = four_kinds();
    refused(&plant, sender::CENTRE, [4, 1, 0, 0], 17);
    assert_eq!(event(&mut plant, sender::CENTRE, [4, 1, 0, 1]), (0, 0));
    assert_eq!(plant.crossings[1].operator, 1);
    refused(&plant, sender::CENTRE, [4, 1, 0, 0], 17);
    for value in 2..=255 {
        refused(&plant, sender::CENTRE, [4, 1, 0, value], 8);
    }
    assert_eq!(event(&mut plant, sender::OPERATOR, [4, 1, 0, 0]), (0, 0));
    assert_eq!(plant.crossings[1].operator, 0);
}

/// Trains call on track 0, an approach is occupied on track 1, a tick would write off.
fn busy() -> Plant {
    let mut plant = four_kinds();
    for c in &mut plant.crossings[..4] {
        c.calling[0] = 255;
        c.occupied[1] = 1;
        c.countdown = 1;
        c.phase = 3;
    }
    plant
}

/// Events at crossing `c` of `busy`, and the numbers they get from who may send them.
fn numbers(c: u8) -> [([u8; 4], u8); 16] {
    [
        (TICK, 0),
        ([1, c, 0, 0], 0),
        ([3, c, 0, 1], 0),
        ([4, c, 0, 1], 0),
        ([10, c, 0, 0], 5),
        ([255; 4], 5),
        ([0, 1, 0, 0], 6),
        ([1, 4, 0, 0], 6),
        ([0, 0, 1, 0], 7),
        ([7, c, 1, 0], 7),
        ([0, 0, 0, 1], 8),
        ([4, c, 0, 2], 8),
        ([2, c, 1, 0], 10),
        ([4, c, 0, 0], 11),
        ([7, c, 0, 0], 12),
        ([5, c, 0, 1], 13),
    ]
}

/// 5 to 8 come before 17, and 17 before 13 and 10 to 12.
#[test]
fn no_right_between_8_and_13() {
    for (sender, c) in SENDERS
        .into_iter()
        .flat_map(|s| (0..4).map(move |c| (s, c)))
    {
        for (e, number) in numbers(c) {
            match number {
                5..=8 => refused(&busy(), sender, e, number),
                _ if !may(sender, e) => refused(&busy(), sender, e, 17),
                0 => assert_eq!(event(&mut busy(), sender, e).0, 0),
                _ => refused(&busy(), sender, e, number),
            }
        }
    }
}

/// The pairs of neighbours, one by one.
#[test]
fn neighbours_in_order() {
    let plant = busy();
    refused(&plant, sender::KIOSK, [1, 0, 0, 1], 8);
    refused(&plant, sender::KIOSK, [1, 0, 0, 0], 17);
    refused(&plant, sender::OPERATOR, [5, 0, 0, 1], 17);
    refused(&plant, sender::DETECTION, [5, 0, 0, 1], 13);
    refused(&plant, sender::CENTRE, [2, 0, 1, 0], 17);
    refused(&plant, sender::DETECTION, [2, 0, 1, 0], 10);
    refused(&plant, sender::CENTRE, [4, 0, 0, 0], 17);
    refused(&plant, sender::OPERATOR, [4, 0, 0, 0], 11);
    refused(&plant, sender::KIOSK, [7, 0, 0, 0], 17);
    refused(&plant, sender::CENTRE, [7, 0, 0, 0], 12);
    refused(&plant, 4, [10, 0, 0, 0], 16);
    refused(&plant, sender::CENTRE, [10, 0, 0, 0], 5);
}

#[test]
fn an_unknown_sender_before_all_but_the_plant() {
    let mut spoilt = busy();
    spoilt.beat = 4;
    for sender in 4..=255 {
        for (e, _) in numbers(3) {
            refused(&busy(), sender, e, 16);
            refused(&spoilt, sender, e, 15);
            for len in [0, 1, 63, 64, 65, 80, 320] {
                refused_look(&busy(), sender, e, len, 16);
                refused_look(&spoilt, sender, e, len, 15);
            }
        }
        for len in 0..=160 {
            refused_panel(&busy(), sender, len, 16);
            refused_panel(&spoilt, sender, len, 15);
        }
    }
}

/// A known sender's numbers in a drawing and a preview: 15, 14, then the event's own.
#[test]
fn the_frame_before_the_right() {
    let mut spoilt = busy();
    spoilt.beat = 4;
    for sender in SENDERS {
        for len in (0..=160).filter(|len| *len != 64) {
            refused_panel(&busy(), sender, len, 14);
            refused_panel(&spoilt, sender, len, 15);
            for (e, _) in numbers(2) {
                refused_look(&busy(), sender, e, len, 14);
                refused_look(&spoilt, sender, e, len, 15);
            }
        }
        for (e, _) in numbers(2).into_iter().filter(|(_, number)| *number > 0) {
            let mut after = busy();
            let (number, _) = event(&mut after, sender, e);
            refused_look(&busy(), sender, e, 64, number);
        }
    }
}

/// A refused sender settles nothing: every crossing here moves as soon as it settles.
#[test]
fn refused_nothing_settles() {
    let mut plant = four_kinds();
    for (c, phase) in plant.crossings.iter_mut().zip([3, 4, 4, 4]) {
        c.phase = phase;
    }
    for (c, e) in (0..4).flat_map(|c| events(c).into_iter().map(move |e| (c, e))) {
        for sender in SENDERS.into_iter().filter(|s| !may(*s, e)) {
            refused(&plant, sender, e, 17);
        }
        refused(&plant, 4, e, 16);
        if e[0] != 2 {
            assert_eq!(event(&mut plant.clone(), rightful(e), e).0, 0, "{c} {e:?}");
        }
    }
}

/// Events of all senders in one sheet, and its panel in all its bytes.
#[test]
fn a_sheet_has_every_right() {
    let events: Vec<[u8; 4]> = (0..4).flat_map(events).collect();
    let (mut plant, mut stepped) = (ready(), ready());
    let mut written_off = 0;
    let mut refused = 0;
    for e in &events {
        let (number, off) = event(&mut stepped, rightful(*e), *e);
        assert!(![16, 17].contains(&number));
        refused += u32::from(number != 0);
        written_off += off;
    }
    let mut bytes = vec![0xee; 64];
    let answer = run(&mut plant, &sheet(&events), &mut bytes);
    let expected = Run {
        number: 0,
        taken: events.len() as u32 - refused,
        refused,
        written_off,
    };
    assert_eq!((answer, plant), (expected, stepped));
    let mut panel = vec![0; panel_len(4)];
    assert_eq!(draw(&plant, sender::DETECTION, &mut panel), 0);
    assert_eq!(bytes, panel);
    assert!((0..4).all(|c| bytes[16 * c + 12] > 0));
}

/// Each event alone in a sheet is what it is from a sender that may send it.
#[test]
fn one_event_in_a_sheet() {
    for (e, sender) in numbers(1)
        .into_iter()
        .flat_map(|(e, _)| SENDERS.map(|s| (e, s)))
    {
        let (mut plant, mut after) = (busy(), busy());
        let (number, off) = event(&mut after, sender, e);
        let answer = run(&mut plant, &sheet(&[e]), &mut [0; 64]);
        let counts = (answer.taken, answer.refused, answer.written_off);
        match number {
            0 => assert_eq!(counts, (1, 0, off)),
            17 => continue,
            _ => assert_eq!(counts, (0, 1, 0)),
        }
        assert_eq!(plant, after);
    }
}
