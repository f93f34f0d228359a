//! What each sender sees of the panel, document 02, T-04.

mod common;

use common::{entry, four_kinds, fresh, panel, program_case, take, ticks, view, TICK};
use engine::{draw, panel_len, preview, sender, Plant, PANEL};

const DESKS: [u8; 2] = [sender::OPERATOR, sender::CENTRE];

/// The panel of one crossing with all but bytes 0 and 6 to 11 as 0.
fn kept([road, _, _, _, _, _, a, b, c, d, e, f, ..]: [u8; PANEL]) -> [u8; PANEL] {
    [road, 0, 0, 0, 0, 0, a, b, c, d, e, f, 0, 0, 0, 0]
}

#[test]
fn the_printed_panel_by_sender() {
    let plant = program_case();
    let whole = [2, 15, 0, 1, 1, 0, 2, 2, 0, 2, 3, 0, 1, 0, 0, 0];
    let part = [2, 0, 0, 0, 0, 0, 2, 2, 0, 2, 3, 0, 0, 0, 0, 0];
    for sender in [sender::DETECTION, sender::KIOSK] {
        assert_eq!(view(&plant, sender, 0), whole);
    }
    for sender in DESKS {
        assert_eq!(view(&plant, sender, 0), part);
    }
}

/// A plant of every kind twice, with trains, holds, dead lamps and routes, and every panel byte
/// but 13 and 15 not 0 somewhere.
fn eight() -> Plant {
    let kinds = [1, 2, 3, 4, 1, 2, 3, 4];
    let mut plant = fresh(&kinds.map(|k| entry(k, 2, 0b10, 2, u16::from(k == 4))));
    for c in 0..8 {
        take(&mut plant, &[[1, c, 0, 0], [1, c, 1, 0], [5, c, 1, 1]]);
        take(&mut plant, &[[1, c, 1, 0], [5, c, 1, 0], [1, c, 1, 0]]);
        take(&mut plant, &[[3, c, 0, c % 2], [4, c, 0, 1]]);
    }
    take(&mut plant, &[[5, 2, 1, 1]]);
    ticks(&mut plant, 4);
    for (c, b) in [(1, 0), (1, 1), (2, 0), (2, 1), (7, 0)] {
        take(&mut plant, &[[8, c, b, 2]]);
    }
    take(&mut plant, &[[9, 5, 1, 0], [9, 6, 4, 0]]);
    plant
}

#[test]
fn every_crossing_of_every_sender() {
    let mut plant = eight();
    for _ in 0..4 {
        for c in 0..8 {
            let whole = panel(&plant, c);
            assert_eq!(view(&plant, sender::KIOSK, c), whole);
            for sender in DESKS {
                assert_eq!(view(&plant, sender, c), kept(whole));
            }
        }
        ticks(&mut plant, 1);
    }
    let shown = |i: usize| (0..8).any(|c| panel(&eight(), c)[i] != 0);
    assert!((0..16).all(|i| shown(i) || [13, 15].contains(&i)));
}

/// The unseen bytes are drawn as 0, whatever was lent.
#[test]
fn unseen_bytes_are_drawn() {
    for (sender, old) in DESKS
        .into_iter()
        .flat_map(|s| [0, 1, 255].map(|old| (s, old)))
    {
        let mut bytes = [old; 128];
        assert_eq!(draw(&eight(), sender, &mut bytes), 0);
        for (c, drawn) in bytes.chunks_exact(PANEL).enumerate() {
            assert_eq!(drawn, kept(panel(&eight(), c)));
        }
    }
}

/// Plants that differ only in what is hidden look alike.
#[test]
fn alike_in_the_seen_bytes() {
    let one = eight();
    let mut other = one;
    other.beat = (one.beat + 1) % 4;
    for c in &mut other.crossings {
        c.calling = [9, 200, 0, 0];
        c.waiting[1] = 55;
        c.occupied = [1, 1, 0, 0];
        c.lamps[4] = 1 - c.lamps[4];
    }
    for c in 0..8 {
        assert_ne!(panel(&one, c), panel(&other, c));
        for sender in DESKS {
            assert_eq!(view(&one, sender, c), view(&other, sender, c));
        }
    }
}

/// A preview draws what its sender would see after the event.
#[test]
fn a_preview_is_its_senders() {
    let mut plant = four_kinds();
    take(&mut plant, &[[1, 3, 0, 0], TICK]);
    let looks = [
        (sender::DETECTION, [1, 1, 0, 0]),
        (sender::KIOSK, [3, 1, 0, 1]),
        (sender::OPERATOR, [4, 1, 0, 1]),
        (sender::OPERATOR, [7, 3, 0, 0]),
        (sender::CENTRE, [4, 1, 0, 1]),
        (sender::CENTRE, [7, 3, 0, 0]),
    ];
    for (sender, e) in looks {
        let mut bytes = vec![0x77; panel_len(4)];
        assert_eq!(preview(&plant, sender, e, &mut bytes), (0, 0));
        let mut after = plant;
        take(&mut after, &[e]);
        for (c, drawn) in bytes.chunks_exact(PANEL).enumerate() {
            let whole = panel(&after, c);
            match DESKS.contains(&sender) {
                true => assert_eq!(drawn, kept(whole)),
                false => assert_eq!(drawn, whole),
            }
        }
    }
}
