//! The event sheet and the program's text.

mod common;

use common::{book, entry, four_kinds, fresh, panel, send, sheet, site, TICK};
use engine::{program, run, Run, PANEL};

const SITE: [u8; 10] = [1, 3, 1, 0, 2, 0, 0, 0, 0, 0];
#[rustfmt::skip]
const SHEET: [u8; 22] = [
    5, 0, 1, 0, 0, 8, 8,
    0, 0, 0, 0, 0, 0, 0, 0, 0, 0, 0, 2, 0, 1, 2,
];

#[test]
fn printed_case() {
    let text = "taken 5 refused 0 written-off 0\n\
                0: 02 0f 00 01 01 00 02 02 00 02 03 00 01 00 00 00\n";
    assert_eq!(program(&SITE, &SHEET), text);
}

#[test]
fn printed_refusals() {
    assert_eq!(program(&[], &SHEET), "refused 1\n");
    assert_eq!(program(&[9], &[]), "refused 2\n");
    assert_eq!(program(&SITE[..8], &SHEET), "refused 1\n");
    assert_eq!(program(&[1, 0, 1, 0, 2, 0, 0, 0, 0, 0], &[]), "refused 3\n");
    assert_eq!(program(&SITE, &[]), "refused 4\n");
    assert_eq!(program(&SITE, &[1, 0x10]), "refused 2\n");
}

#[test]
fn printed_lines_per_crossing() {
    let settings = book(&site(&[entry(1, 1, 0, 2, 0), entry(4, 1, 0, 2, 1)]));
    let text = "taken 0 refused 1 written-off 0\n\
                0: 01 0d 00 00 00 00 01 01 00 01 00 00 00 00 00 00\n\
                1: 01 0d 00 00 00 00 01 01 00 01 00 00 00 00 00 00\n";
    assert_eq!(program(&settings, &sheet(&[[2, 1, 0, 0]])), text);
}

/// A refused run changes nothing.
fn refused(bytes: &[u8], frame: usize, number: u8) {
    let plant = four_kinds();
    let mut after = plant;
    let mut panel = vec![0x3c; frame];
    let answer = Run {
        number,
        taken: 0,
        refused: 0,
        written_off: 0,
    };
    assert_eq!(run(&mut after, bytes, &mut panel), answer);
    assert_eq!(after, plant);
    assert_eq!(panel, vec![0x3c; frame]);
}

#[test]
fn refusals_in_order() {
    for frame in [0, 63, 64, 65] {
        refused(&[], frame, 4);
        refused(&[1], frame, 4);
        refused(&[1, 0x10], frame, 2);
        refused(&[0xff, 0xff], frame, 2);
        refused(&[1, 0], frame, 4);
        refused(&[0, 0, 0], frame, 4);
        refused(&[1, 0, 0, 0, 0, 0, 0], frame, 4);
    }
    let good = sheet(&[TICK; 3]);
    for frame in (0..130).filter(|frame| *frame != 64) {
        refused(&good, frame, 14);
    }
    let mut long = sheet(&[TICK; 4097]);
    refused(&long, 64, 2);
    long.truncate(9);
    refused(&long, 64, 2);
}

#[test]
fn full_and_empty_sheets() {
    let mut plant = four_kinds();
    let mut bytes = vec![0; 64];
    let answer = run(&mut plant, &sheet(&[TICK; 4096]), &mut bytes);
    assert_eq!((answer.number, answer.taken), (0, 4096));
    assert_eq!(plant, four_kinds());
    let answer = run(&mut plant, &[0, 0], &mut bytes);
    assert_eq!((answer.number, answer.taken, answer.refused), (0, 0, 0));
    assert_eq!(bytes[..PANEL], panel(&plant, 0));
}

#[test]
fn a_run_is_its_events_in_turn() {
    let mut events = vec![[1, 0, 0, 0], [2, 0, 0, 0], [2, 0, 0, 0], [1, 3, 1, 0]];
    events.extend([[1, 1, 0, 0], [7, 1, 0, 0], [7, 3, 0, 0], [99, 1, 2, 3]]);
    events.extend([TICK; 280]);
    events.extend([[1, 2, 0, 0], [4, 2, 0, 0], [0, 1, 0, 0], [8, 0, 0, 0]]);
    let mut stepped = four_kinds();
    let (mut taken, mut refused, mut written_off) = (0, 0, 0);
    for e in &events {
        let (number, off) = send(&mut stepped, *e);
        taken += u32::from(number == 0);
        refused += u32::from(number != 0);
        written_off += off;
    }
    let mut plant = four_kinds();
    let mut bytes = vec![0xee; 64];
    let answer = run(&mut plant, &sheet(&events), &mut bytes);
    let expected = Run {
        number: 0,
        taken,
        refused,
        written_off,
    };
    assert_eq!(answer, expected);
    assert_eq!((refused, written_off), (5, 2));
    assert_eq!(plant, stepped);
    for c in 0..4 {
        assert_eq!(bytes[PANEL * c..][..PANEL], panel(&plant, c));
    }
}

#[test]
fn a_sheet_holds_codes_then_triples() {
    let mut plant = fresh(&[entry(3, 1, 0, 2, 0)]);
    let mut bytes = [0; 16];
    let answer = run(&mut plant, &SHEET, &mut bytes);
    assert_eq!((answer.taken, answer.refused), (5, 0));
    assert_eq!(plant, common::program_case());
}
