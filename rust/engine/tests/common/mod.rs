//! Helpers shared by the tests.
#![allow(dead_code)]

use engine::{book_len, boom, code, draw, event, panel_len, phase, sender};
use engine::{Entry, Plant, Site, PANEL};

pub const TICK: [u8; 4] = [0, 0, 0, 0];

/// Settings without a time for motorists, as document 01 has them.
pub fn entry(kind: u8, tracks: u8, mask: u8, pre: u16, gap: u16) -> Entry {
    Entry {
        kind,
        tracks,
        mask,
        pre,
        gap,
        pause: 0,
    }
}

/// The same with M (document 02, T-06).
pub fn paused(entry: Entry, pause: u16) -> Entry {
    Entry { pause, ..entry }
}

pub fn site(list: &[Entry]) -> Site {
    let mut site = Site::ZERO;
    site.n = list.len() as u8;
    site.entries[..list.len()].copy_from_slice(list);
    site
}

/// The fresh plant of these settings.
pub fn fresh(list: &[Entry]) -> Plant {
    Plant::fresh(&site(list))
}

/// One crossing of each kind, tracks 0 and 1, track 1 dependent, F 2, G 3.
pub fn four_kinds() -> Plant {
    let gap = |kind| if kind == 4 { 3 } else { 0 };
    let list: Vec<Entry> = (1..=4).map(|k| entry(k, 2, 0b10, 2, gap(k))).collect();
    fresh(&list)
}

pub fn book(site: &Site) -> Vec<u8> {
    let mut out = vec![0; book_len(site.n)];
    assert_eq!(engine::write_book(site, &mut out), 0);
    out
}

/// A sender that may send this event, of any value.
pub fn rightful(e: [u8; 4]) -> u8 {
    match e[0] {
        code::KIOSK_HOLD => sender::KIOSK,
        code::OPERATOR_HOLD | code::TIME_RELEASE => sender::OPERATOR,
        _ => sender::DETECTION,
    }
}

/// The event, from a sender that may send it.
pub fn send(plant: &mut Plant, e: [u8; 4]) -> (u8, u32) {
    event(plant, rightful(e), e)
}

/// Takes every event; gives the trains written off.
pub fn take(plant: &mut Plant, events: &[[u8; 4]]) -> u32 {
    let mut written_off = 0;
    for e in events {
        let (number, off) = send(plant, *e);
        assert_eq!(number, 0, "event {e:?}");
        written_off += off;
    }
    written_off
}

/// The event is refused with this number and changes nothing.
pub fn refuse(plant: &Plant, e: [u8; 4], number: u8) {
    let mut after = *plant;
    assert_eq!(send(&mut after, e), (number, 0), "event {e:?}");
    assert_eq!(after, *plant, "event {e:?}");
}

pub fn ticks(plant: &mut Plant, count: usize) -> u32 {
    take(plant, &vec![TICK; count])
}

/// Phase and timer of one crossing.
pub fn at(plant: &Plant, crossing: usize) -> (u8, u16) {
    let record = &plant.crossings[crossing];
    (record.phase, record.timer)
}

/// The panel bytes of one crossing.
pub fn panel(plant: &Plant, crossing: usize) -> [u8; PANEL] {
    view(plant, sender::DETECTION, crossing)
}

/// What a sender sees of one crossing.
pub fn view(plant: &Plant, sender: u8, crossing: usize) -> [u8; PANEL] {
    let mut bytes = vec![0xaa; panel_len(plant.site.n)];
    assert_eq!(draw(plant, sender, &mut bytes), 0);
    bytes[PANEL * crossing..][..PANEL].try_into().unwrap()
}

/// The sheet of these events.
pub fn sheet(events: &[[u8; 4]]) -> Vec<u8> {
    let mut bytes = (events.len() as u16).to_le_bytes().to_vec();
    bytes.extend(events.iter().map(|e| e[0]));
    bytes.extend(events.iter().flat_map(|e| [e[1], e[2], e[3]]));
    bytes
}

/// The program's case: kind 3, one plain track, F 2, a train, both booms down.
pub fn program_case() -> Plant {
    let mut plant = fresh(&[entry(3, 1, 0, 2, 0)]);
    take(&mut plant, &[[1, 0, 0, 0], TICK, TICK]);
    take(&mut plant, &[[8, 0, 0, boom::DOWN], [8, 0, 1, boom::DOWN]]);
    plant
}

/// Settings of a kind with one plain track, for kind 4 with G 2, for kind 6 with F 15.
pub fn settings(kind: u8, pre: u16, pause: u16) -> Entry {
    let gap = if kind == 4 { 2 } else { 0 };
    let pre = if kind == 6 { 15 } else { pre };
    paused(entry(kind, 1, 0, pre, gap), pause)
}

/// All ordered down by a train; booms, where there are any, down.
pub fn closed(kind: u8, pre: u16, pause: u16) -> Plant {
    let entry = settings(kind, pre, pause);
    let mut plant = fresh(&[entry]);
    take(&mut plant, &[[1, 0, 0, 0]]);
    ticks(&mut plant, (entry.pre + entry.gap).into());
    report_all(&mut plant, boom::DOWN);
    assert_eq!(at(&plant, 0), (phase::ALL_DOWN, 0));
    plant
}

/// Every boom reports this.
pub fn report_all(plant: &mut Plant, value: u8) {
    for b in 0..plant.site.entries[0].booms() {
        take(plant, &[[8, 0, b, value]]);
    }
}

/// After a closure, with M left and no train there.
pub fn pausing(kind: u8, pre: u16, pause: u16) -> Plant {
    let mut plant = closed(kind, pre, pause);
    take(&mut plant, &[[2, 0, 0, 0]]);
    report_all(&mut plant, boom::UP);
    assert_eq!(at(&plant, 0), (phase::OPEN, 0));
    assert_eq!(plant.crossings[0].left, pause);
    plant
}
