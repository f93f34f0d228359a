//! Reading and writing the site book.

mod common;

use common::{book, entry, paused, site};
use engine::{book_len, read_book, write_book, Crossing, Entry, Plant, Site};

/// Refused reading gives the fresh plant of the zero site, all of it zero.
fn refused(bytes: &[u8], number: u8) {
    let zero = Plant {
        site: Site::ZERO,
        beat: 0,
        crossings: [Crossing::ZERO; 8],
    };
    assert_eq!(read_book(bytes), (number, zero), "{bytes:?}");
}

/// A book of one crossing.
fn one_with(kind: u8, tracks: u8, mask: u8, times: [u16; 3]) -> Vec<u8> {
    let mut bytes = vec![1, kind, tracks, mask];
    bytes.extend(times.iter().flat_map(|time| time.to_le_bytes()));
    bytes
}

/// The same with M 0.
fn one(kind: u8, tracks: u8, mask: u8, pre: u16, gap: u16) -> Vec<u8> {
    one_with(kind, tracks, mask, [pre, gap, 0])
}

#[test]
fn read_gives_the_fresh_plant() {
    #[rustfmt::skip]
    let bytes = [
        2, 3, 1, 0, 4, 4, 0b1010,
        2, 0, 0, 0, 0, 0, 180, 0, 90, 0, 0x1c, 2,
    ];
    let (number, plant) = read_book(&bytes);
    assert_eq!(number, 0);
    assert_eq!(plant.beat, 0);
    assert_eq!(plant.site.n, 2);
    assert_eq!(plant.site.entries[0], entry(3, 1, 0, 2, 0));
    let second = paused(entry(4, 4, 0b1010, 180, 90), 540);
    assert_eq!(plant.site.entries[1], second);
    assert_eq!(plant.site.entries[2..], [Entry::ZERO; 6]);
    let lit = Crossing {
        lamps: [1, 1, 1, 1, 1, 0, 0],
        ..Crossing::ZERO
    };
    assert_eq!(plant.crossings[..2], [lit; 2]);
    assert_eq!(plant.crossings[2..], [Crossing::ZERO; 6]);
}

#[test]
fn torn_and_over_long() {
    refused(&[], 1);
    for n in [0, 9, 10, 255] {
        refused(&[n], 2);
        refused(&vec![n; 1 + 9 * usize::from(n)], 2);
        refused(&[n; 90], 2);
    }
    for n in 1..=8u8 {
        let good = book(&site(&vec![entry(2, 3, 0b101, 9, 0); n.into()]));
        for len in 0..=90 {
            let mut bytes = good.clone();
            bytes.resize(len, 0);
            if len != good.len() {
                refused(&bytes, 1);
            }
        }
    }
    refused(&[1, 0, 0, 0, 0, 0, 0], 1);
}

/// Document 02, T-06: a book without M is torn.
#[test]
fn the_old_length_is_torn() {
    for n in 1..=8u8 {
        let mut bytes = vec![n];
        bytes.extend([3, 1, 0].repeat(n.into()));
        bytes.extend([2, 0, 0, 0].repeat(n.into()));
        assert_eq!(bytes.len(), 1 + 7 * usize::from(n));
        refused(&bytes, 1);
    }
}

#[test]
fn motorist_time_of_every_kind() {
    for kind in 1..=6 {
        let gap = u16::from(kind == 4);
        for pause in 0..=u16::MAX {
            let bytes = one_with(kind, 1, 0, [15, gap, pause]);
            let (number, plant) = read_book(&bytes);
            assert_eq!(number, if pause <= 540 { 0 } else { 3 }, "{kind} {pause}");
            if number == 0 {
                let settings = paused(entry(kind, 1, 0, 15, gap), pause);
                assert_eq!(plant, Plant::fresh(&site(&[settings])));
                assert_eq!(plant.crossings[0].left, 0);
                assert_eq!(book(&plant.site), bytes);
            }
        }
        refused(&one_with(kind, 1, 0, [15, gap, 541]), 3);
    }
}

#[test]
fn every_setting_range() {
    for value in 0..=u8::MAX {
        let kind = read_book(&one(value, 2, 0, 15, if value == 4 { 1 } else { 0 })).0;
        assert_eq!(kind, if (1..=6).contains(&value) { 0 } else { 3 });
        let tracks = read_book(&one(1, value, 0, 9, 0)).0;
        assert_eq!(tracks, if (1..=4).contains(&value) { 0 } else { 3 });
        for count in 1..=4u8 {
            let good = u16::from(value) < 1 << count;
            let mask = read_book(&one(1, count, value, 9, 0)).0;
            assert_eq!(mask, if good { 0 } else { 3 });
        }
    }
    for value in 0..=u16::MAX {
        let pre = read_book(&one(1, 1, 0, value, 0)).0;
        assert_eq!(pre, if (1..=180).contains(&value) { 0 } else { 3 });
        let gap = read_book(&one(4, 1, 0, 1, value)).0;
        assert_eq!(gap, if (1..=90).contains(&value) { 0 } else { 3 });
        for kind in 1..=3 {
            let gap = read_book(&one(kind, 1, 0, 1, value)).0;
            assert_eq!(gap, if value == 0 { 0 } else { 3 });
        }
    }
    refused(&one(7, 1, 0, 15, 0), 3);
}

#[test]
fn round_trips() {
    for n in 1..=8usize {
        let list: Vec<Entry> = (0..n)
            .map(|i| match i % 4 {
                3 => paused(entry(4, 4, 0b1111, 180, 90), 540),
                k => paused(entry(k as u8 + 1, i as u8 % 4 + 1, 1, 7 + i as u16, 0), 300),
            })
            .collect();
        let settings = site(&list);
        let bytes = book(&settings);
        let (number, plant) = read_book(&bytes);
        assert_eq!(number, 0);
        assert_eq!(plant.site, settings);
        assert_eq!(book(&plant.site), bytes);
    }
}

/// Refused writing leaves the lent output as it was.
fn write_refused(settings: &Site, len: usize, number: u8) {
    let mut out = vec![0x5a; len];
    assert_eq!(write_book(settings, &mut out), number);
    assert_eq!(out, vec![0x5a; len]);
}

#[test]
fn write_refusals_in_order() {
    let good = site(&[entry(3, 1, 0, 2, 0), entry(1, 2, 3, 1, 0)]);
    assert_eq!(book_len(2), 19);
    for len in (0..90).filter(|len| *len != book_len(2)) {
        write_refused(&good, len, 14);
    }
    let mut wrong = good;
    wrong.entries[1].pre = 0;
    write_refused(&wrong, book_len(2), 3);
    write_refused(&wrong, 3, 3);
    wrong.entries[1] = paused(good.entries[1], 541);
    write_refused(&wrong, book_len(2), 3);
    write_refused(&wrong, 15, 3);
    for change in [|e: &mut Entry| e.gap = 1, |e: &mut Entry| e.pause = 1] {
        let mut past = good;
        change(&mut past.entries[7]);
        write_refused(&past, book_len(2), 3);
        write_refused(&past, 0, 3);
    }
    for n in [0, 9, 255] {
        wrong.n = n;
        write_refused(&wrong, book_len(2), 2);
        write_refused(&Site { n, ..good }, 0, 2);
    }
    write_refused(&Site::ZERO, 1, 2);
}
