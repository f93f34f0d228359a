//! Settings, site books, damaged books, and frames to be lent.

use crate::old::give_old_sheets;
use crate::rng::Rng;
use engine::{book_len, Entry, Site};

/// Settings of one crossing of kinds 1 to 4, M 0; `quick` keeps F and G short.
pub fn entry(rng: &mut Rng, quick: bool) -> Entry {
    let kind = rng.within(1..=4) as u8;
    let tracks = rng.within(1..=4) as u8;
    let (max_pre, max_gap) = if quick { (6, 4) } else { (180, 90) };
    let bound = |rng: &mut Rng, max: u32| match rng.below(6) {
        0 => 1,
        1 => max as u16,
        _ => rng.within(1..=max) as u16,
    };
    let pre = bound(rng, max_pre);
    let gap = bound(rng, max_gap);
    Entry {
        kind,
        tracks,
        mask: rng.byte() & ((1 << tracks) - 1),
        pre,
        gap: if kind == 4 { gap } else { 0 },
        pause: 0,
    }
}

/// Gives each of them an M (document 02, T-06): half of the time 0 to all, otherwise mostly a short
/// one, which runs out soon.
pub(crate) fn give_pauses(mut rng: Rng, entries: &mut [Entry]) {
    if rng.flag() {
        return;
    }
    for entry in entries {
        entry.pause = match rng.below(8) {
            0 | 1 => 0,
            // Without booms only a long one lets a release end with a warning.
            2 if !entry.has_booms() => rng.within(264..=540) as u16,
            2..=5 => rng.within(1..=6) as u16,
            6 => rng.within(0..=540) as u16,
            _ => rng.pick(&[255, 256, 257, 512, 539, 540]),
        };
    }
}

fn site_with(rng: &mut Rng, quick: bool) -> Site {
    let mut site = Site {
        n: rng.within(1..=8) as u8,
        ..Site::ZERO
    };
    for i in 0..usize::from(site.n) {
        site.entries[i] = entry(rng, quick);
    }
    give_aside(rng, &mut site.entries[..site.n.into()]);
    site
}

/// Gives M and the sheet of 1959, by numbers aside.
pub(crate) fn give_aside(rng: &Rng, entries: &mut [Entry]) {
    give_pauses(rng.aside(), entries);
    give_old_sheets(rng.aside().aside(), entries);
}

/// Settings in range, all sizes.
pub fn site(rng: &mut Rng) -> Site {
    let quick = rng.flag();
    site_with(rng, quick)
}

/// Settings in range with short warnings.
pub fn quick_site(rng: &mut Rng) -> Site {
    site_with(rng, true)
}

/// The book of any settings, in range or not, with `n` at most 8.
pub fn book_bytes(site: &Site) -> Vec<u8> {
    book_with(site, 3)
}

/// The same as a book without M, as it was before document 02, T-06.
pub fn old_book(site: &Site) -> Vec<u8> {
    book_with(site, 2)
}

/// The first `times` of F, G and M.
fn book_with(site: &Site, times: usize) -> Vec<u8> {
    let entries = &site.entries[..usize::from(site.n)];
    let mut bytes = vec![site.n];
    bytes.extend(entries.iter().flat_map(|e| [e.kind, e.tracks, e.mask]));
    for e in entries {
        let times = [e.pre, e.gap, e.pause].into_iter().take(times);
        bytes.extend(times.flat_map(u16::to_le_bytes));
    }
    bytes
}

/// The entries of a book of the right length, in range or not.
pub(crate) fn book_entries(book: &[u8]) -> Vec<Entry> {
    let n = match book {
        [n @ 1..=8, ..] if book.len() == book_len(*n) => usize::from(*n),
        _ => return vec![],
    };
    let (shapes, times) = book[1..].split_at(3 * n);
    let pairs = shapes.chunks_exact(3).zip(times.chunks_exact(6));
    let entry = |(shape, time): (&[u8], &[u8])| Entry {
        kind: shape[0],
        tracks: shape[1],
        mask: shape[2],
        pre: u16::from_le_bytes([time[0], time[1]]),
        gap: u16::from_le_bytes([time[2], time[3]]),
        pause: u16::from_le_bytes([time[4], time[5]]),
    };
    pairs.map(entry).collect()
}

/// A good book.
pub fn book(rng: &mut Rng) -> Vec<u8> {
    book_bytes(&site(rng))
}

/// Longest book that is made: the longest good one and some bytes more.
const LONGEST: u32 = 86;

/// Books of every count 0 to 9 and 255 in every length up to the longest, good where they can be.
pub fn all_lengths() -> Vec<Vec<u8>> {
    let rng = &mut Rng::new(70);
    let mut books = Vec::new();
    for count in (0..=9).chain([255]) {
        let mut site = Site::ZERO;
        site.n = u8::min(count, 8);
        site.entries[..site.n.into()].fill_with(|| entry(rng, false));
        give_aside(rng, &mut site.entries[..site.n.into()]);
        for len in 0..=LONGEST as usize {
            let mut bytes = book_bytes(&site);
            bytes[0] = count;
            bytes.resize(len, 0);
            books.push(bytes);
        }
    }
    books
}

/// The ways a book is damaged.
#[derive(Clone, Copy, PartialEq, Debug)]
pub enum BookDamage {
    Empty,
    Count,
    Short,
    Long,
    Kind,
    Tracks,
    Mask,
    Pre,
    Gap,
    GapWithoutBooms,
    OneByte,
    Junk,
    Pause,
    OldLength,
    /// F of half booms under the sheet of 1959 is 15 (document 02, T-09).
    OldPre,
}

impl BookDamage {
    pub const ALL: [BookDamage; 15] = [
        BookDamage::Empty,
        BookDamage::Count,
        BookDamage::Short,
        BookDamage::Long,
        BookDamage::Kind,
        BookDamage::Tracks,
        BookDamage::Mask,
        BookDamage::Pre,
        BookDamage::Gap,
        BookDamage::GapWithoutBooms,
        BookDamage::OneByte,
        BookDamage::Junk,
        BookDamage::Pause,
        BookDamage::OldLength,
        BookDamage::OldPre,
    ];

    /// Any of them, those of document 02, T-06 and T-09, by numbers aside.
    pub fn any(rng: &mut Rng) -> BookDamage {
        let (first, later) = BookDamage::ALL.split_at(BookDamage::Pause as usize);
        rng.pick_or_latest(first, &later[..2], &later[2..])
    }
}

/// A book with this damage, no longer than the longest.
pub fn damaged_book(rng: &mut Rng, damage: BookDamage) -> Vec<u8> {
    let mut site = site(rng);
    let i = rng.below(site.n.into()) as usize;
    damage_entry(rng, &mut site.entries[i], damage);
    let mut bytes = book_bytes(&site);
    let len = bytes.len() as u32;
    match damage {
        BookDamage::Empty => bytes.clear(),
        BookDamage::OldLength => bytes = old_book(&site),
        BookDamage::Count => bytes[0] = rng.pick(&[0, 9, 10, 128, 255]),
        BookDamage::Short => bytes.truncate(rng.below(len) as usize),
        BookDamage::Long => bytes.resize(len as usize + rng.within(1..=13) as usize, 0),
        BookDamage::OneByte => {
            let at = rng.below(len) as usize;
            bytes[at] = rng.byte();
        }
        BookDamage::Junk => {
            let len = rng.within(0..=LONGEST);
            bytes = (0..len).map(|_| rng.pick(&[0, 1, 2, 3, 4, 8])).collect();
        }
        _ => {}
    }
    bytes
}

fn damage_entry(rng: &mut Rng, entry: &mut Entry, damage: BookDamage) {
    match damage {
        BookDamage::Kind => entry.kind = rng.pick(&[0, 7, 8, 255]),
        BookDamage::Tracks => entry.tracks = rng.pick(&[0, 5, 8, 255]),
        BookDamage::Mask => entry.mask |= 1 << rng.within(entry.tracks.into()..=7),
        BookDamage::Pre => entry.pre = rng.pick(&[0, 181, 256, 257, 65535]),
        BookDamage::Gap => {
            entry.kind = 4;
            entry.gap = rng.pick(&[0, 91, 256, 257, 65535]);
        }
        BookDamage::GapWithoutBooms => {
            let kind = rng.within(1..=3) as u8;
            entry.kind = if entry.is_old() { entry.kind } else { kind };
            entry.gap = rng.pick(&[1, 90, 256, 65535]);
        }
        BookDamage::Pause => entry.pause = rng.pick(&[541, 542, 768, 796, 32768, 65535]),
        BookDamage::OldPre => {
            (entry.kind, entry.gap) = (6, 0);
            entry.pre = rng.pick(&[14, 14, 16, 16, 1, 5, 180, 271]);
        }
        _ => {}
    }
}

/// A frame of the right length, or once in four of a wrong one, filled with any bytes.
pub fn frame(rng: &mut Rng, right: usize) -> Vec<u8> {
    let len = match rng.below(24) {
        0 => 0,
        1 => right + 1,
        2 => right.saturating_sub(1),
        3 => rng.below(140) as usize,
        4 => right + 16,
        5 => book_len(rng.below(9) as u8),
        _ => right,
    };
    (0..len).map(|_| rng.byte()).collect()
}
