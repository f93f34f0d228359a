//! Pairs of sheets with something left out or lowered.

use super::lower::shorter_bytes;
use crate::case::Case;
use gen::{sheet_bytes, sheet_events};
use std::ops::Range;

type Events = Vec<[u8; 4]>;

/// Sheets up to this length have their bytes left out and lowered one by one.
const SHORT: usize = 64;
/// A list of events has so many parts, at most, that are left out.
const PARTS: usize = 32;
/// What events become.
const LOW: [[u8; 4]; 4] = [[0; 4], [1, 0, 0, 0], [2, 0, 0, 0], [0, 0, 0, 1]];

/// Both without the same part, one smaller, or both lower.
pub(super) fn agree_candidates(hut: &[u8], cabin: &[u8]) -> Vec<Case> {
    let case = |hut: &[u8], cabin: &[u8]| Case::Agree {
        hut: hut.to_vec(),
        cabin: cabin.to_vec(),
    };
    let both = |[one, other]: [Events; 2]| case(&sheet_bytes(&one), &sheet_bytes(&other));
    let lists = sheet_events(hut).zip(sheet_events(cabin));
    let mut list = Vec::new();
    if let Some((one, other)) = &lists {
        list.extend(shorter_pairs(one, other).into_iter().map(both));
    }
    list.extend(smaller_sheets(hut).iter().map(|hut| case(hut, cabin)));
    list.extend(smaller_sheets(cabin).iter().map(|cabin| case(hut, cabin)));
    if let Some((one, other)) = &lists {
        list.extend(lower_pairs(one, other).into_iter().map(both));
    }
    list
}

/// Parts of a list: all of it, halves and so on, and the last event.
fn parts(len: usize) -> Vec<Range<usize>> {
    let mut parts = Vec::new();
    let mut size = len;
    while size > 0 && len / size <= PARTS {
        let starts = (0..len).step_by(size);
        parts.extend(starts.map(|start| start..len.min(start + size)));
        size /= 2;
    }
    parts.extend(len.checked_sub(1).map(|last| last..len));
    parts
}

fn without(events: &Events, part: &Range<usize>) -> Events {
    let mut shorter = events.clone();
    shorter.drain(part.start.min(events.len())..part.end.min(events.len()));
    shorter
}

/// Both without the same part.
fn shorter_pairs(one: &Events, other: &Events) -> Vec<[Events; 2]> {
    let parts = parts(one.len().max(other.len())).into_iter();
    let shorter = parts.map(|part| [without(one, &part), without(other, &part)]);
    shorter.collect()
}

/// Lower in both throughout: an event of the first, or a byte of its events.
fn lower_pairs(one: &Events, other: &Events) -> Vec<[Events; 2]> {
    let mut list = Vec::new();
    let mut with = |lower: &dyn Fn([u8; 4]) -> [u8; 4]| {
        let both = [one, other].map(|events| events.iter().map(|e| lower(*e)).collect());
        list.push(both);
    };
    for event in few(one.iter().copied()) {
        for low in LOW {
            with(&|e| if e == event { low } else { e });
        }
    }
    for byte in 0..4 {
        for value in few(one.iter().map(|e| e[byte])) {
            for low in [0, 1, value / 2] {
                with(&|mut e| {
                    if e[byte] == value {
                        e[byte] = low;
                    }
                    e
                });
            }
        }
    }
    list
}

/// Each once; none where there are many.
fn few<T: Ord>(list: impl Iterator<Item = T>) -> Vec<T> {
    let mut list: Vec<T> = list.collect();
    list.sort_unstable();
    list.dedup();
    match list.len() <= PARTS {
        true => list,
        false => vec![],
    }
}

/// A part left out or lower; of a sheet that is torn or over-long, bytes at the end left out.
fn smaller_sheets(sheet: &[u8]) -> Vec<Vec<u8>> {
    let mut list = Vec::new();
    match sheet_events(sheet) {
        Some(events) => {
            for part in parts(events.len()) {
                list.push(sheet_bytes(&without(&events, &part)));
                for low in LOW {
                    let mut lower = events.clone();
                    lower[part.clone()].fill(low);
                    list.push(sheet_bytes(&lower));
                }
            }
        }
        None => {
            let len = sheet.len();
            let shorter = [
                len.min(2),
                len / 2,
                len.saturating_sub(16),
                len.saturating_sub(1),
            ];
            list.extend(shorter.map(|len| sheet[..len].to_vec()));
        }
    }
    if sheet.len() <= SHORT {
        list.extend(shorter_bytes(sheet));
    }
    list
}
