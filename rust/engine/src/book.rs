//! The site book: its size, n entries of kind, tracks, mask, then n entries of F, G, M
//! (document 02, T-06).

use super::range::{entries_in_range, has_count};
use super::types::{number, Entry, Plant, Site};

/// Bytes of a book of `n` crossings.
pub fn book_len(n: u8) -> usize {
    1 + 9 * usize::from(n)
}

/// Reads a book and gives its fresh plant; refused, the fresh plant of the zero site.
pub fn read_book(book: &[u8]) -> (u8, Plant) {
    match read_site(book) {
        Ok(site) => (number::TAKEN, Plant::fresh(&site)),
        Err(refusal) => (refusal, Plant::fresh(&Site::ZERO)),
    }
}

fn read_site(book: &[u8]) -> Result<Site, u8> {
    let (&n, arrays) = book.split_first().ok_or(number::TORN_BOOK)?;
    let mut site = Site { n, ..Site::ZERO };
    if !has_count(&site) {
        return Err(number::OVER_LONG);
    }
    if book.len() != book_len(n) {
        return Err(number::TORN_BOOK);
    }
    let (shapes, times) = arrays.split_at(3 * usize::from(n));
    let pairs = shapes.chunks_exact(3).zip(times.chunks_exact(6));
    for (entry, (shape, time)) in site.entries.iter_mut().zip(pairs) {
        *entry = Entry {
            kind: shape[0],
            tracks: shape[1],
            mask: shape[2],
            pre: u16::from_le_bytes([time[0], time[1]]),
            gap: u16::from_le_bytes([time[2], time[3]]),
            pause: u16::from_le_bytes([time[4], time[5]]),
        };
    }
    if entries_in_range(&site) {
        Ok(site)
    } else {
        Err(number::WRONG_SETTING)
    }
}

/// Writes the book of `site` into a lent output of exactly its length.
pub fn write_book(site: &Site, out: &mut [u8]) -> u8 {
    if !has_count(site) {
        return number::OVER_LONG;
    }
    if !entries_in_range(site) {
        return number::WRONG_SETTING;
    }
    if out.len() != book_len(site.n) {
        return number::WRONG_FRAME;
    }
    out[0] = site.n;
    let (shapes, times) = out[1..].split_at_mut(3 * usize::from(site.n));
    let pairs = shapes.chunks_exact_mut(3).zip(times.chunks_exact_mut(6));
    for (entry, (shape, time)) in site.entries.iter().zip(pairs) {
        shape.copy_from_slice(&[entry.kind, entry.tracks, entry.mask]);
        time[..2].copy_from_slice(&entry.pre.to_le_bytes());
        time[2..4].copy_from_slice(&entry.gap.to_le_bytes());
        time[4..].copy_from_slice(&entry.pause.to_le_bytes());
    }
    number::TAKEN
}
