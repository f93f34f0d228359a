//! The event sheet: its size m, m codes, then m triples of crossing, place, value.

use super::events::apply;
use super::panel::{paint, panel_len};
use super::range::in_range;
use super::rights::Source;
use super::types::{number, Plant, Run, MAX_EVENTS};

/// The events of a sheet in turn.
pub fn sheet_events(sheet: &[u8]) -> Result<impl ExactSizeIterator<Item = [u8; 4]> + '_, u8> {
    let &[low, high, ref rest @ ..] = sheet else {
        return Err(number::TORN_SHEET);
    };
    let m = usize::from(u16::from_le_bytes([low, high]));
    if m > MAX_EVENTS {
        return Err(number::OVER_LONG);
    }
    if rest.len() != 4 * m {
        return Err(number::TORN_SHEET);
    }
    let (codes, triples) = rest.split_at(m);
    let pairs = codes.iter().zip(triples.chunks_exact(3));
    Ok(pairs.map(|(code, triple)| [*code, triple[0], triple[1], triple[2]]))
}

/// Applies each event of a sheet in turn, with every right, and draws the whole panel.
pub fn run(plant: &mut Plant, sheet: &[u8], panel: &mut [u8]) -> Run {
    if !in_range(plant) {
        return Run::answer(number::SPOILT_PLANT);
    }
    let events = match sheet_events(sheet) {
        Ok(events) => events,
        Err(refusal) => return Run::answer(refusal),
    };
    if panel.len() != panel_len(plant.site.n) {
        return Run::answer(number::WRONG_FRAME);
    }
    let mut run = Run::answer(number::TAKEN);
    for event in events {
        match apply(plant, Source::Sheet, event) {
            Ok(written_off) => {
                run.taken += 1;
                run.written_off += written_off;
            }
            Err(_) => run.refused += 1,
        }
    }
    paint(plant, Source::Sheet, panel);
    run
}
