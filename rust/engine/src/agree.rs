//! Hut against cabin (document 02, T-07): two sheets of one shift, compared stretch by stretch.

use super::sheet::sheet_events;
use super::types::{number, Agreement};

/// Most events of a sheet that is compared.
const LONGEST: usize = 256;
/// Ends a stretch. Code 0 with a field that is not 0 does not.
const TICK: [u8; 4] = [0; 4];

/// The events of a stretch, sorted: their order does not count, how often each comes does.
type Stretch = Vec<[u8; 4]>;

/// Whether two sheets agree, or else the first stretch that fails.
pub fn agree(hut: &[u8], cabin: &[u8]) -> Agreement {
    let answer = |number, agreed, stretch| Agreement {
        number,
        agreed,
        stretch,
    };
    match shifts(hut, cabin).map(first_failing) {
        Ok(None) => answer(number::TAKEN, true, 0),
        Ok(Some(stretch)) => answer(number::TAKEN, false, stretch as u16),
        Err(refusal) => answer(refusal, false, 0),
    }
}

/// The stretches of both, unless one cannot be compared.
fn shifts(hut: &[u8], cabin: &[u8]) -> Result<[Vec<Stretch>; 2], u8> {
    let hut = sheet_events(hut)?;
    let cabin = sheet_events(cabin)?;
    if hut.len() > LONGEST || cabin.len() > LONGEST {
        return Err(number::SHIFT_TOO_LONG);
    }
    Ok([stretches(hut), stretches(cabin)])
}

/// One stretch more than there are ticks.
fn stretches(events: impl Iterator<Item = [u8; 4]>) -> Vec<Stretch> {
    let events: Vec<[u8; 4]> = events.collect();
    let stretches = events.split(|event| *event == TICK);
    stretches.map(sorted).collect()
}

fn sorted(stretch: &[[u8; 4]]) -> Stretch {
    let mut sorted = stretch.to_vec();
    sorted.sort_unstable();
    sorted
}

/// A stretch that only one of them has fails, whatever it holds.
fn first_failing([hut, cabin]: [Vec<Stretch>; 2]) -> Option<usize> {
    let mut all = 0..hut.len().max(cabin.len());
    all.find(|i| hut.get(*i) != cabin.get(*i))
}
