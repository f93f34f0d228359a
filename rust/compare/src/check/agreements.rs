//! Two sheets of one shift: alike on both engines, and each engine in line with itself (document
//! 02, T-07).

use super::{same, Check, Pair};
use crate::{Agreement, Engine};
use engine::number;
use gen::{sheet_bytes, sheet_events, Coverage};

/// The hut's sheet and the cabin's.
type Sheets<'a> = [&'a [u8]; 2];

impl Pair<'_> {
    /// One comparison of two sheets.
    pub(super) fn agree(&self, hut: &[u8], cabin: &[u8], seen: &mut Coverage) -> Check {
        let [answer, other] = [self.first, self.second].map(|engine| engine.agree(hut, cabin));
        same("agreement", &answer, &other)?;
        seen.agree(hut, cabin, answer);
        let sheets = [hut, cabin];
        let moved = moved(sheets);
        for engine in [self.first, self.second] {
            let what = match answer.number {
                number::TAKEN => compared(engine, sheets, moved.as_ref(), answer),
                _ => refused(engine, sheets, answer),
            };
            what.map_err(|what| format!("{}: {what}", engine.name()))?;
        }
        Ok(())
    }
}

/// The sheets with neighbours exchanged in the hut's, or else in the cabin's.
fn moved([hut, cabin]: Sheets) -> Option<[Vec<u8>; 2]> {
    let of_hut = exchanged(hut).map(|hut| [hut, cabin.to_vec()]);
    of_hut.or_else(|| Some([hut.to_vec(), exchanged(cabin)?]))
}

/// The sheet with its last neighbours exchanged that differ and of which none is a tick.
fn exchanged(sheet: &[u8]) -> Option<Vec<u8>> {
    let mut events = sheet_events(sheet)?;
    let differ = |pair: &[[u8; 4]]| pair[0] != pair[1] && !pair.contains(&[0; 4]);
    let last = events.windows(2).rposition(differ)?;
    events.swap(last, last + 1);
    Some(sheet_bytes(&events))
}

/// The answer with this number where no stretch fails.
fn settled(number: u8) -> Agreement {
    Agreement {
        number,
        agreed: number == number::TAKEN,
        stretch: 0,
    }
}

/// A sheet agrees with itself; the two get the same answer the other way round, and with neighbours
/// exchanged.
fn compared(
    engine: &dyn Engine,
    [hut, cabin]: Sheets,
    moved: Option<&[Vec<u8>; 2]>,
    answer: Agreement,
) -> Check {
    if answer.agreed {
        same("agreement", &settled(number::TAKEN), &answer)?;
    }
    let itself = engine.agree(hut, hut);
    same(
        "agreement of a sheet with itself",
        &settled(number::TAKEN),
        &itself,
    )?;
    let round = engine.agree(cabin, hut);
    same("agreement and the other way round", &answer, &round)?;
    match moved.map(|[hut, cabin]| engine.agree(hut, cabin)) {
        Some(moved) => same("agreement and with neighbours exchanged", &answer, &moved),
        None => Ok(()),
    }
}

/// The number follows from those of each sheet by itself: first the hut's, then the cabin's, and
/// last that one is too long.
fn refused(engine: &dyn Engine, sheets: Sheets, answer: Agreement) -> Check {
    let own = sheets.map(|sheet| engine.agree(sheet, sheet).number);
    let early = |number: &u8| ![number::TAKEN, number::SHIFT_TOO_LONG].contains(number);
    let due = own.into_iter().find(early).unwrap_or(own[0].max(own[1]));
    same(
        "refusal by the numbers of each sheet",
        &settled(due),
        &answer,
    )
}
