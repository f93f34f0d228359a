//! A case as text, with the bytes of its files.

use crate::case::Case;
use engine::{Crossing, Entry, Plant, Site};
use gen::{book_bytes, sheet_bytes, Board};
use std::fmt::Write;

pub fn hex(bytes: &[u8]) -> String {
    let words: Vec<String> = bytes.iter().map(|b| format!("{b:02x}")).collect();
    words.join(" ")
}

/// The names and bytes of a case's files, as far as it has them: site.bin and sheet.bin, or the two
/// sheets of a shift; an arrow board has none.
pub fn files(case: &Case) -> Vec<(&'static str, Vec<u8>)> {
    let book = |site: &Site| (site.n <= 8).then(|| book_bytes(site));
    let (site, sheet) = match case {
        Case::Read { book } => (Some(book.clone()), None),
        Case::Write { site, .. } => (book(site), None),
        Case::Event { plant, command } | Case::Preview { plant, command, .. } => {
            (book(&plant.site), Some(sheet_bytes(&[command.event])))
        }
        Case::Draw { plant, .. } => (book(&plant.site), Some(sheet_bytes(&[]))),
        Case::Run { plant, sheet, .. } => (book(&plant.site), Some(sheet.clone())),
        Case::Session { site, commands } => {
            let events: Vec<[u8; 4]> = commands.iter().map(|c| c.event).collect();
            (book(site), Some(sheet_bytes(&events)))
        }
        Case::Agree { hut, cabin } => {
            return vec![("hut.bin", hut.clone()), ("cabin.bin", cabin.clone())];
        }
        Case::Board(_) => return vec![],
    };
    let site = site.map(|bytes| ("site.bin", bytes));
    let sheet = sheet.map(|bytes| ("sheet.bin", bytes));
    site.into_iter().chain(sheet).collect()
}

/// The senders of a case in turn; a sheet has none.
fn senders(case: &Case) -> Vec<u8> {
    match case {
        Case::Event { command, .. } | Case::Preview { command, .. } => vec![command.sender],
        Case::Draw { sender, .. } => vec![*sender],
        Case::Session { commands, .. } => commands.iter().map(|c| c.sender).collect(),
        _ => vec![],
    }
}

/// How many events a sheet has room for.
fn room(sheet: &[u8]) -> usize {
    sheet.len().saturating_sub(2) / 4
}

/// How many events a case has.
pub fn event_count(case: &Case) -> usize {
    match case {
        Case::Event { .. } | Case::Preview { .. } => 1,
        Case::Run { sheet, .. } => room(sheet),
        Case::Session { commands, .. } => commands.len(),
        Case::Agree { hut, cabin } => room(hut) + room(cabin),
        _ => 0,
    }
}

/// The plant that a case hands over.
pub fn start(case: &Case) -> Option<&Plant> {
    match case {
        Case::Event { plant, .. }
        | Case::Draw { plant, .. }
        | Case::Run { plant, .. }
        | Case::Preview { plant, .. } => Some(plant),
        _ => None,
    }
}

fn lent(case: &Case) -> Option<usize> {
    match case {
        Case::Write { frame, .. }
        | Case::Draw { frame, .. }
        | Case::Run { frame, .. }
        | Case::Preview { frame, .. } => Some(frame.len()),
        _ => None,
    }
}

/// A plant, without the entries and records that are zero.
fn plant_text(plant: &Plant) -> String {
    let mut text = format!("beat {}, n {}\n", plant.beat, plant.site.n);
    for (i, entry) in plant.site.entries.iter().enumerate() {
        if *entry != Entry::ZERO {
            let _ = writeln!(text, "  {i}: {entry:?}");
        }
    }
    for (i, record) in plant.crossings.iter().enumerate() {
        if *record != Crossing::ZERO {
            let _ = writeln!(text, "  {i}: {record:?}");
        }
    }
    text
}

fn board_text(board: &Board) -> String {
    let Board {
        speed,
        retardation,
        gradient,
    } = board;
    format!("{speed} km/h, {retardation} mm/s2, {gradient:+} per mille\n")
}

/// Whether a case starts from a fresh plant.
pub fn is_fresh(case: &Case) -> bool {
    start(case).is_none_or(|plant| *plant == Plant::fresh(&plant.site))
}

/// Everything needed to play a case again.
pub fn text(case: &Case) -> String {
    let mut text = format!("{}\n", case.name());
    for (name, bytes) in files(case) {
        let _ = writeln!(text, "{name:<9} {}", hex(&bytes));
    }
    let senders = senders(case);
    if !senders.is_empty() {
        let _ = writeln!(text, "senders   {}", hex(&senders));
    }
    if let Some(len) = lent(case) {
        let _ = writeln!(text, "lent      {len} bytes");
    }
    if let Case::Write { site, .. } = case {
        let _ = writeln!(text, "settings  {site:?}");
    }
    if let Case::Board(board) = case {
        text.push_str(&board_text(board));
    }
    match start(case) {
        Some(plant) if !is_fresh(case) => {
            let _ = write!(text, "from      {}", plant_text(plant));
        }
        _ if matches!(case, Case::Agree { .. } | Case::Board(_)) => {}
        _ => text.push_str("from      the fresh plant\n"),
    }
    text
}
