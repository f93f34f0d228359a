//! The chart rows of document 01 that carry no star, one of them as document 02, T-01, has it, and
//! a row each for document 02, T-06 and T-09, played on an engine.

use crate::{Command, Engine};
use engine::{number, sender, Plant};
use gen::book_bytes;

const TICK: [u8; 4] = [0, 0, 0, 0];
const STRIKE_IN: [u8; 4] = [1, 0, 0, 0];
const PASSAGE: [u8; 4] = [2, 0, 0, 0];
const RELEASE: [u8; 4] = [7, 0, 0, 0];

/// One crossing of a kind, one track by this mask, F 2, for kind 6 15, for kind 4 G 1, and this M.
fn fresh(engine: &dyn Engine, kind: u8, mask: u8, pause: u16) -> Plant {
    let mut site = engine::Site::ZERO;
    site.n = 1;
    site.entries[0] = engine::Entry {
        kind,
        tracks: 1,
        mask,
        pre: if kind == 6 { 15 } else { 2 },
        gap: u16::from(kind == 4),
        pause,
    };
    engine.read_book(&book_bytes(&site)).1
}

/// Whether its booms rise before it opens.
fn has_booms(plant: &Plant) -> bool {
    plant.site.entries[0].has_booms()
}

/// A track for the row of document 02, T-01, and what it holds with 255 trains.
struct Track {
    name: &'static str,
    mask: u8,
    /// Put before the strike-ins, and before the release.
    first: &'static [[u8; 4]],
    last: &'static [[u8; 4]],
    calling: u8,
    waiting: u8,
    phase: u8,
}

const TRACKS: [Track; 3] = [
    Track {
        name: "plain",
        mask: 0,
        first: &[],
        last: &[],
        calling: 255,
        waiting: 0,
        phase: 1,
    },
    Track {
        name: "dependent with its route",
        mask: 1,
        first: &[[5, 0, 0, 1]],
        last: &[[5, 0, 0, 0]],
        calling: 255,
        waiting: 0,
        phase: 1,
    },
    // Trains that wait close nothing: the road closes by the flag alone.
    Track {
        name: "dependent without a route",
        mask: 1,
        first: &[],
        last: &[],
        calling: 0,
        waiting: 255,
        phase: 0,
    },
];

/// Whether so many of an event are taken, each writing off so many trains.
fn takes(engine: &dyn Engine, plant: &mut Plant, e: [u8; 4], count: u32, off: u32) -> bool {
    let command = Command::rightful(e);
    (0..count).all(|_| engine.event(plant, command) == (number::TAKEN, off))
}

/// Whether the crossing holds these: calling, waiting, unsure, phase.
fn holds(plant: &Plant, calling: u8, waiting: u8, unsure: u8, phase: u8) -> bool {
    let c = &plant.crossings[0];
    let track = (c.calling, c.waiting, c.unsure);
    let first = |value| [value, 0, 0, 0];
    track == (first(calling), first(waiting), first(unsure)) && c.phase == phase
}

/// Strike-in 255 is taken. 256 is taken, written off 1, still 255, and so is the next; 270 ticks
/// after a release the flag is gone with 255 written off.
fn swept(engine: &dyn Engine, kind: u8, track: &Track) -> bool {
    let Track {
        calling, waiting, ..
    } = *track;
    let p = &mut fresh(engine, kind, track.mask, 0);
    let full = track.first.iter().all(|e| takes(engine, p, *e, 1, 0))
        && takes(engine, p, STRIKE_IN, 255, 0)
        && holds(p, calling, waiting, 0, track.phase);
    let unsure = takes(engine, p, STRIKE_IN, 1, 1)
        && holds(p, calling, waiting, 1, 1)
        && takes(engine, p, STRIKE_IN, 1, 1)
        && holds(p, calling, waiting, 1, 1);
    let begun = track.last.iter().all(|e| takes(engine, p, *e, 1, 0))
        && takes(engine, p, RELEASE, 1, 0)
        && takes(engine, p, TICK, 269, 0)
        && holds(p, calling, waiting, 1, 3);
    let released = takes(engine, p, TICK, 1, 255)
        && holds(p, 0, 0, 0, if has_booms(p) { 4 } else { 0 })
        && takes(engine, p, TICK, 1, 0)
        && holds(p, 0, 0, 0, 0);
    full && unsure && begun && released
}

/// The bit of byte 9 for a crossing that is out of normal for too long.
fn overdue(engine: &dyn Engine, plant: &Plant) -> Option<bool> {
    let mut panel = [0; 16];
    let drawn = engine.draw(plant, sender::DETECTION, &mut panel) == number::TAKEN;
    drawn.then_some(panel[9] & 4 == 4)
}

/// After a strike-in, 900 ticks leave bit 4 clear, 901 set it.
fn long_out(engine: &dyn Engine, kind: u8) -> bool {
    let p = &mut fresh(engine, kind, 0, 0);
    let ticked = takes(engine, p, STRIKE_IN, 1, 0) && takes(engine, p, TICK, 900, 0);
    let clear = overdue(engine, p) == Some(false);
    ticked && clear && takes(engine, p, TICK, 1, 0) && overdue(engine, p) == Some(true)
}

/// The ticks left to motorists, and the phase.
fn leaves(plant: &Plant, left: u16, phase: u8) -> bool {
    (plant.crossings[0].left, plant.crossings[0].phase) == (left, phase)
}

/// M 3: a train that calls after a closure waits three ticks for its warning, and M + F + G for all
/// to be ordered down. Booms stay up throughout.
fn motorists(engine: &dyn Engine, kind: u8) -> bool {
    let p = &mut fresh(engine, kind, 0, 3);
    let entry = p.site.entries[0];
    let close = u32::from(entry.pre + entry.gap);
    let closed = takes(engine, p, STRIKE_IN, 1, 0)
        && takes(engine, p, TICK, close, 0)
        && leaves(p, 0, 3)
        && takes(engine, p, PASSAGE, 1, 0);
    let waits = takes(engine, p, STRIKE_IN, 1, 0)
        && leaves(p, 3, 0)
        && takes(engine, p, TICK, 2, 0)
        && leaves(p, 1, 0)
        && takes(engine, p, TICK, 1, 0)
        && leaves(p, 0, 1);
    let again = takes(engine, p, TICK, close - 1, 0)
        && !leaves(p, 0, 3)
        && takes(engine, p, TICK, 1, 0)
        && leaves(p, 0, 3);
    closed && waits && again
}

/// After a strike-in, 1,079 ticks leave the train; the next, six minutes after it, writes it off
/// under the sheet of 1959, and at no other kind.
fn six_minutes(engine: &dyn Engine, kind: u8) -> bool {
    let p = &mut fresh(engine, kind, 0, 0);
    let stands = takes(engine, p, STRIKE_IN, 1, 0)
        && takes(engine, p, TICK, 1079, 0)
        && holds(p, 1, 0, 0, 3);
    let ends = match kind {
        5 => takes(engine, p, TICK, 1, 1) && holds(p, 0, 0, 0, 0),
        6 => takes(engine, p, TICK, 1, 1) && holds(p, 0, 0, 0, 4),
        _ => takes(engine, p, TICK, 2, 0) && holds(p, 1, 0, 0, 3),
    };
    stands && ends
}

/// Every row for every kind; the rows that do not hold, in words.
pub fn failing(engine: &dyn Engine) -> Vec<String> {
    let mut failing = Vec::new();
    for kind in 1..=6 {
        for track in TRACKS.iter().filter(|track| !swept(engine, kind, track)) {
            let name = track.name;
            failing.push(format!("strike-in 255 and 256, kind {kind}, {name}"));
        }
        if !long_out(engine, kind) {
            failing.push(format!("900 and 901 ticks out of normal, kind {kind}"));
        }
        if !motorists(engine, kind) {
            failing.push(format!("three ticks for motorists, kind {kind}"));
        }
        if !six_minutes(engine, kind) {
            failing.push(format!("1,080 ticks out of normal, kind {kind}"));
        }
    }
    failing
}
