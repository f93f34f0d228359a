//! The cases that do not depend on a seed.

use super::Case;
use crate::Command;
use engine::{book_len, panel_len, sender, Plant};
use gen::{
    all_lengths, board_edges, board_grid, book_bytes, event_grid, every_boom, every_flag,
    every_left, every_old, every_pause, lost_plants, lost_reports, old_book, old_lamps, old_panels,
    old_settings, old_ticks, pause_events, pause_plants, plant, preview_grid, quiet_grid,
    quiet_rows, right_grid, right_previews, sheet_bytes, shift_grid, swept_grid, views, Rng,
};

impl Case {
    /// Arrow boards around every bound; pairs of sheets; books of every length, a grid of events and
    /// frames of every length on a few plants, swept counters at every kind, lost booms at every
    /// kind that has them, the time for motorists at every kind, plants under the sheet of 1959,
    /// and every value of every flag and of every boom report; then grids of previews; then of
    /// senders; then rows of ticks that only count. In all but those of senders an event comes from
    /// one who may send it, and a panel is drawn for detection.
    pub fn fixed() -> impl Iterator<Item = Case> {
        let boards = board_edges().map(Case::Board);
        let sheets = shift_grid().map(|[hut, cabin]| Case::Agree { hut, cabin });
        let books = all_lengths().into_iter().map(|book| Case::Read { book });
        let rng = &mut Rng::new(0);
        let plants = [(); 12].map(|_| plant(rng)).into_iter();
        let grids = plants.flat_map(|plant| {
            let events = event_grid().into_iter();
            let events = events.map(move |event| rightful(plant, event));
            events.chain(all_frames(&plant))
        });
        let events = swept_grid().into_iter().chain(lost_reports());
        let events = events.map(|(plant, event)| rightful(plant, event));
        let lost = lost_plants().into_iter().flat_map(|plant| {
            let [tick, draw, _] = calls(plant);
            [tick, draw]
        });
        let bytes = every_flag().chain(every_boom()).flat_map(calls);
        // Each in a box: together they are too large for the stack of a comparison.
        let parts: [Box<dyn Iterator<Item = Case>>; 12] = [
            Box::new(boards),
            Box::new(sheets),
            Box::new(books),
            Box::new(grids),
            Box::new(events),
            Box::new(lost),
            Box::new(fixed_pauses()),
            Box::new(fixed_old()),
            Box::new(bytes),
            Box::new(fixed_previews()),
            Box::new(fixed_senders()),
            Box::new(Case::rows()),
        ];
        parts.into_iter().flatten()
    }

    /// Rows of ticks that only count: short ones with an event, and long ones.
    pub fn rows() -> impl Iterator<Item = Case> {
        let rows = quiet_grid().chain(quiet_rows());
        rows.map(|(plant, events)| Case::Run {
            plant,
            sheet: sheet_bytes(&events),
            frame: older(panel_len(plant.site.n)),
        })
    }

    /// Every value of each number that an arrow board's distance is asked with, and all of its
    /// inputs in range: millions, each of them quick.
    pub fn boards() -> impl Iterator<Item = Case> {
        board_grid().map(Case::Board)
    }
}

/// The event from one who may send it.
fn rightful(plant: Plant, event: [u8; 4]) -> Case {
    let command = Command::rightful(event);
    Case::Event { plant, command }
}

/// Frames of every length up to 140 for the three calls that are lent one.
fn all_frames(plant: &Plant) -> Vec<Case> {
    let mut cases = Vec::new();
    for len in 0..=140 {
        let frame = vec![0xa5; len];
        cases.push(Case::Write {
            site: plant.site,
            frame: frame.clone(),
        });
        cases.push(Case::Draw {
            plant: *plant,
            sender: sender::DETECTION,
            frame: frame.clone(),
        });
        cases.push(Case::Run {
            plant: *plant,
            sheet: sheet_bytes(&[[0; 4]]),
            frame,
        });
    }
    cases
}

/// A tick, a panel and a sheet of one tick.
fn calls(plant: Plant) -> [Case; 3] {
    let event = [0; 4];
    let frame = vec![0xa5; panel_len(plant.site.n)];
    let run = Case::Run {
        plant,
        sheet: sheet_bytes(&[event]),
        frame: frame.clone(),
    };
    let draw = Case::Draw {
        plant,
        sender: sender::DETECTION,
        frame,
    };
    [rightful(plant, event), draw, run]
}

/// Bytes of some older panel, none 0 in a right frame and each another than its neighbour.
fn older(len: usize) -> Vec<u8> {
    (0..len).map(|i| 0xa5 ^ i as u8).collect()
}

/// The time for motorists: books of every M and without any, a grid of events, and some ticks in a
/// row; plants with M and the ticks left around their bounds.
fn fixed_pauses() -> impl Iterator<Item = Case> {
    let books = every_pause().flat_map(|site| {
        let frame = older(book_len(site.n));
        let [book, old] = [book_bytes(&site), old_book(&site)];
        let reads = [book, old].map(|book| Case::Read { book });
        reads.into_iter().chain([Case::Write { site, frame }])
    });
    let events = pause_events().map(|(plant, event)| rightful(plant, event));
    let ticks = pause_plants().into_iter().flat_map(|plant| {
        let frame = older(panel_len(plant.site.n));
        let sheet = sheet_bytes(&[[0; 4]; 6]);
        let [_, draw, _] = calls(plant);
        let run = Case::Run {
            plant,
            sheet,
            frame,
        };
        [draw, run, tick_preview(plant)]
    });
    let lefts = every_left().flat_map(|plant| {
        let calls = calls(plant).into_iter();
        calls.chain([tick_preview(plant)])
    });
    books.chain(events).chain(ticks).chain(lefts)
}

/// The sheet of 1959: books of every kind around the bounds of F, reports of every lamp, ticks
/// around the bounds of ticks out of normal, some in a row, panels with every combination of lamps;
/// plants with boom lamps and ticks out of normal around their bounds.
fn fixed_old() -> impl Iterator<Item = Case> {
    let books = old_settings().flat_map(|site| {
        let frame = older(book_len(site.n));
        let book = book_bytes(&site);
        [Case::Read { book }, Case::Write { site, frame }]
    });
    let reports = old_lamps().map(|(plant, event)| rightful(plant, event));
    let ticks = old_ticks().into_iter().flat_map(|plant| {
        let run = Case::Run {
            plant,
            sheet: sheet_bytes(&[[0; 4]; 3]),
            frame: older(panel_len(plant.site.n)),
        };
        [rightful(plant, [0; 4]), run]
    });
    let panels = old_panels().map(|plant| Case::Draw {
        plant,
        sender: sender::DETECTION,
        frame: older(panel_len(plant.site.n)),
    });
    let bounds = every_old().flat_map(|plant| {
        let calls = calls(plant).into_iter();
        calls.chain([tick_preview(plant)])
    });
    let cases = books.chain(reports).chain(ticks);
    cases.chain(panels).chain(bounds)
}

fn tick_preview(plant: Plant) -> Case {
    Case::Preview {
        plant,
        command: Command::rightful([0; 4]),
        frame: older(panel_len(plant.site.n)),
    }
}

/// Grids of previews, and every value of every flag and of every boom report.
fn fixed_previews() -> impl Iterator<Item = Case> {
    let tick = |plant: Plant| (plant, [0; 4], panel_len(plant.site.n));
    let bytes = every_flag().chain(every_boom()).map(tick);
    bytes.chain(preview_grid()).map(|(plant, event, len)| {
        let command = Command::rightful(event);
        let frame = older(len);
        Case::Preview {
            plant,
            command,
            frame,
        }
    })
}

/// Grids of senders: events, previews and panels.
fn fixed_senders() -> impl Iterator<Item = Case> {
    let events = right_grid().map(|(plant, command)| Case::Event { plant, command });
    let previews = right_previews().map(|((plant, event, len), sender)| Case::Preview {
        plant,
        command: Command { sender, event },
        frame: older(len),
    });
    let views = views().map(|(plant, sender, len)| Case::Draw {
        plant,
        sender,
        frame: older(len),
    });
    events.chain(previews).chain(views)
}
