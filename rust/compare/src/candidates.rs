//! Cases with a part of another left out or lowered.

mod boards;
mod lower;
mod sheets;

use crate::case::Case;
use crate::Command;
use boards::board_candidates;
use engine::{Plant, Site};
use gen::{book_bytes, sheet_bytes, sheet_events};
use lower::{
    can_go, lower_commands, lower_moments, lower_plants, lower_senders, lower_sites, plant_without,
    renumber, renumber_command, shorter_bytes, shorter_frames, site_without,
};
use sheets::agree_candidates;

/// The cases one step away from a case.
pub(crate) fn candidates(case: &Case) -> Vec<Case> {
    match case {
        Case::Read { book } => shorter_bytes(book)
            .into_iter()
            .map(|book| Case::Read { book })
            .collect(),
        Case::Write { site, frame } => write_candidates(site, frame),
        Case::Event { plant, command } => lower_moments(plant, *command)
            .into_iter()
            .map(|(plant, command)| Case::Event { plant, command })
            .collect(),
        Case::Draw {
            plant,
            sender,
            frame,
        } => draw_candidates(plant, *sender, frame),
        Case::Run {
            plant,
            sheet,
            frame,
        } => run_candidates(plant, sheet, frame),
        Case::Preview {
            plant,
            command,
            frame,
        } => preview_candidates(plant, *command, frame),
        Case::Session { site, commands } => session_candidates(site, commands),
        Case::Agree { hut, cabin } => agree_candidates(hut, cabin),
        Case::Board(board) => board_candidates(*board),
    }
}

fn write_candidates(site: &Site, frame: &[u8]) -> Vec<Case> {
    let case = |site: Site, frame: Vec<u8>| Case::Write { site, frame };
    let mut list = Vec::new();
    for i in can_go(site) {
        let len = frame.len().saturating_sub(9);
        list.push(case(site_without(site, i), vec![0; len]));
    }
    list.extend(shorter_frames(frame).into_iter().map(|f| case(*site, f)));
    let lower = lower_sites(site).into_iter();
    list.extend(lower.map(|site| case(site, frame.to_vec())));
    list
}

/// With a crossing goes its part of the frame.
fn preview_candidates(plant: &Plant, command: Command, frame: &[u8]) -> Vec<Case> {
    let case = |plant: Plant, command: Command, frame: Vec<u8>| Case::Preview {
        plant,
        command,
        frame,
    };
    let frames = shorter_frames(frame).into_iter();
    let mut list: Vec<Case> = frames.map(|f| case(*plant, command, f)).collect();
    for (lower, command) in lower_moments(plant, command) {
        let gone = usize::from(plant.site.n - lower.site.n);
        let len = frame.len().saturating_sub(16 * gone);
        list.push(case(lower, command, frame[..len].to_vec()));
    }
    list
}

fn draw_candidates(plant: &Plant, sender: u8, frame: &[u8]) -> Vec<Case> {
    let from = |sender: u8, plant: Plant, frame: Vec<u8>| Case::Draw {
        plant,
        sender,
        frame,
    };
    let case = |plant: Plant, frame: Vec<u8>| from(sender, plant, frame);
    let senders = lower_senders(sender);
    let mut list: Vec<Case> = senders.map(|s| from(s, *plant, frame.to_vec())).collect();
    for i in can_go(&plant.site) {
        let len = frame.len().saturating_sub(16);
        list.push(case(plant_without(plant, i), vec![0; len]));
    }
    list.extend(shorter_frames(frame).into_iter().map(|f| case(*plant, f)));
    let lower = lower_plants(plant).into_iter();
    list.extend(lower.map(|plant| case(plant, frame.to_vec())));
    list
}

fn run_candidates(plant: &Plant, sheet: &[u8], frame: &[u8]) -> Vec<Case> {
    let case = |plant: Plant, sheet: &[u8], frame: &[u8]| Case::Run {
        plant,
        sheet: sheet.to_vec(),
        frame: frame.to_vec(),
    };
    let mut list = Vec::new();
    for i in can_go(&plant.site) {
        let events = sheet_events(sheet).unwrap_or_default();
        let kept: Vec<[u8; 4]> = events.iter().filter_map(|e| renumber(*e, i)).collect();
        let shorter = &frame[..frame.len().saturating_sub(16)];
        list.push(case(plant_without(plant, i), &sheet_bytes(&kept), shorter));
    }
    list.push(case(*plant, &[0, 0], frame));
    list.push(case(Plant::fresh(&plant.site), sheet, frame));
    for f in shorter_frames(frame) {
        list.push(case(*plant, sheet, &f));
    }
    for plant in lower_plants(plant) {
        list.push(case(plant, sheet, frame));
    }
    if sheet.len() < 64 {
        for s in shorter_bytes(sheet) {
            list.push(case(*plant, &s, frame));
        }
    }
    list
}

fn session_candidates(site: &Site, commands: &[Command]) -> Vec<Case> {
    let case = |site: Site, commands: Vec<Command>| Case::Session { site, commands };
    let mut list = Vec::new();
    for i in can_go(site) {
        let kept = commands.iter().filter_map(|c| renumber_command(*c, i));
        list.push(case(site_without(site, i), kept.collect()));
    }
    let sites = lower_sites(site).into_iter();
    list.extend(sites.map(|site| case(site, commands.to_vec())));
    // Only books that can be read make a session.
    list.retain(|c| match c {
        Case::Session { site, .. } => engine::read_book(&book_bytes(site)).0 == 0,
        _ => true,
    });
    if commands.len() < 64 {
        for (i, command) in commands.iter().enumerate() {
            for lower in lower_commands(*command) {
                let mut changed = commands.to_vec();
                changed[i] = lower;
                list.push(case(*site, changed));
            }
        }
    }
    list
}
