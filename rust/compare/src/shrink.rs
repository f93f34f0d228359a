//! Makes a failing case smaller while it still fails.

use crate::candidates::candidates;
use crate::case::Case;
use crate::Command;
use engine::{Crossing, Entry, Plant, Site};
use gen::{sheet_bytes, sheet_events, Board};

/// Whether a case still fails.
pub type Fails<'a> = &'a mut dyn FnMut(&Case) -> bool;

/// The smallest failing case found by leaving out and lowering.
pub fn shrink(case: Case, fails: Fails) -> Case {
    let mut best = case;
    loop {
        let before = weight(&best);
        best = shrink_events(best, fails);
        while let Some(next) = smaller(&best).into_iter().find(|c| fails(c)) {
            best = next;
        }
        if weight(&best) >= before {
            return best;
        }
    }
}

/// The candidates that are smaller than a case.
fn smaller(case: &Case) -> Vec<Case> {
    let limit = weight(case);
    let mut list = candidates(case);
    list.retain(|c| weight(c) < limit);
    list
}

fn bytes_weight(bytes: &[u8]) -> u64 {
    bytes.iter().map(|b| 1000 + u64::from(*b)).sum()
}

fn site_weight(site: &Site) -> u64 {
    let entry = |e: &Entry| {
        let small = [e.kind, e.tracks, e.mask]
            .map(u64::from)
            .iter()
            .sum::<u64>();
        let times = [e.pre, e.gap, e.pause].map(u64::from);
        small + times.iter().sum::<u64>()
    };
    u64::from(site.n) * 2000 + site.entries.iter().map(entry).sum::<u64>()
}

/// Lamps that are as in a fresh plant weigh nothing.
fn crossing_weight(entry: &Entry, c: &Crossing) -> u64 {
    let bytes = [c.calling, c.waiting, c.booms, c.route, c.occupied, c.unsure].concat();
    let fresh = Crossing::fresh(entry).lamps.into_iter();
    let lamps = fresh.zip(c.lamps).map(|(fresh, lamp)| lamp.abs_diff(fresh));
    let lamps: Vec<u8> = lamps.collect();
    let bytes = bytes.iter().chain(&lamps);
    let counts = [c.countdown, c.timer, c.left, c.out];
    let small = [c.phase, c.kiosk, c.operator];
    bytes.chain(&small).map(|b| u64::from(*b)).sum::<u64>()
        + counts.iter().map(|n| u64::from(*n)).sum::<u64>()
}

fn plant_weight(plant: &Plant) -> u64 {
    let records = plant.site.entries.iter().zip(&plant.crossings);
    let records = records.map(|(entry, c)| crossing_weight(entry, c));
    site_weight(&plant.site) + u64::from(plant.beat) + records.sum::<u64>()
}

/// A sender that may send the event weighs less than any that may not.
fn command_weight(command: &Command) -> u64 {
    let wrong = if command.has_right() { 0 } else { 256 };
    bytes_weight(&command.event) + wrong + u64::from(command.sender)
}

/// What is out of its range weighs more than all that is in it, and a fall more than a rise.
fn board_weight(board: Board) -> u64 {
    let out = board.places().iter().filter(|place| **place != 1).count();
    let slope = 2 * u64::from(board.gradient.unsigned_abs()) + u64::from(board.gradient < 0);
    let numbers = u64::from(board.speed) + u64::from(board.retardation) + slope;
    10_000 * out as u64 + numbers
}

fn weight(case: &Case) -> u64 {
    match case {
        Case::Read { book } => bytes_weight(book),
        Case::Write { site, frame } => site_weight(site) + bytes_weight(frame),
        Case::Event { plant, command } => plant_weight(plant) + command_weight(command),
        Case::Draw {
            plant,
            sender,
            frame,
        } => plant_weight(plant) + u64::from(*sender) + bytes_weight(frame),
        Case::Run {
            plant,
            sheet,
            frame,
        } => plant_weight(plant) + bytes_weight(sheet) + bytes_weight(frame),
        Case::Preview {
            plant,
            command,
            frame,
        } => plant_weight(plant) + command_weight(command) + bytes_weight(frame),
        Case::Session { site, commands } => {
            site_weight(site) + commands.iter().map(command_weight).sum::<u64>()
        }
        Case::Agree { hut, cabin } => bytes_weight(hut) + bytes_weight(cabin),
        Case::Board(board) => board_weight(*board),
    }
}

/// Whether a list of events still fails.
type Still<'a> = &'a mut dyn FnMut(&[Command]) -> bool;

/// Leaves out events: those at the end, all of one code, all of one crossing, then runs, long
/// ones first; then each that can comes from one who may send it.
fn shrink_events(case: Case, fails: Fails) -> Case {
    let Some(mut list) = commands_of(&case) else {
        return case;
    };
    let mut still = |list: &[Command]| fails(&with_commands(&case, list));
    list.truncate(beginning(&list, &mut still));
    for field in 0..2 {
        for value in 0..=255 {
            let mut shorter = list.clone();
            shorter.retain(|c| c.event[field] != value || field == 1 && c.event[0] == 0);
            if shorter.len() < list.len() && still(&shorter) {
                list = shorter;
            }
        }
    }
    let mut size = list.len();
    while size > 0 {
        leave_out(&mut list, size, &mut still);
        size /= 2;
    }
    make_rightful(&mut list, &mut still);
    with_commands(&case, &list)
}

/// The events of a case that has a list of them; a sheet's are as from one who may send them.
fn commands_of(case: &Case) -> Option<Vec<Command>> {
    match case {
        Case::Session { commands, .. } => Some(commands.clone()),
        Case::Run { sheet, .. } => {
            let events = sheet_events(sheet)?.into_iter();
            Some(events.map(Command::rightful).collect())
        }
        _ => None,
    }
}

/// The case with another list of events.
fn with_commands(case: &Case, list: &[Command]) -> Case {
    let mut changed = case.clone();
    match &mut changed {
        Case::Session { commands, .. } => *commands = list.to_vec(),
        Case::Run { sheet, .. } => {
            let events: Vec<[u8; 4]> = list.iter().map(|command| command.event).collect();
            *sheet = sheet_bytes(&events);
        }
        _ => {}
    }
    changed
}

/// All from those who may send them, or as many as can be.
fn make_rightful(list: &mut Vec<Command>, still: Still) {
    let rightful = |command: &Command| Command::rightful(command.event);
    let all: Vec<Command> = list.iter().map(rightful).collect();
    if all != *list && still(&all) {
        *list = all;
    }
    for i in 0..list.len() {
        let mut changed = list.clone();
        changed[i] = rightful(&list[i]);
        if !list[i].has_right() && changed != *list && still(&changed) {
            *list = changed;
        }
    }
}

/// The length of a short beginning that still fails.
fn beginning(events: &[Command], still: Still) -> usize {
    let (mut low, mut high) = (0, events.len());
    while low < high {
        let middle = (low + high) / 2;
        match still(&events[..middle]) {
            true => high = middle,
            false => low = middle + 1,
        }
    }
    high
}

fn leave_out(events: &mut Vec<Command>, size: usize, still: Still) {
    let mut end = events.len();
    while end > 0 {
        let start = end.saturating_sub(size);
        let mut shorter = events.clone();
        shorter.drain(start..end);
        if still(&shorter) {
            *events = shorter;
        }
        end = start;
    }
}
