//! One input for both engines, and how it is made.

mod fixed;

use crate::Command;
use engine::{book_len, in_range, panel_len, Plant, Site, MAX_EVENTS};
use gen::{
    board, book, coherent, damaged_book, damaged_sheet, event, frame, junk_event, mixed, plant,
    played, preview_frame, quick_site, quiet_run, sheet_bytes, shift, site, spoilt_plant,
    swept_event, swept_plant, Board, BookDamage, Rng, Senders, SheetDamage, Spoil,
};

/// Takes the previews' numbers apart from those of the cases beside them.
const PREVIEWS: u64 = 0x7072_6576_6965_7773;
/// And those of the pairs of sheets.
const SHIFTS: u64 = 0x7368_6966_7473_5f5f;
/// And those of the sheets of ticks that only count.
const QUIET: u64 = 0x7175_6965_745f_5f5f;
/// And those of the arrow boards.
const BOARDS: u64 = 0x626f_6172_6473_5f5f;

/// An input; frames hold the bytes lent.
#[derive(Clone, PartialEq, Debug)]
pub enum Case {
    Read {
        book: Vec<u8>,
    },
    Write {
        site: Site,
        frame: Vec<u8>,
    },
    Event {
        plant: Plant,
        command: Command,
    },
    Draw {
        plant: Plant,
        sender: u8,
        frame: Vec<u8>,
    },
    Run {
        plant: Plant,
        sheet: Vec<u8>,
        frame: Vec<u8>,
    },
    Preview {
        plant: Plant,
        command: Command,
        frame: Vec<u8>,
    },
    /// From the fresh plant of a book, event by event and, without the senders, as a sheet.
    Session {
        site: Site,
        commands: Vec<Command>,
    },
    /// Two sheets of one shift.
    Agree {
        hut: Vec<u8>,
        cabin: Vec<u8>,
    },
    /// The distance of an arrow board.
    Board(Board),
}

impl Case {
    /// Case `index` under `seed`. Senders, the time for motorists and the sheet of 1959 have random
    /// numbers of their own.
    pub fn make(seed: u64, index: u64) -> Case {
        let rng = &mut Rng::of_case(seed, index);
        let senders = &mut Senders::of_case(seed, index);
        match rng.weighted(&[4, 4, 16, 10, 4, 4]) {
            0 => read_case(rng),
            1 => write_case(rng),
            2 => event_case(rng, senders),
            3 => draw_case(rng, senders),
            4 => run_case(rng),
            _ => session_case(rng, senders),
        }
    }

    /// The preview beside case `index` under `seed`.
    pub fn preview(seed: u64, index: u64) -> Case {
        let seed = seed ^ PREVIEWS;
        let senders = &mut Senders::of_case(seed, index);
        preview_case(&mut Rng::of_case(seed, index), senders)
    }

    /// The two sheets beside case `index` under `seed`.
    pub fn agree(seed: u64, index: u64) -> Case {
        let [hut, cabin] = shift(&mut Rng::of_case(seed ^ SHIFTS, index));
        Case::Agree { hut, cabin }
    }

    /// The arrow board beside case `index` under `seed`.
    pub fn board(seed: u64, index: u64) -> Case {
        Case::Board(board(&mut Rng::of_case(seed ^ BOARDS, index)))
    }

    /// The sheet of ticks that only count beside case `index` under `seed`.
    pub fn quiet(seed: u64, index: u64) -> Case {
        let rng = &mut Rng::of_case(seed ^ QUIET, index);
        let (plant, events) = quiet_run(rng);
        Case::Run {
            plant,
            sheet: sheet_bytes(&events),
            frame: vec![rng.byte(); panel_len(plant.site.n)],
        }
    }

    /// Session `index` under `seed`.
    pub fn session(seed: u64, index: u64) -> Case {
        let senders = &mut Senders::of_case(seed, index);
        session_case(&mut Rng::of_case(seed, index), senders)
    }

    pub fn name(&self) -> &'static str {
        match self {
            Case::Read { .. } => "read book",
            Case::Write { .. } => "write book",
            Case::Event { .. } => "event",
            Case::Draw { .. } => "draw",
            Case::Run { .. } => "run",
            Case::Preview { .. } => "preview",
            Case::Session { .. } => "session",
            Case::Agree { .. } => "agree",
            Case::Board(_) => "board distance",
        }
    }
}

fn read_case(rng: &mut Rng) -> Case {
    let book = match rng.below(4) {
        0 => book(rng),
        _ => {
            let damage = BookDamage::any(rng);
            damaged_book(rng, damage)
        }
    };
    Case::Read { book }
}

fn write_case(rng: &mut Rng) -> Case {
    let site = match rng.flag() {
        true => site(rng),
        false => {
            let spoil = Spoil::of_settings(rng);
            spoilt_plant(rng, spoil).site
        }
    };
    let frame = frame(rng, book_len(site.n));
    Case::Write { site, frame }
}

/// A plant in range, or once in five a spoilt one.
fn any_plant(rng: &mut Rng) -> Plant {
    match rng.below(5) {
        0 => {
            let spoil = Spoil::any(rng);
            spoilt_plant(rng, spoil)
        }
        _ => plant(rng),
    }
}

fn event_case(rng: &mut Rng, senders: &mut Senders) -> Case {
    let (plant, event) = moment(rng);
    let command = senders.send(event);
    Case::Event { plant, command }
}

/// Any plant and an event for it.
fn moment(rng: &mut Rng) -> (Plant, [u8; 4]) {
    if rng.once_in(8) {
        let (plant, crossing) = swept_plant(rng);
        let event = swept_event(rng, &plant, crossing);
        return (plant, event);
    }
    let plant = any_plant(rng);
    (plant, any_event(rng, &plant))
}

fn any_event(rng: &mut Rng, plant: &Plant) -> [u8; 4] {
    match rng.below(4) {
        0 => junk_event(rng, plant),
        1 => [0, 0, 0, 0],
        _ => event(rng, plant),
    }
}

/// Any moment, or once in eight one deep in play.
fn preview_case(rng: &mut Rng, senders: &mut Senders) -> Case {
    let (plant, event) = match rng.below(8) {
        0 => {
            let fresh = Plant::fresh(&quick_site(rng));
            let len = rng.below(400) as usize;
            let plant = played(rng, &fresh, len);
            (plant, any_event(rng, &plant))
        }
        _ => moment(rng),
    };
    Case::Preview {
        plant,
        command: senders.send(event),
        frame: preview_frame(rng, plant.site.n),
    }
}

fn draw_case(rng: &mut Rng, senders: &mut Senders) -> Case {
    let plant = any_plant(rng);
    Case::Draw {
        plant,
        sender: senders.look(),
        frame: frame(rng, panel_len(plant.site.n)),
    }
}

fn run_case(rng: &mut Rng) -> Case {
    let plant = match rng.below(8) {
        0 => any_plant(rng),
        1 => swept_plant(rng).0,
        _ => plant(rng),
    };
    let len = rng.within(0..=40) as usize;
    let events = match in_range(&plant) && rng.flag() {
        true => coherent(rng, &plant, len),
        false => mixed(rng, &plant, len),
    };
    let mut sheet = sheet_bytes(&events);
    if rng.once_in(3) {
        let damage = rng.pick(&SheetDamage::ALL);
        sheet = damaged_sheet(rng, sheet, damage);
    }
    let frame = frame(rng, panel_len(plant.site.n));
    Case::Run {
        plant,
        sheet,
        frame,
    }
}

fn session_case(rng: &mut Rng, senders: &mut Senders) -> Case {
    let site = match rng.below(3) {
        0 => site(rng),
        _ => quick_site(rng),
    };
    let len = match rng.below(16) {
        0..=7 => rng.below(60) as usize,
        8..=11 => rng.below(400) as usize,
        12..=13 => rng.below(1500) as usize,
        14 => rng.below(MAX_EVENTS as u32) as usize,
        _ => MAX_EVENTS,
    };
    let fresh = Plant::fresh(&site);
    let events = match rng.below(4) {
        0 => mixed(rng, &fresh, len),
        _ => coherent(rng, &fresh, len),
    };
    let commands = events.into_iter().map(|e| senders.send(e)).collect();
    Case::Session { site, commands }
}
