//! The proved engine, which the plain one is compared with.

use crate::stack::Stack;
use crate::{Board, Command, Engine};
use engine::{Agreement, BoardDistance, Crossing, Entry, Plant, Run, Site};

/// The proved engine, on the thread's whole stack or on the last bytes of it.
#[derive(Default)]
pub struct Proved {
    pub stack: Option<Stack>,
}

impl Proved {
    fn call<T>(&self, work: impl FnOnce() -> T) -> T {
        match &self.stack {
            Some(stack) => stack.call(work),
            None => work(),
        }
    }
}

impl Engine for Proved {
    fn name(&self) -> String {
        "proved".into()
    }

    fn read_book(&self, book: &[u8]) -> (u8, Plant) {
        let reading = self.call(|| wilzhoram::read(book));
        (reading.number, plain_plant(&reading.plant))
    }

    fn write_book(&self, site: &Site, out: &mut [u8]) -> u8 {
        let site = proved_site(site);
        self.call(|| wilzhoram::write(site, out))
    }

    fn event(&self, plant: &mut Plant, Command { sender, event }: Command) -> (u8, u32) {
        let (before, event) = (proved_plant(plant), proved_event(event));
        let answer = self.call(|| wilzhoram::event(before, sender, event));
        *plant = plain_plant(&answer.plant);
        (answer.number, answer.written)
    }

    fn draw(&self, plant: &Plant, sender: u8, panel: &mut [u8]) -> u8 {
        let plant = proved_plant(plant);
        self.call(|| wilzhoram::draw(plant, sender, panel))
    }

    fn preview(&self, plant: &Plant, command: Command, panel: &mut [u8]) -> (u8, u32) {
        let (plant, event) = (proved_plant(plant), proved_event(command.event));
        let preview = self.call(|| wilzhoram::preview(plant, command.sender, event, panel));
        (preview.number, preview.written)
    }

    fn run(&self, plant: &mut Plant, sheet: &[u8], panel: &mut [u8]) -> Run {
        let before = proved_plant(plant);
        let run = self.call(|| wilzhoram::run(before, sheet, panel));
        *plant = plain_plant(&run.plant);
        Run {
            number: run.number,
            taken: run.taken.into(),
            refused: run.refused.into(),
            written_off: run.written,
        }
    }

    fn agree(&self, hut: &[u8], cabin: &[u8]) -> Agreement {
        plain_agreement(self.call(|| wilzhoram::agree(hut, cabin)))
    }

    fn board_distance(&self, board: Board) -> BoardDistance {
        let Board {
            speed,
            retardation,
            gradient,
        } = board;
        plain_distance(self.call(|| wilzhoram::board_distance(speed, retardation, gradient)))
    }
}

/// The same fields in the other engine's type.
macro_rules! fields {
    ($from:expr => $($to:ident)::+ { $($field:ident),* }) => {
        $($to)::+ { $($field: $from.$field),* }
    };
}

macro_rules! entry {
    ($from:expr => $($to:ident)::+) => {
        fields!($from => $($to)::+ { kind, tracks, mask, pre, gap, pause })
    };
}

macro_rules! crossing {
    ($from:expr => $($to:ident)::+) => {
        fields!($from => $($to)::+ {
            calling, waiting, route, occupied, unsure, booms, lamps, kiosk, operator, countdown,
            phase, timer, left, out
        })
    };
}

fn plain_agreement(agreement: wilzhoram::Agreement) -> Agreement {
    fields!(agreement => Agreement { number, agreed, stretch })
}

fn plain_distance(distance: wilzhoram::BoardDistance) -> BoardDistance {
    fields!(distance => BoardDistance { number, distance })
}

fn proved_site(site: &Site) -> wilzhoram::Site {
    wilzhoram::Site {
        n: site.n,
        entries: site.entries.map(|e| entry!(e => wilzhoram::Entry)),
    }
}

/// The four bytes as the proved engine takes them.
pub fn proved_event([code, crossing, place, value]: [u8; 4]) -> wilzhoram::Event {
    wilzhoram::Event {
        code,
        crossing,
        place,
        value,
    }
}

/// The plant as the proved engine takes it.
pub fn proved_plant(plant: &Plant) -> wilzhoram::Plant {
    wilzhoram::Plant {
        site: proved_site(&plant.site),
        beat: plant.beat,
        crossings: plant.crossings.map(|c| crossing!(c => wilzhoram::Crossing)),
    }
}

fn plain_plant(plant: &wilzhoram::Plant) -> Plant {
    Plant {
        site: Site {
            n: plant.site.n,
            entries: plant.site.entries.map(|e| entry!(e => Entry)),
        },
        beat: plant.beat,
        crossings: plant.crossings.map(|c| crossing!(c => Crossing)),
    }
}
