//! Sheets of rows of ticks that only count (document 02, T-14), from any plant: each row comes close
//! to what is due at some crossing, and an event follows there or elsewhere.

use crate::books::quick_site;
use crate::ends::{next_end, MOST_OUT};
use crate::events::{event_at, junk_event};
use crate::plants::plant;
use crate::rng::Rng;
use crate::shifts::{Event, TICK};
use engine::events::apply;
use engine::rights::Source;
use engine::{boom, code, phase, Crossing, Entry, Plant, MAX_EVENTS};

/// Longer sheets may end with nothing but ticks.
const LONG: usize = 300;

/// A plant and the events of a sheet for it. Most are short, so that most rows are; one in 64 has
/// room for long ones, and a few of these are full.
pub fn quiet_run(rng: &mut Rng) -> (Plant, Vec<Event>) {
    let start = match rng.below(4) {
        0 => Plant::fresh(&quick_site(rng)),
        1 => plant(rng),
        _ => counting(rng),
    };
    let len = match rng.below(64) {
        0 if rng.once_in(8) => MAX_EVENTS,
        0 => LONG + rng.within(1..=1200) as usize,
        _ => rng.within(1..=60) as usize,
    };
    let mut rows = Rows::new(rng, &start, len);
    while rows.events.len() < len {
        rows.row();
    }
    (start, rows.events)
}

/// A plant with its counts near their ends, often at all crossings alike.
fn counting(rng: &mut Rng) -> Plant {
    let mut plant = plant(rng);
    let alike = rng.flag().then(|| rng.within(1..=6) as u16);
    for i in 0..usize::from(plant.site.n) {
        let near = alike.unwrap_or(rng.within(1..=6) as u16);
        let entry = plant.site.entries[i];
        set_counts(rng, &mut plant.crossings[i], &entry, near);
    }
    plant
}

/// Puts some of the counts so many ticks before their end, as far as they have as many.
fn set_counts(rng: &mut Rng, c: &mut Crossing, entry: &Entry, near: u16) {
    if rng.flag() {
        c.countdown = near;
    }
    match c.phase {
        phase::OPEN => c.left = near.min(entry.pause),
        phase::WARNING => c.timer = near.min(entry.pre),
        phase::RIGHT_DOWN => c.timer = near.min(entry.gap),
        _ => {}
    }
    if rng.flag() {
        c.out = MOST_OUT - near;
    }
}

/// Events so far, and the plant after them.
struct Rows<'a> {
    rng: &'a mut Rng,
    plant: Plant,
    events: Vec<Event>,
    len: usize,
}

impl<'a> Rows<'a> {
    fn new(rng: &'a mut Rng, plant: &Plant, len: usize) -> Rows<'a> {
        Rows {
            rng,
            plant: *plant,
            events: Vec::with_capacity(len),
            len,
        }
    }

    fn push(&mut self, event: Event) {
        if self.events.len() < self.len {
            // Taken or refused, the sheet goes on.
            let _ = apply(&mut self.plant, Source::Sheet, event);
            self.events.push(event);
        }
    }

    /// Ticks up to what is due at a crossing, one or two fewer or one more, and an event.
    fn row(&mut self) {
        let c = self.rng.below(self.plant.site.n.into()) as u8;
        let i = usize::from(c);
        let due = next_end(&self.plant.site.entries[i], &self.plant.crossings[i]);
        let few = self.rng.within(1..=6) as u16;
        let room = self.len - self.events.len();
        let due = due.filter(|due| usize::from(*due) <= room).unwrap_or(few);
        let ticks = match self.len > LONG && self.rng.once_in(8) {
            true => room,
            false => usize::from(due + 1).saturating_sub(self.rng.below(4) as usize),
        };
        for _ in 0..ticks {
            self.push(TICK);
        }
        let event = self.beside(c);
        self.push(event);
    }

    /// An event of this crossing, mostly; or of any, or junk, or code 0 with a field.
    fn beside(&mut self, c: u8) -> Event {
        match self.rng.below(12) {
            0 => junk_event(self.rng, &self.plant),
            1 => self.code_0(),
            4 | 5 => self.boom(c),
            2 | 3 => {
                let any = self.rng.below(self.plant.site.n.into()) as u8;
                event_at(self.rng, &self.plant, any)
            }
            _ => event_at(self.rng, &self.plant, c),
        }
    }

    /// A boom that is away comes up, or the first one goes away.
    fn boom(&self, c: u8) -> Event {
        let booms = &self.plant.crossings[usize::from(c)].booms;
        match booms.iter().position(|b| *b != boom::UP) {
            Some(away) => [code::BOOM_REPORT, c, away as u8, boom::UP],
            None => [code::BOOM_REPORT, c, 0, boom::MOVING],
        }
    }

    fn code_0(&mut self) -> Event {
        let mut event = [code::TICK, 0, 0, 0];
        event[self.rng.within(1..=3) as usize] = self.rng.pick(&[1, 1, 2, 7, 255]);
        event
    }
}
