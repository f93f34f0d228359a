//! Lists of events: coherent traffic, in which booms follow their orders, time
//! releases run to their end and detectors sweep their counters, mixed with junk.

mod drives;
mod old;
mod pauses;

use crate::events::{event, junk_event, lamp};
use crate::plants::report;
use crate::rng::Rng;
use crate::swept::{fullest, trains};
use engine::events::apply;
use engine::rights::Source;
use engine::{boom, code, Plant};

const TICK: [u8; 4] = [code::TICK, 0, 0, 0];

/// Coherent traffic from a plant in range, `len` events.
pub fn coherent(rng: &mut Rng, plant: &Plant, len: usize) -> Vec<[u8; 4]> {
    traffic(rng, plant, len).events
}

/// The plant after coherent traffic of `len` events.
pub fn played(rng: &mut Rng, plant: &Plant, len: usize) -> Plant {
    traffic(rng, plant, len).plant
}

fn traffic<'a>(rng: &'a mut Rng, plant: &Plant, len: usize) -> List<'a> {
    let mut list = List::new(rng, plant, len);
    while list.has_room() {
        list.burst();
    }
    list
}

/// Any events of the table with junk between, `len` events.
pub fn mixed(rng: &mut Rng, plant: &Plant, len: usize) -> Vec<[u8; 4]> {
    (0..len)
        .map(|_| match rng.below(8) {
            0 => junk_event(rng, plant),
            1..=3 => TICK,
            _ => event(rng, plant),
        })
        .collect()
}

/// Events so far, and the plant after them.
struct List<'a> {
    rng: &'a mut Rng,
    plant: Plant,
    events: Vec<[u8; 4]>,
    len: usize,
}

/// How often each kind of event comes in a stretch: tick, strike-in, passage, kiosk,
/// operator, route, approach, release, boom that follows, any boom, lamp, junk.
const LINE: [u32; 12] = [28, 5, 6, 0, 0, 0, 1, 0, 16, 0, 0, 0];
const STATION: [u32; 12] = [20, 6, 6, 1, 1, 6, 2, 1, 14, 1, 1, 1];
const OPERATORS: [u32; 12] = [10, 4, 6, 5, 7, 3, 2, 3, 10, 0, 1, 1];
const FAULTS: [u32; 12] = [14, 4, 4, 1, 1, 2, 1, 1, 8, 5, 6, 6];

impl<'a> List<'a> {
    fn new(rng: &'a mut Rng, plant: &Plant, len: usize) -> List<'a> {
        List {
            rng,
            plant: *plant,
            events: Vec::with_capacity(len),
            len,
        }
    }

    fn has_room(&self) -> bool {
        self.events.len() < self.len
    }

    fn push(&mut self, e: [u8; 4]) {
        if self.has_room() {
            // Taken or refused, the list goes on.
            let _ = apply(&mut self.plant, Source::Sheet, e);
            self.events.push(e);
        }
    }

    fn burst(&mut self) {
        if let Some(c) = self.with_old_sheet() {
            return self.overdue(c);
        }
        if let Some(c) = self.with_pause() {
            return self.motorists(c);
        }
        match self.rng.below(17) {
            0 => self.release(),
            1 => {
                let c = self.crossing();
                self.late_warning(c);
            }
            2 => self.sweep(),
            3 => self.long_out(),
            4 => self.lose(),
            5..=7 => self.stretch(&LINE),
            8..=11 => self.stretch(&STATION),
            12..=14 => self.stretch(&OPERATORS),
            _ => self.stretch(&FAULTS),
        }
    }

    fn crossing(&mut self) -> u8 {
        self.rng.below(self.plant.site.n.into()) as u8
    }

    fn track(&mut self, c: u8) -> u8 {
        let tracks = self.plant.site.entries[usize::from(c)].tracks;
        self.rng.below(tracks.into()) as u8
    }

    fn stretch(&mut self, weights: &[u32; 12]) {
        for _ in 0..self.rng.within(10..=300) {
            let e = self.single(weights);
            self.push(e);
        }
    }

    fn single(&mut self, weights: &[u32; 12]) -> [u8; 4] {
        let c = self.crossing();
        let t = self.track(c);
        let on = self.rng.below(2) as u8;
        match self.rng.weighted(weights) {
            0 => TICK,
            1 => [code::STRIKE_IN, c, t, 0],
            2 => self.passage(c),
            3 => [code::KIOSK_HOLD, c, 0, on],
            4 => [code::OPERATOR_HOLD, c, 0, on],
            5 => [code::ROUTE, c, t, on],
            6 => [code::APPROACH, c, t, on],
            7 => [code::TIME_RELEASE, c, 0, 0],
            8 => self.follow(c),
            9 => self.any_boom(c),
            10 => [code::LAMP_REPORT, c, lamp(self.rng, &self.plant, c), on],
            _ => junk_event(self.rng, &self.plant),
        }
    }

    /// The passage of a train that is there, if there is one.
    fn passage(&mut self, c: u8) -> [u8; 4] {
        let first = self.track(c);
        let record = &self.plant.crossings[usize::from(c)];
        let tracks = self.plant.site.entries[usize::from(c)].tracks;
        let there = (0..tracks).map(|t| (first + t) % tracks).find(|t| {
            let t = usize::from(*t);
            record.calling[t] > 0 || record.waiting[t] > 0
        });
        [code::PASSAGE, c, there.unwrap_or(first), 0]
    }

    fn ticks(&mut self, count: u32) {
        for _ in 0..count {
            self.push(TICK);
        }
    }

    /// Takes away whatever would refuse a time release.
    fn clear(&mut self, c: u8) {
        self.push([code::KIOSK_HOLD, c, 0, 0]);
        for t in 0..self.plant.site.entries[usize::from(c)].tracks {
            self.push([code::APPROACH, c, t, 0]);
            self.push([code::ROUTE, c, t, 0]);
        }
        while self.plant.crossings[usize::from(c)].operator != 0 && self.has_room() {
            if self.plant.crossings[usize::from(c)].calling == [0; 4] {
                self.push([code::OPERATOR_HOLD, c, 0, 0]);
            }
            let e = self.passage(c);
            self.push(e);
        }
    }

    /// The passage of every train that calls.
    fn pass_calling(&mut self, c: u8) {
        while self.plant.crossings[usize::from(c)].calling != [0; 4] && self.has_room() {
            let e = self.passage(c);
            self.push(e);
        }
    }

    /// A time release at one or more crossings, with harmless events between its ticks,
    /// sometimes cancelled or begun again.
    fn release(&mut self) {
        let count = self.rng.within(1..=self.plant.site.n.into());
        for _ in 0..count {
            let c = self.crossing();
            self.clear(c);
            for _ in 0..self.rng.below(4) {
                let t = self.track(c);
                self.push([code::STRIKE_IN, c, t, 0]);
            }
            self.push([code::TIME_RELEASE, c, 0, 0]);
        }
        let disturb = self.rng.once_in(3);
        for _ in 0..272 {
            self.push(TICK);
            let c = self.crossing();
            match self.rng.below(40) {
                0 => {
                    let e = self.passage(c);
                    self.push(e);
                }
                1..=3 => {
                    let e = self.follow(c);
                    self.push(e);
                }
                4 if disturb && self.rng.once_in(4) => {
                    let e = self.single(&OPERATORS);
                    self.push(e);
                }
                _ => {}
            }
        }
    }

    /// A detector sweeps its counter, sometimes two do; then what may follow, and mostly a
    /// release.
    fn sweep(&mut self) {
        let c = self.crossing();
        let t = match self.rng.flag() {
            true => fullest(&self.plant, c),
            false => self.track(c),
        };
        self.strike_in_past_full(c, t);
        if self.rng.once_in(3) {
            let other = (t + 1) % self.plant.site.entries[usize::from(c)].tracks;
            self.strike_in_past_full(c, other);
        }
        for _ in 0..self.rng.below(3) {
            self.after_sweep(c, t);
        }
        if !self.rng.once_in(3) {
            self.release_sweep(c, t);
        }
    }

    /// Strike-ins until the track is full and some more; its route may change between them.
    fn strike_in_past_full(&mut self, c: u8, t: u8) {
        let there = trains(&self.plant.crossings[usize::from(c)], t.into());
        let count = 255 - u32::from(there) + self.rng.within(1..=4);
        let turn = self.rng.below(2 * count);
        for i in 0..count {
            if i == turn {
                let on = self.rng.below(2) as u8;
                self.push([code::ROUTE, c, t, on]);
            }
            self.push([code::STRIKE_IN, c, t, 0]);
        }
    }

    /// What leaves a swept track unsure.
    fn after_sweep(&mut self, c: u8, t: u8) {
        match self.rng.below(5) {
            0 => {
                for _ in 0..self.rng.pick(&[1, 5, 256]) {
                    self.push([code::PASSAGE, c, t, 0]);
                }
            }
            1 => {
                self.push([code::ROUTE, c, t, 1]);
                self.push([code::ROUTE, c, t, 0]);
            }
            2 => {
                self.push([code::KIOSK_HOLD, c, 0, 1]);
                self.push([code::KIOSK_HOLD, c, 0, 0]);
            }
            3 => {
                self.push([code::OPERATOR_HOLD, c, 0, 1]);
                self.clear(c);
            }
            _ => {
                let ticks = self.rng.within(1..=20);
                self.ticks(ticks);
                let report = report(self.rng);
                self.all_booms(c, report);
                self.push([code::STRIKE_IN, c, t, 0]);
            }
        }
    }

    /// A time release at a swept crossing, sometimes cancelled, and then begun again or not.
    fn release_sweep(&mut self, c: u8, t: u8) {
        self.clear(c);
        self.push([code::TIME_RELEASE, c, 0, 0]);
        if self.rng.flag() {
            let ticks = self.rng.below(270);
            self.ticks(ticks);
            let cancel = self.rng.pick(&[
                [code::STRIKE_IN, c, t, 0],
                [code::STRIKE_IN, c, t, 0],
                [code::STRIKE_IN, c, t, 0],
                [code::KIOSK_HOLD, c, 0, 1],
                [code::OPERATOR_HOLD, c, 0, 1],
                [code::ROUTE, c, t, 1],
                [code::APPROACH, c, t, 1],
            ]);
            self.push(cancel);
            if self.rng.once_in(3) {
                return;
            }
            self.clear(c);
            self.push([code::TIME_RELEASE, c, 0, 0]);
        }
        self.ticks(271);
    }

    /// More than 900 ticks out of normal position.
    fn long_out(&mut self) {
        if self.len - self.events.len() < 1000 {
            return self.stretch(&STATION);
        }
        let c = self.crossing();
        self.push([code::KIOSK_HOLD, c, 0, 1]);
        for _ in 0..903 {
            self.push(TICK);
            if self.rng.once_in(50) {
                let e = self.follow(c);
                self.push(e);
            }
        }
        self.push([code::KIOSK_HOLD, c, 0, 0]);
        self.all_booms(c, boom::UP);
    }
}
