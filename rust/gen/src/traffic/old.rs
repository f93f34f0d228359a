//! Closures of six minutes, which a tick ends under the sheet of 1959 (document 02, T-09).

use super::{List, TICK};
use engine::{boom, code};

/// Ticks out of normal that the tick must find.
const OVERDUE: u16 = 1079;
/// Events that one such closure may take.
const ROOM: usize = 1800;

impl List<'_> {
    /// A crossing under that sheet, once in 16 bursts of a list that has one and room for a long
    /// closure; by numbers aside.
    pub(super) fn with_old_sheet(&self) -> Option<u8> {
        let weights = self.plant.site.entries.map(|e| u32::from(e.is_old()));
        let mut aside = self.rng.aside().aside();
        let room = self.len - self.events.len() >= ROOM;
        let due = room && weights != [0; 8] && aside.once_in(16);
        due.then(|| aside.weighted(&weights) as u8)
    }

    /// Trains close all crossings for so long that a tick ends it at this one, unless something is
    /// in the way.
    pub(super) fn overdue(&mut self, c: u8) {
        let crossings = 0..self.plant.site.n;
        let all: Vec<(u8, u8)> = crossings.map(|c| (c, self.track(c))).collect();
        all.iter().for_each(|(i, t)| self.long_closure(*i, *t));
        if self.rng.once_in(4) {
            self.strike_in_past_full(c, all[usize::from(c)].1);
        }
        self.until_out(c, 40);
        for (i, _) in &all {
            let report = self.rng.pick(&[boom::DOWN, boom::DOWN, boom::MOVING]);
            self.all_booms(*i, report);
        }
        if self.rng.once_in(3) {
            // At its last tick, or on the way.
            let before = self.rng.pick(&[269, 150]);
            self.until_out(c, OVERDUE - before);
            all.iter().for_each(|(i, t)| self.begin_release(*i, *t));
        }
        let early = self.rng.below(4) as u16;
        self.until_out(c, OVERDUE - early);
        all.iter().for_each(|(i, t)| self.meanwhile(*i, *t));
        self.ticks(u32::from(early) + 2);
        all.iter().for_each(|(i, t)| self.afterwards(*i, *t));
    }

    /// Trains, some that wait for a route.
    fn long_closure(&mut self, c: u8, t: u8) {
        self.clear(c);
        self.push([code::ROUTE, c, t, 1]);
        self.push([code::STRIKE_IN, c, t, 0]);
        if self.rng.once_in(3) {
            self.push([code::ROUTE, c, t, 0]);
            self.push([code::STRIKE_IN, c, t, 0]);
        }
    }

    /// Ticks until the crossing is so long out of normal.
    fn until_out(&mut self, c: u8, out: u16) {
        for _ in 0..OVERDUE {
            if self.plant.crossings[usize::from(c)].out >= out {
                return;
            }
            self.push(TICK);
        }
    }

    fn begin_release(&mut self, c: u8, t: u8) {
        self.push([code::ROUTE, c, t, 0]);
        self.push([code::TIME_RELEASE, c, 0, 0]);
    }

    /// What hinders the end of the closure, and what does not.
    fn meanwhile(&mut self, c: u8, t: u8) {
        let event = match self.rng.below(8) {
            0 => [code::KIOSK_HOLD, c, 0, 1],
            1 => [code::OPERATOR_HOLD, c, 0, 1],
            2 => [code::APPROACH, c, t, 1],
            3 => [code::ROUTE, c, t, 1],
            4 => [code::STRIKE_IN, c, t, 0],
            _ => return,
        };
        self.push(event);
    }

    /// Nothing is in the way any more; booms rise, or do not and trains strike in.
    fn afterwards(&mut self, c: u8, t: u8) {
        self.push([code::KIOSK_HOLD, c, 0, 0]);
        self.push([code::APPROACH, c, t, 0]);
        self.ticks(2);
        if self.rng.flag() {
            self.push([code::STRIKE_IN, c, t, 0]);
            self.ticks(2);
        }
        self.clear(c);
        let report = self.rng.pick(&[boom::UP, boom::UP, boom::LOST]);
        self.all_booms(c, report);
        self.ticks(2);
        self.all_booms(c, boom::UP);
    }
}
