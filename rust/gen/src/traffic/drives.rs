//! What the drives of the booms report.

use super::{List, LINE, TICK};
use crate::plants::report;
use engine::{boom, code, phase};

/// Where boom `b` is ordered in this phase.
fn ordered(phase: u8, b: u8) -> u8 {
    match phase {
        phase::ALL_DOWN => boom::DOWN,
        phase::RIGHT_DOWN if b < 2 => boom::DOWN,
        _ => boom::UP,
    }
}

impl List<'_> {
    pub(super) fn booms(&self, c: u8) -> u8 {
        self.plant.site.entries[usize::from(c)].booms()
    }

    pub(super) fn any_boom(&mut self, c: u8) -> [u8; 4] {
        let b = self.rng.below(self.booms(c).into()) as u8;
        [code::BOOM_REPORT, c, b, report(self.rng)]
    }

    /// Every boom of the crossing reported alike.
    pub(super) fn all_booms(&mut self, c: u8, report: u8) {
        for b in 0..self.booms(c) {
            self.push([code::BOOM_REPORT, c, b, report]);
        }
    }

    /// The next report of a boom on its way, or a tick where none is.
    pub(super) fn follow(&mut self, c: u8) -> [u8; 4] {
        let record = self.plant.crossings[usize::from(c)];
        let booms = self.booms(c);
        let first = self.rng.below(4) as u8;
        let mut on_the_way = (0..booms).map(|b| (first + b) % booms);
        let last = |b: u8| record.booms[usize::from(b)];
        match on_the_way.find(|b| last(*b) != ordered(record.phase, *b)) {
            Some(b) => {
                let next = self.next_report(last(b), ordered(record.phase, b));
                [code::BOOM_REPORT, c, b, next]
            }
            None => TICK,
        }
    }

    /// The report after `last` on the way to where the boom is ordered; now and then the drive
    /// loses its position (document 02, T-02).
    fn next_report(&mut self, last: u8, ordered: u8) -> u8 {
        match last {
            _ if self.rng.once_in(12) => boom::LOST,
            boom::MOVING => ordered,
            _ if self.rng.once_in(3) => ordered,
            _ => boom::MOVING,
        }
    }

    /// A drive loses its position at rest, on the way down or on the way up, and finds it again
    /// after a while (document 02, T-02).
    pub(super) fn lose(&mut self) {
        let c = self.crossing();
        if self.booms(c) == 0 {
            return self.stretch(&LINE);
        }
        let b = self.rng.below(self.booms(c).into()) as u8;
        let way = self.rng.below(3);
        if way > 0 {
            self.lower(c);
        }
        self.push([code::BOOM_REPORT, c, b, boom::LOST]);
        if way > 1 {
            self.clear(c);
            self.pass_calling(c);
            for other in (0..self.booms(c)).filter(|other| *other != b) {
                self.push([code::BOOM_REPORT, c, other, boom::UP]);
            }
        }
        self.while_lost(c, b);
        let there = ordered(self.plant.crossings[usize::from(c)].phase, b);
        let found = self.rng.pick(&[there, there, there, boom::MOVING]);
        self.push([code::BOOM_REPORT, c, b, found]);
    }

    /// All booms ordered down, and reported down or on the way.
    fn lower(&mut self, c: u8) {
        let entry = self.plant.site.entries[usize::from(c)];
        let close = match self.rng.flag() {
            true => [code::KIOSK_HOLD, c, 0, 1],
            false => [code::STRIKE_IN, c, self.track(c), 0],
        };
        self.push(close);
        self.ticks(u32::from(entry.pre + entry.gap));
        let report = self.rng.pick(&[boom::DOWN, boom::DOWN, boom::MOVING]);
        self.all_booms(c, report);
    }

    /// Ticks, and what comes between them while boom `b` is lost.
    fn while_lost(&mut self, c: u8, b: u8) {
        for _ in 0..self.rng.within(1..=8) {
            match self.rng.below(10) {
                0 => {
                    let e = [code::STRIKE_IN, c, self.track(c), 0];
                    self.push(e);
                }
                1 => {
                    let [code, c, other, report] = self.any_boom(c);
                    if other != b {
                        self.push([code, c, other, report]);
                    }
                }
                2 if self.rng.once_in(3) => {
                    self.clear(c);
                    self.push([code::TIME_RELEASE, c, 0, 0]);
                    self.ticks(271);
                }
                _ => self.push(TICK),
            }
        }
    }
}
