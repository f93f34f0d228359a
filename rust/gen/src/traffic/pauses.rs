//! Closures, and the time for motorists after them (document 02, T-06).

use super::{List, TICK};
use crate::events::event_at;
use engine::{boom, code};

impl List<'_> {
    /// A crossing with an M, once in three bursts of a list that has one; by numbers aside.
    pub(super) fn with_pause(&self) -> Option<u8> {
        let weights = self.plant.site.entries.map(|entry| match entry.pause {
            0 => 0,
            // Long enough for lights only to end a warning with a release.
            _ if !entry.has_booms() && entry.pre + entry.pause >= 270 => 6,
            _ => 1,
        });
        let mut aside = self.rng.aside();
        let due = weights != [0; 8] && aside.once_in(3);
        due.then(|| aside.weighted(&weights) as u8)
    }

    /// What may come in the time for motorists: the end of a release, a swept counter, any event.
    pub(super) fn motorists(&mut self, c: u8) {
        let way = self.rng.below(4);
        if way > 1 {
            return self.late_warning(c);
        }
        let t = self.own_track(c);
        self.closure(c, t);
        self.all_booms(c, boom::UP);
        if way == 1 {
            self.strike_in_past_full(c, t);
            let ticks = self.rng.below(8);
            self.ticks(ticks);
            return self.release_sweep(c, t);
        }
        for _ in 0..self.rng.within(1..=20) {
            let e = match self.rng.below(3) {
                0 => TICK,
                _ => event_at(self.rng, &self.plant, c),
            };
            self.push(e);
        }
    }

    /// Any track; where there is an M, rather one whose trains call without a route.
    fn own_track(&mut self, c: u8) -> u8 {
        let first = self.track(c);
        let entry = &self.plant.site.entries[usize::from(c)];
        let mut tracks = (0..entry.tracks).map(|t| (first + t) % entry.tracks);
        let plain = tracks.find(|t| entry.pause > 0 && !entry.depends((*t).into()));
        plain.unwrap_or(first)
    }

    /// A train closes the crossing, whose booms go down, and passes.
    fn closure(&mut self, c: u8, t: u8) {
        let entry = self.plant.site.entries[usize::from(c)];
        self.clear(c);
        self.ticks(self.plant.crossings[usize::from(c)].left.into());
        self.push([code::STRIKE_IN, c, t, 0]);
        self.ticks(u32::from(entry.pre) + u32::from(entry.gap));
        self.all_booms(c, boom::DOWN);
        self.pass_calling(c);
    }

    /// A warning that begins out of raising, or after the time for motorists, and ends on the tick
    /// that ends a release.
    pub(super) fn late_warning(&mut self, c: u8) {
        let t = self.own_track(c);
        self.closure(c, t);
        let rest = self.before_release(c);
        if self.booms(c) == 0 {
            // No boom keeps the time for motorists from running.
            self.ticks(rest.saturating_sub(270));
        }
        self.push([code::STRIKE_IN, c, t, 0]);
        self.push([code::TIME_RELEASE, c, 0, 0]);
        let early = self.rng.below(3);
        self.ticks((271 - early).saturating_sub(rest));
        self.all_booms(c, boom::UP);
        self.ticks(rest.min(271) + 2);
    }

    /// How long before the end of a release raising ends: the warning is to end on its tick or,
    /// after the time for motorists, to begin on it; or that time is to last on.
    fn before_release(&self, c: u8) -> u32 {
        let entry = &self.plant.site.entries[usize::from(c)];
        let [pre, pause] = [entry.pre, entry.pause].map(u32::from);
        let mut aside = self.rng.aside();
        let within = aside.within(0..=pause);
        match pause {
            0 => pre,
            _ => aside.pick(&[pre + pause, pre + pause, pause, within]),
        }
    }
}
