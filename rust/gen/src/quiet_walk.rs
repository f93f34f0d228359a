//! A sheet event by event, with what each crossing met since its own last one (document 02, T-14).

use crate::ends::{next_end, End};
use crate::quiet_met::{used, How, QuietCounts};
use crate::shifts::{Event, TICK};
use engine::events::apply;
use engine::rights::Source;
use engine::{code, Crossing, Entry, Plant};

/// A crossing since its own last event.
#[derive(Clone, Copy, Default)]
struct Since {
    ticks: u32,
    /// How much ended on them, and what on the last, a bit each.
    ends: usize,
    ended: u16,
    /// That event was refused, after some ticks.
    refused: bool,
}

/// A sheet event by event.
pub(crate) struct Walk<'a> {
    counts: &'a mut QuietCounts,
    plant: Plant,
    since: [Since; 8],
    /// The last events were a tick, or a tick and this one with code 0.
    after_tick: bool,
    code_0: Option<Event>,
}

impl Walk<'_> {
    pub(crate) fn new<'a>(counts: &'a mut QuietCounts, plant: &Plant) -> Walk<'a> {
        Walk {
            counts,
            plant: *plant,
            since: [Since::default(); 8],
            after_tick: false,
            code_0: None,
        }
    }

    pub(crate) fn event(&mut self, event: Event, last: bool) {
        let n = self.plant.site.n;
        let [code, crossing, ..] = event;
        let before = self.plant;
        let taken = apply(&mut self.plant, Source::Sheet, event).is_ok();
        match (event, code) {
            (TICK, _) => self.tick(&before, last),
            (_, code::TICK) => self.code_0 = self.after_tick.then_some(event),
            (_, ..=code::LAMP_REPORT) if crossing < n => {
                self.own(&before, code, crossing.into(), taken);
            }
            _ => {}
        }
        self.after_tick = event == TICK;
        if code != code::TICK || self.after_tick {
            self.code_0 = None;
        }
    }

    fn tick(&mut self, before: &Plant, last: bool) {
        let (mut due, mut all) = (0, 0);
        for (i, entry) in used(before) {
            let ended = self.ended(i, &entry, &before.crossings[i], last);
            due += usize::from(ended != 0);
            all |= ended;
        }
        self.counts.together[due] += 1;
        let unlike = due > 1 && all & (all - 1) != 0;
        self.counts.together[9] += u64::from(unlike);
        if let Some([_, fields @ ..]) = self.code_0 {
            let met = fields.map(|field| field != 0).into_iter().chain([due > 0]);
            let counts = self.counts.code_0.iter_mut().zip(met);
            counts.for_each(|(count, met)| *count += u64::from(met));
        }
    }

    /// What a tick ends at a crossing, a bit each; reaching the most ticks out of normal is none.
    fn ended(&mut self, i: usize, entry: &Entry, before: &Crossing, last: bool) -> u16 {
        let (since, kind) = (&mut self.since[i], usize::from(entry.kind));
        since.ticks += 1;
        since.ended = 0;
        let ways = [
            (How::Row, since.ticks > 1),
            (How::Refused, since.refused),
            (How::Last, last),
        ];
        let mut acting = 0;
        for (end, ..) in End::ALL {
            if end.until(entry, before) != 1 {
                continue;
            }
            since.ended |= 1 << end as u16;
            acting |= u16::from(end.acts()) << end as u16;
            for (how, _) in ways.iter().filter(|(_, met)| *met) {
                self.counts.ends[*how as usize][end as usize][kind] += 1;
            }
        }
        since.refused = false;
        if acting != 0 {
            since.ends += 1;
            if since.ends > 1 {
                self.counts.chains[since.ends.min(4) - 2][kind] += 1;
            }
        }
        acting
    }

    /// An event of a crossing, taken or refused.
    fn own(&mut self, before: &Plant, code: u8, i: usize, taken: bool) {
        let (entry, c) = (&before.site.entries[i], &before.crossings[i]);
        let Since { ticks, ended, .. } = self.since[i];
        self.since[i] = Since {
            refused: !taken && ticks > 0,
            ..Since::default()
        };
        if !taken || ticks == 0 {
            return;
        }
        self.moved(before, code, i);
        for (end, ..) in End::ALL {
            let until = end.until(entry, c);
            let ways = [
                (How::Two, until == 2),
                (How::One, until == 1),
                (How::After, ended >> end as u16 & 1 == 1),
            ];
            for (place, (how, _)) in ways.iter().enumerate().filter(|(_, (_, met))| *met) {
                self.counts.ends[*how as usize][end as usize][usize::from(entry.kind)] += 1;
                self.counts.codes[usize::from(code)][place] += u64::from(end.acts());
            }
        }
    }

    /// An event of a crossing was taken after some ticks: when something is due now, and before.
    fn moved(&mut self, before: &Plant, code: u8, i: usize) {
        let next = |entry: &Entry, c: &Crossing| next_end(entry, c).unwrap_or(u16::MAX);
        let entry = &before.site.entries[i];
        let now = next(entry, &self.plant.crossings[i]);
        let was = next(entry, &before.crossings[i]);
        let (code, kind) = (usize::from(code), usize::from(entry.kind));
        self.counts.moved[0][code][kind] += u64::from(now < was);
        self.counts.moved[1][code][kind] += u64::from(now > was);
        let mut all = used(before).map(|(i, entry)| next(&entry, &before.crossings[i]));
        let soonest = now < was && all.all(|next| now < next);
        self.counts.soonest[kind] += u64::from(soonest);
    }

    /// The sheet is over.
    pub(crate) fn close(self) {
        for (i, entry) in used(&self.plant) {
            let c = &self.plant.crossings[i];
            for (end, ..) in End::ALL {
                let runs = end.until(&entry, c) > 0 && self.since[i].ticks > 1;
                let counts = &mut self.counts.ends[How::Middle as usize][end as usize];
                counts[usize::from(entry.kind)] += u64::from(runs);
            }
        }
    }
}
