//! The sheets that are measured.

use engine::{code, number, Plant, Site, MAX_EVENTS};
use gen::{coherent, entry, event, quick_site, sheet_bytes, Command, Rng};

const SEED: u64 = 14;
const TICK: [u8; 4] = [code::TICK, 0, 0, 0];

/// A sheet of 4,096 events and the fresh plant of eight crossings that it runs on.
pub struct Sheet {
    pub name: &'static str,
    /// Of the crossings.
    pub kinds: &'static str,
    pub plant: Plant,
    pub bytes: Vec<u8>,
    events: Vec<[u8; 4]>,
}

impl Sheet {
    fn new(kinds: &'static str, plant: Plant, name: &'static str, events: Vec<[u8; 4]>) -> Sheet {
        Sheet {
            name,
            kinds,
            plant,
            bytes: sheet_bytes(&events),
            events,
        }
    }

    /// The sheet of the first so many events.
    pub fn first(&self, events: usize) -> Sheet {
        let events = self.events[..events].to_vec();
        Sheet::new(self.kinds, self.plant, self.name, events)
    }

    pub fn label(&self) -> String {
        format!("{}, kinds {}", self.name, self.kinds)
    }

    pub fn ticks(&self) -> usize {
        self.events.iter().filter(|e| **e == TICK).count()
    }

    /// The codes of the events that are taken, in turn.
    fn taken_codes(&self) -> Vec<u8> {
        let mut plant = self.plant;
        let taken = |e: &&[u8; 4]| {
            let Command { sender, event } = Command::rightful(**e);
            engine::event(&mut plant, sender, event).0 == number::TAKEN
        };
        self.events.iter().filter(taken).map(|e| e[0]).collect()
    }

    pub fn taken(&self) -> usize {
        self.taken_codes().len()
    }

    /// How many of the ten codes are among the taken events.
    pub fn codes_taken(&self) -> usize {
        let codes = self.taken_codes();
        (0..10).filter(|code| codes.contains(code)).count()
    }

    /// Why document 02, T-14 does not let it be measured: it asks for 4,096 events, at least half of
    /// them taken and every code among these. A sheet of ticks only needs no other code.
    pub fn fault(&self) -> Option<String> {
        let (events, taken, codes) = (self.events.len(), self.taken(), self.codes_taken());
        let all = if self.ticks() == events { 1 } else { 10 };
        if events != MAX_EVENTS {
            return Some(format!("{events} events, not {MAX_EVENTS}"));
        }
        if 2 * taken < events {
            return Some(format!("{taken} of {events} events taken, not half"));
        }
        (codes < all).then(|| format!("{codes} of {all} codes among the taken"))
    }
}

/// Eight crossings of kinds 1 to 4, M 0.
fn newer_kinds(rng: &mut Rng) -> Site {
    let mut site = Site::ZERO;
    site.n = 8;
    site.entries.fill_with(|| entry(rng, true));
    site
}

/// Eight crossings among which each of the kinds 1 to 6 stands, with M above 0 at six or more: the
/// first such site that is generated.
pub fn all_kinds(rng: &mut Rng) -> Site {
    loop {
        let site = quick_site(rng);
        let has = |kind| site.entries.iter().any(|entry| entry.kind == kind);
        let pauses = site.entries.iter().filter(|entry| entry.pause > 0).count();
        if site.n == 8 && (1..=6).all(has) && pauses >= 6 {
            return site;
        }
    }
}

/// A tick or, so many times in a hundred, an event of the table.
fn events(rng: &mut Rng, plant: &Plant, ticks: u32) -> Vec<[u8; 4]> {
    let one = |_| match rng.below(100) < ticks {
        true => TICK,
        false => event(rng, plant),
    };
    (0..MAX_EVENTS).map(one).collect()
}

/// Mixed, few ticks, ticks only; and traffic, in which booms follow their orders.
fn four(rng: &mut Rng, kinds: &'static str, site: &Site) -> [Sheet; 4] {
    let plant = Plant::fresh(site);
    let mixed = events(rng, &plant, 20);
    let few = events(rng, &plant, 0);
    let ticks = vec![TICK; MAX_EVENTS];
    let traffic = coherent(rng, &plant, MAX_EVENTS);
    let sheet = |name, events| Sheet::new(kinds, plant, name, events);
    [
        sheet("mixed", mixed),
        sheet("few ticks", few),
        sheet("ticks only", ticks),
        sheet("traffic", traffic),
    ]
}

/// The four over kinds 1 to 4, and the four over kinds 1 to 6 with M, which have numbers of their
/// own.
pub fn sheets() -> Vec<Sheet> {
    let rng = &mut Rng::new(SEED);
    let aside = &mut rng.aside();
    let (newer, all) = (newer_kinds(rng), all_kinds(aside));
    let newer = four(rng, "1 to 4", &newer);
    let all = four(aside, "1 to 6, M", &all);
    newer.into_iter().chain(all).collect()
}

#[cfg(test)]
mod tests {
    use super::*;

    #[test]
    fn every_sheet_may_be_measured() {
        let faults: Vec<String> = sheets().iter().filter_map(Sheet::fault).collect();
        assert_eq!(faults, Vec::<String>::new());
    }

    #[test]
    fn the_first_four_are_those_of_before() {
        let counts = |sheet: &Sheet| (sheet.ticks(), sheet.taken());
        let counts: Vec<(usize, usize)> = sheets().iter().take(4).map(counts).collect();
        let before = [(1175, 3142), (424, 3000), (4096, 4096), (2606, 3857)];
        assert_eq!(counts, before);
    }

    /// A sheet over kinds 1 to 4 of this event alone but for some ticks.
    fn with_ticks(event: [u8; 4], ticks: usize) -> Option<String> {
        let plant = Plant::fresh(&newer_kinds(&mut Rng::new(SEED)));
        let mut events = vec![event; MAX_EVENTS - ticks];
        events.extend(vec![TICK; ticks]);
        Sheet::new("", plant, "", events).fault()
    }

    #[test]
    fn others_are_refused() {
        let (ghost, kiosk) = ([code::PASSAGE, 0, 0, 0], [code::KIOSK_HOLD, 0, 0, 1]);
        let few = "2047 of 4096 events taken, not half";
        assert_eq!(with_ticks(ghost, 2047).as_deref(), Some(few));
        assert_eq!(
            with_ticks(kiosk, 2048).as_deref(),
            Some("2 of 10 codes among the taken")
        );
        assert_eq!(with_ticks(TICK, 0), None);
        let short = sheets()[0].first(512).fault();
        assert_eq!(short.as_deref(), Some("512 events, not 4096"));
    }
}
