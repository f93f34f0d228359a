//! Plants under the sheet of 1959, document 02, T-09: settings, lamps, and all that is as before.

mod common;

use common::{book, entry, fresh, panel, paused, refuse, send, settings, site, take, ticks, TICK};
use engine::{boom, in_range, phase, read_book, write_book, Entry, Plant};

/// One plain and one dependent track, F 15 and for kind 4 G 1.
fn of_kind(kind: u8) -> Entry {
    entry(kind, 2, 0b10, 15, u16::from(kind == 4))
}

/// Whether these settings are taken: read, written and held.
fn is_taken(entry: Entry) -> bool {
    let site = site(&[entry]);
    let mut bytes = vec![0; 10];
    let written = write_book(&site, &mut bytes);
    let taken = in_range(&Plant::fresh(&site));
    let shape = [1, entry.kind, entry.tracks, entry.mask];
    let times = [entry.pre, entry.gap, entry.pause].map(u16::to_le_bytes);
    let bytes: Vec<u8> = shape.into_iter().chain(times.concat()).collect();
    let read = read_book(&bytes).0;
    let number = if taken { 0 } else { 3 };
    assert_eq!((written, read), (number, number), "{entry:?}");
    taken
}

#[test]
fn settings_of_each_kind() {
    for kind in 0..=8 {
        assert_eq!(is_taken(of_kind(kind)), (1..=6).contains(&kind));
    }
    for value in (0..=400).chain([271, 527, 65535]) {
        let with = |kind| Entry {
            pre: value,
            ..of_kind(kind)
        };
        assert_eq!(is_taken(with(5)), (1..=180).contains(&value));
        assert_eq!(is_taken(with(6)), value == 15);
        for kind in [5, 6] {
            let gap = Entry {
                gap: value,
                ..of_kind(kind)
            };
            assert_eq!(is_taken(gap), value == 0);
        }
    }
    for (kind, pause) in [5, 6].into_iter().flat_map(|k| [0, 1, 540].map(|m| (k, m))) {
        assert!(is_taken(paused(of_kind(kind), pause)));
        assert!(!is_taken(paused(of_kind(kind), 541)));
    }
}

#[test]
fn fresh_plants() {
    let kinds: Vec<Entry> = (1..=6).map(of_kind).collect();
    let (number, plant) = read_book(&book(&site(&kinds)));
    assert_eq!(number, 0);
    for c in 0..6 {
        let record = &plant.crossings[c];
        let boom_lamps = u8::from(c == 5);
        assert_eq!(record.lamps, [1, 1, 1, 1, 1, boom_lamps, boom_lamps]);
        assert_eq!((record.booms, record.phase, record.left), ([0; 4], 0, 0));
    }
    assert_eq!(plant.crossings[6..], [engine::Crossing::ZERO; 2]);
}

/// Every kind: 0 to 4, and 5 and 6 at kind 6.
#[test]
fn places_of_lamps() {
    for kind in 1..=6 {
        let plant = fresh(&[of_kind(kind)]);
        for place in 0..=255 {
            let known = place < 5 || kind == 6 && place < 7;
            for value in 0..=1 {
                if !known {
                    refuse(&plant, [9, 0, place, value], 7);
                    continue;
                }
                let mut after = plant;
                take(&mut after, &[[9, 0, place, value]]);
                assert_eq!(after.crossings[0].lamps[usize::from(place)], value);
            }
            refuse(&plant, [9, 0, place, 2], if known { 8 } else { 7 });
        }
    }
}

/// Held as 0 at every kind but 6, where it is a flag.
#[test]
fn lamps_5_and_6_held() {
    for (kind, lamp) in (1..=6).flat_map(|kind| [5, 6].map(|lamp| (kind, lamp))) {
        let mut plant = fresh(&[of_kind(kind)]);
        for value in 0..=255 {
            plant.crossings[0].lamps[lamp] = value;
            let known = value == 0 || kind == 6 && value == 1;
            assert_eq!(in_range(&plant), known, "{kind} {lamp} {value}");
            if !known {
                refuse(&plant, TICK, 15);
            }
        }
    }
}

/// Booms 0 and 1 at kind 6, none at kind 5.
#[test]
fn places_of_booms() {
    for b in 0..=255 {
        refuse(&fresh(&[of_kind(5)]), [8, 0, b, boom::DOWN], 7);
        match b {
            0 | 1 => assert_eq!(send(&mut fresh(&[of_kind(6)]), [8, 0, b, 3]), (0, 0)),
            _ => refuse(&fresh(&[of_kind(6)]), [8, 0, b, boom::DOWN], 7),
        }
    }
}

/// The phases of kinds 1 and 2.
#[test]
fn phases_and_timers() {
    for (kind, pre) in [(5, 2), (6, 15)] {
        let plant = fresh(&[settings(kind, pre, 0)]);
        for (phase, timer) in (0..=255).flat_map(|p| (0..=20).map(move |t| (p, t))) {
            let mut held = plant;
            (held.crossings[0].phase, held.crossings[0].timer) = (phase, timer);
            let known = match phase {
                phase::OPEN | phase::ALL_DOWN => timer == 0,
                phase::WARNING => (1..=pre).contains(&timer),
                phase::RAISING => kind == 6 && timer == 0,
                _ => false,
            };
            assert_eq!(in_range(&held), known, "{kind} {phase} {timer}");
        }
    }
}

/// Up to 1,080 at every kind, and no longer at 901.
#[test]
fn ticks_out_of_normal_held() {
    for kind in 1..=6 {
        let mut plant = fresh(&[of_kind(kind)]);
        for out in (0..=1100).chain([1336, 65535]) {
            plant.crossings[0].out = out;
            assert_eq!(in_range(&plant), out <= 1080);
        }
    }
}

/// A small generator of numbers.
struct Numbers(u64);

impl Numbers {
    fn below(&mut self, n: u64) -> u8 {
        self.0 = self.0.wrapping_mul(6364136223846793005).wrapping_add(1);
        ((self.0 >> 33) % n) as u8
    }

    /// Any event, a tick as often as not.
    fn event(&mut self) -> [u8; 4] {
        if self.below(2) == 0 {
            return TICK;
        }
        let code = 1 + self.below(9);
        let place = match code {
            3 | 4 | 7 => 0,
            9 => self.below(5),
            _ => self.below(2),
        };
        let value = match code {
            1 | 2 | 7 => 0,
            8 => self.below(4),
            9 => u8::from(self.below(8) > 0),
            _ => self.below(2),
        };
        [code, 0, place, value]
    }
}

/// The plant as one of the other kind holds it.
fn as_kind(plant: &Plant, kind: u8) -> Plant {
    let mut other = *plant;
    other.site.entries[0].kind = kind;
    other.crossings[0].lamps[5..].fill(u8::from(kind == 6));
    other
}

/// Kinds 5 and 6 as 1 and 2, but for the lights and for what is long out of normal.
#[test]
fn in_all_else_as_kinds_1_and_2() {
    for (seed, (kind, old)) in (0..40).flat_map(|seed| [(1, 5), (2, 6)].map(|kinds| (seed, kinds)))
    {
        let pause = [0, 0, 1, 5][seed as usize % 4];
        let mut numbers = Numbers(seed);
        let mut plant = fresh(&[paused(of_kind(kind), pause)]);
        let mut twin = fresh(&[paused(of_kind(old), pause)]);
        for _ in 0..1000 {
            let event = numbers.event();
            assert_eq!(send(&mut plant, event), send(&mut twin, event), "{event:?}");
            assert_eq!(as_kind(&plant, old), twin, "{event:?}");
            let (bytes, old_bytes) = (panel(&plant, 0), panel(&twin, 0));
            for i in [2, 4, 5, 8, 9, 10, 11, 12, 13, 14, 15] {
                assert_eq!(bytes[i], old_bytes[i], "byte {i}");
            }
        }
        assert!(twin.crossings[0].out < 1079);
    }
}

/// Both by the same ticks, in a plant with one of every kind.
#[test]
fn both_sheets_in_one_plant() {
    let kinds: Vec<Entry> = (1..=6).map(of_kind).collect();
    let mut plant = fresh(&kinds);
    for c in 0..6 {
        take(&mut plant, &[[1, c, 0, 0]]);
    }
    ticks(&mut plant, 14);
    let phases = |plant: &Plant| [0, 1, 2, 3, 4, 5].map(|c: usize| plant.crossings[c].phase);
    assert_eq!(phases(&plant), [1; 6]);
    ticks(&mut plant, 1);
    assert_eq!(phases(&plant), [3, 3, 3, 2, 3, 3]);
    for c in 0..6 {
        take(&mut plant, &[[2, c, 0, 0]]);
    }
    assert_eq!(phases(&plant), [0, 4, 4, 4, 0, 4]);
}
