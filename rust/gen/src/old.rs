//! Plants under the sheet of 1959 (document 02, T-09): settings and numbers aside, and grids.

use crate::rng::Rng;
use crate::swept::{phases, vary};
use engine::{boom, code, phase, Crossing, Entry, Plant, Site};

/// Ticks out of normal around the bounds of the panel's bit and of the release.
const OUTS: [u16; 7] = [900, 901, 1078, 1079, 1079, 1080, 1080];

/// Puts lights only and two booms under that sheet: in half of the sites none, otherwise most.
pub(crate) fn give_old_sheets(mut rng: Rng, entries: &mut [Entry]) {
    if rng.flag() {
        return;
    }
    for entry in entries {
        match entry.booms() {
            _ if rng.once_in(4) => {}
            0 => entry.kind = 5,
            2 => (entry.kind, entry.pre) = (6, 15),
            _ => {}
        }
    }
}

/// Under that sheet: sometimes a boom lamp dead, often many ticks out of normal, and often nothing
/// in the way of a release.
pub(crate) fn set_old(mut rng: Rng, c: &mut Crossing, entry: &Entry) {
    if !entry.is_old() {
        return;
    }
    for lamp in &mut c.lamps[5..entry.lamps().into()] {
        *lamp = (!rng.once_in(6)).into();
    }
    if rng.flag() {
        c.out = rng.pick(&OUTS);
    }
    if rng.once_in(3) {
        (c.kiosk, c.operator, c.occupied) = (0, 0, [0; 4]);
    }
}

/// In a plant with a crossing under that sheet the others are now and then long out of normal too.
pub(crate) fn give_long_out(mut rng: Rng, plant: &mut Plant) {
    let entries = &plant.site.entries;
    if !entries.iter().any(Entry::is_old) {
        return;
    }
    let used = plant.crossings.iter_mut().zip(entries);
    for (c, _) in used.filter(|(_, entry)| (1..=4).contains(&entry.kind)) {
        if rng.once_in(4) {
            let within = rng.within(902..=1080) as u16;
            c.out = rng.pick(&[902, 1078, 1079, 1080, within]);
        }
    }
}

/// Ticks out of normal in the grid of ticks: under that sheet, and not.
const OLD_OUTS: [u16; 5] = [901, 1077, 1078, 1079, 1080];
const OTHER_OUTS: [u16; 5] = [900, 901, 902, 1079, 1080];
/// Trains calling and waiting on track 0, and the flag of track 1.
const TRAINS: [(u8, u8, u8); 3] = [(2, 0, 0), (1, 3, 1), (0, 0, 1)];
/// Kiosk hold, operator hold, approaches of both tracks.
const HELD: [(u8, u8, u8, u8); 6] = [
    (0, 0, 0, 0),
    (1, 0, 0, 0),
    (0, 1, 0, 0),
    (1, 1, 0, 0),
    (0, 0, 1, 0),
    (0, 0, 0, 1),
];

/// Plants of one crossing for a tick: around the bounds of ticks out of normal, with trains and
/// flags. Kinds 5 and 6 in every phase with what hinders a release, the others in phase 3; M is 3
/// where track 0 is dependent.
pub fn old_ticks() -> Vec<Plant> {
    let mut plants = phases();
    plants.retain(|plant| is_old(plant) || plant.crossings[0].phase == phase::ALL_DOWN);
    plants = vary(plants, |plant| vec![lowered(plant)]);
    plants = vary(plants, |plant| {
        let outs = if is_old(&plant) { OLD_OUTS } else { OTHER_OUTS };
        outs.map(|out| with(plant, |c| c.out = out)).into()
    });
    plants = vary(plants, |plant| {
        TRAINS.map(|trains| with_trains(plant, trains)).into()
    });
    plants = vary(plants, |plant| {
        let held = if is_old(&plant) {
            &HELD[..]
        } else {
            &HELD[..1]
        };
        held.iter().map(|held| with_held(plant, *held)).collect()
    });
    vary(plants, |plant| {
        let routes = 0..=plant.site.entries[0].mask & 1;
        let ways = routes.flat_map(|route| [0, 1, 2, 270].map(|countdown| (route, countdown)));
        ways.map(|way| with(plant, |c| (c.route[0], c.countdown) = way))
            .collect()
    })
}

/// Booms down where they were ordered down, and M.
fn lowered(mut plant: Plant) -> Plant {
    let entry = &mut plant.site.entries[0];
    entry.pause = 3 * u16::from(entry.mask);
    let c = &mut plant.crossings[0];
    if c.phase >= phase::ALL_DOWN {
        c.booms[..entry.booms().into()].fill(boom::DOWN);
    }
    plant
}

fn is_old(plant: &Plant) -> bool {
    plant.site.entries[0].is_old()
}

fn with(mut plant: Plant, change: impl FnOnce(&mut Crossing)) -> Plant {
    change(&mut plant.crossings[0]);
    plant
}

fn with_trains(plant: Plant, (calling, waiting, unsure): (u8, u8, u8)) -> Plant {
    let depends = plant.site.entries[0].depends(0);
    with(plant, |c| {
        (c.calling[0], c.unsure[1]) = (calling, unsure);
        c.waiting[0] = if depends { waiting } else { 0 };
    })
}

fn with_held(plant: Plant, held: (u8, u8, u8, u8)) -> Plant {
    with(plant, |c| {
        (c.kiosk, c.operator, c.occupied[0], c.occupied[1]) = held;
    })
}

/// Panels at every beat with every combination of lamps: kind 6 in every phase with every
/// combination of reports, eight of them at eight crossings; kind 5 with a phase at each of three.
pub fn old_panels() -> impl Iterator<Item = Plant> {
    let booms = [0, 1, 3, 4]
        .into_iter()
        .flat_map(|phase| [0, 8].map(|first| (phase, first)));
    let booms = booms.map(|(phase, first)| {
        let reports = move |i: u8| [(first + i) & 3, (first + i) >> 2, 0, 0];
        old_crossings(6, 8, move |i, c| {
            (c.phase, c.booms) = (phase, reports(i));
            c.timer = u16::from(phase == phase::WARNING);
        })
    });
    let lights = old_crossings(5, 3, |i, c| {
        (c.phase, c.timer) = [(0, 0), (1, 1), (3, 0)][usize::from(i)];
    });
    let plants = booms.chain([lights]).flat_map(with_lamps);
    plants.flat_map(|plant| [0, 1, 2, 3].map(|beat| Plant { beat, ..plant }))
}

/// `n` crossings of a kind with one dependent track, a train on it and its route set, each changed.
fn old_crossings(kind: u8, n: u8, change: impl Fn(u8, &mut Crossing)) -> Plant {
    let mut site = Site { n, ..Site::ZERO };
    site.entries[..n.into()].fill(Entry {
        kind,
        tracks: 1,
        mask: 1,
        pre: 15,
        gap: 0,
        pause: 0,
    });
    let mut plant = Plant::fresh(&site);
    for (i, c) in (0..n).zip(&mut plant.crossings) {
        (c.calling[0], c.route[0]) = (1, 1);
        change(i, c);
    }
    plant
}

/// Every combination of the lamps that report, the same at every crossing.
fn with_lamps(plant: Plant) -> impl Iterator<Item = Plant> {
    let lamps = plant.site.entries[0].lamps();
    (0..1u8 << lamps).map(move |whole| {
        let mut plant = plant;
        for c in &mut plant.crossings[..plant.site.n.into()] {
            for (i, lamp) in (0..lamps).zip(&mut c.lamps) {
                *lamp = whole >> i & 1;
            }
        }
        plant
    })
}

/// Reports of lamps around the last place and value, at every kind.
pub fn old_lamps() -> impl Iterator<Item = (Plant, [u8; 4])> {
    let places = || (0..=8).chain([133, 134, 255]);
    let reports = move || places().flat_map(|place| [0, 1, 2, 255].map(|value| (place, value)));
    every_kind().flat_map(move |plant| {
        reports().map(move |(place, value)| (plant, [code::LAMP_REPORT, 0, place, value]))
    })
}

/// Every kind alone, closed.
fn every_kind() -> impl Iterator<Item = Plant> {
    let closed = |plant: &Plant| {
        let depends = plant.site.entries[0].depends(0);
        depends && plant.crossings[0].phase == phase::ALL_DOWN
    };
    phases().into_iter().filter(closed).map(lowered)
}

/// Plants of every kind with values of the two boom lamps and ticks out of normal around their
/// bounds, used and past n; most of them are spoilt.
pub fn every_old() -> impl Iterator<Item = Plant> {
    every_kind().flat_map(|plant| {
        let lamps = (5..7).flat_map(|lamp| [0, 1, 2, 127, 128, 255].map(|value| (lamp, value)));
        let lamps = lamps.flat_map(move |(lamp, value)| {
            let mut past = plant;
            past.crossings[7].lamps[lamp] = value;
            [with(plant, |c| c.lamps[lamp] = value), past]
        });
        let outs = [
            900, 901, 902, 1024, 1079, 1080, 1081, 1082, 1157, 1336, 65535,
        ];
        lamps.chain(outs.map(|out| with(plant, |c| c.out = out)))
    })
}

/// Settings of one crossing of every kind, 0 to 8, with every F around its bounds or without a low
/// byte; and with G 0 and 1; and of every size with kind 6 last.
pub fn old_settings() -> impl Iterator<Item = Site> {
    let times = (0..=20).chain([179, 180, 181, 256, 271, 3840, 3855, 65535]);
    let times = times.flat_map(|pre| [0, 1].map(|gap| (pre, gap)));
    let alone = times.flat_map(|times| (0..=8).map(move |kind| of_size(1, kind, times)));
    let sizes = (2..=8).flat_map(|n| [14, 15, 16].map(|pre| of_size(n, 6, (pre, 0))));
    alone.chain(sizes)
}

/// `n` crossings of kind 5, the last of this kind with these F and G.
fn of_size(n: u8, kind: u8, (pre, gap): (u16, u16)) -> Site {
    let mut site = Site { n, ..Site::ZERO };
    let entry = Entry {
        kind: 5,
        tracks: 2,
        mask: 0b10,
        pre: 7,
        gap: 0,
        pause: 0,
    };
    site.entries[..n.into()].fill(entry);
    site.entries[usize::from(n) - 1] = Entry {
        kind,
        pre,
        gap,
        ..entry
    };
    site
}
