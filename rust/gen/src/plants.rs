//! Plants in range, reachable or not, with many numbers at their bounds.

use crate::books::site;
use crate::old::{give_long_out, set_old};
use crate::rng::Rng;
use engine::{boom, phase, Crossing, Entry, Plant};

/// A plant in range.
pub fn plant(rng: &mut Rng) -> Plant {
    let settings = site(rng);
    let mut plant = Plant::fresh(&settings);
    plant.beat = rng.below(4) as u8;
    let busy = rng.within(1..=4);
    let aside = rng.aside();
    for i in 0..usize::from(settings.n) {
        if rng.below(4) < busy {
            plant.crossings[i] = crossing(rng, &settings.entries[i]);
        } else {
            set_left(rng.aside(), &mut plant.crossings[i], &settings.entries[i]);
        }
    }
    give_long_out(aside, &mut plant);
    plant
}

fn trains(rng: &mut Rng) -> u8 {
    match rng.below(12) {
        0 => 255,
        1 => 254,
        2 => rng.byte(),
        3 => 2,
        4 | 5 => 1,
        _ => 0,
    }
}

fn count(rng: &mut Rng, special: &[u16], max: u32) -> u16 {
    match rng.below(3) {
        0 => rng.pick(special),
        1 => 0,
        _ => rng.within(0..=max) as u16,
    }
}

/// A crossing record in range for these settings.
pub(crate) fn crossing(rng: &mut Rng, entry: &Entry) -> Crossing {
    let mut c = Crossing::fresh(entry);
    let swept = rng.once_in(4);
    for t in 0..usize::from(entry.tracks) {
        c.calling[t] = trains(rng);
        c.occupied[t] = rng.once_in(5).into();
        c.unsure[t] = (swept && rng.flag()).into();
        if entry.depends(t) {
            c.waiting[t] = trains(rng).min(255 - c.calling[t]);
            c.route[t] = rng.once_in(3).into();
        }
    }
    if rng.once_in(3) {
        c.calling = [0; 4];
    }
    set_booms(rng, &mut c, entry);
    for lamp in &mut c.lamps[..5] {
        *lamp = (!rng.once_in(6)).into();
    }
    c.kiosk = rng.once_in(4).into();
    c.operator = rng.once_in(4).into();
    c.countdown = count(rng, &[1, 2, 269, 270], 270);
    c.out = count(rng, &[1, 899, 900, 901], 901);
    set_phase(rng, &mut c, entry);
    set_left(rng.aside(), &mut c, entry);
    set_old(rng.aside().aside(), &mut c, entry);
    c
}

/// In phase 0 often some ticks left to motorists, as far as there is an M (document 02, T-06).
fn set_left(mut rng: Rng, c: &mut Crossing, entry: &Entry) {
    if c.phase == phase::OPEN {
        let left = count(&mut rng, &[1, 2, entry.pause], entry.pause.into());
        c.left = left.min(entry.pause);
    }
}

/// One of the reports of a boom.
pub(crate) fn report(rng: &mut Rng) -> u8 {
    rng.within(boom::UP.into()..=boom::LOST.into()) as u8
}

/// All reports alike, or each as it comes; sometimes one more as it comes.
fn set_booms(rng: &mut Rng, c: &mut Crossing, entry: &Entry) {
    let all = rng.below(6) as u8;
    let booms = &mut c.booms[..entry.booms().into()];
    for b in &mut *booms {
        *b = match all {
            boom::UP..=boom::LOST => all,
            _ => report(rng),
        };
    }
    if rng.once_in(4) && !booms.is_empty() {
        booms[rng.below(entry.booms().into()) as usize] = report(rng);
    }
}

fn set_phase(rng: &mut Rng, c: &mut Crossing, entry: &Entry) {
    let phases: &[u8] = match entry.booms() {
        0 => &[0, 1, 3],
        4 => &[0, 1, 2, 3, 3, 4],
        _ => &[0, 1, 3, 3, 4],
    };
    c.phase = rng.pick(phases);
    let max = match c.phase {
        phase::WARNING => entry.pre,
        phase::RIGHT_DOWN => entry.gap,
        _ => return,
    };
    c.timer = match rng.below(3) {
        0 => 1,
        1 => max,
        _ => rng.within(1..=max.into()) as u16,
    };
}
