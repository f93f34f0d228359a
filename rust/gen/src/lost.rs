//! Boom positions lost (document 02, T-02): every combination of reports on the booms of one
//! crossing, of every kind that has them in every phase.

use crate::swept::{phases, vary};
use engine::{boom, code, Plant};

/// What stands beside the booms: trains calling, kiosk hold, road red whole, countdown. Without
/// a reason and with one, road red whole and dead.
const BESIDE: [(u8, u8, u8, u16); 4] = [(0, 0, 1, 5), (1, 0, 1, 1), (0, 0, 0, 0), (0, 1, 0, 0)];

/// Plants of one crossing with every combination of reports.
pub fn lost_plants() -> Vec<Plant> {
    vary(combinations(), |plant| {
        BESIDE.map(|beside| with(plant, beside)).into()
    })
}

/// Every report, and the first value that is none, at every boom. Two booms have each of those
/// plants; four have one of the four with the same reports, by turns, and so each boom comes to
/// each combination in all four.
pub fn lost_reports() -> Vec<(Plant, [u8; 4])> {
    let mut reports = Vec::new();
    for plant in combinations() {
        let booms = plant.site.entries[0].booms();
        let record = plant.crossings[0];
        for (b, i) in (0..booms).flat_map(|b| (0..4).map(move |i| (b, i))) {
            let turn = record.booms.iter().sum::<u8>() + b + record.phase;
            if booms == 2 || turn % 4 == i {
                let plant = with(plant, BESIDE[usize::from(i)]);
                let values = boom::UP..=boom::LOST + 1;
                reports.extend(values.map(|value| (plant, [code::BOOM_REPORT, 0, b, value])));
            }
        }
    }
    reports
}

fn combinations() -> Vec<Plant> {
    let mut plants = phases();
    plants.retain(|plant| plant.site.entries[0].has_booms() && plant.site.entries[0].depends(0));
    vary(plants, |plant| {
        let booms = plant.site.entries[0].booms();
        let all = 0..4u16.pow(booms.into());
        all.map(|reports| with_reports(plant, reports)).collect()
    })
}

/// Two bits of `reports` for each boom; those of a lacking boom are 0.
fn with_reports(mut plant: Plant, reports: u16) -> Plant {
    plant.crossings[0].booms = [0, 1, 2, 3].map(|b| (reports >> (2 * b) & 3) as u8);
    plant
}

/// Track 0 has its route, so that its signal is released where the crossing is secured.
fn with(mut plant: Plant, beside: (u8, u8, u8, u16)) -> Plant {
    let c = &mut plant.crossings[0];
    c.route[0] = 1;
    (c.calling[1], c.kiosk, c.lamps[1], c.countdown) = beside;
    plant
}
