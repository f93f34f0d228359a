//! Closing in time with a time for motorists, document 02, T-06.

mod common;

use common::{fresh, pausing, settings, take, TICK};
use engine::{phase, Entry, Plant};

const STRIKE_IN: [u8; 4] = [1, 0, 0, 0];

/// How many ticks until all is ordered down.
fn to_close(mut plant: Plant) -> u16 {
    let ticks = (0..).find(|_| {
        let closed = plant.crossings[0].phase == phase::ALL_DOWN;
        take(&mut plant, &[TICK]);
        closed
    });
    ticks.unwrap()
}

/// With a reason and booms up throughout: from a list M + F + G at most, and that many at the
/// beginning of the pause.
#[test]
fn closing_in_time_from_a_list() {
    for (kind, pre) in (1..=6).flat_map(|kind| [1, 2, 180].map(|pre| (kind, pre))) {
        for pause in [0, 1, 3, 540] {
            let mut plant = pausing(kind, pre, pause);
            let Entry { pre, gap, .. } = plant.site.entries[0];
            take(&mut plant, &[STRIKE_IN]);
            assert_eq!(to_close(plant), pause + pre + gap);
            if pause > 0 {
                take(&mut plant, &[TICK, STRIKE_IN]);
                assert_eq!(to_close(plant), pause + pre + gap - 1);
            }
        }
    }
}

/// From any plant in range one tick more is enough, and raising with a reason takes it.
#[test]
fn closing_in_time_from_any_plant() {
    for (kind, pause) in (1..=6).flat_map(|kind| [0, 1, 3].map(|pause| (kind, pause))) {
        let entry = settings(kind, 2, pause);
        let mut most = 0;
        for (phase, timer) in (0..5).flat_map(|phase| (0..16).map(move |timer| (phase, timer))) {
            for left in 0..=pause {
                let mut plant = fresh(&[entry]);
                let c = &mut plant.crossings[0];
                (c.phase, c.timer, c.left, c.calling[0]) = (phase, timer, left, 1);
                if engine::in_range(&plant) {
                    most = most.max(to_close(plant));
                }
            }
        }
        let slow = entry.has_booms() || pause == 0;
        assert_eq!(most, pause + entry.pre + entry.gap + u16::from(slow));
    }
}
