//! The generators give what their names say, and the same on every machine.

use engine::{book_len, draw, event, in_range, number, panel_len, preview, read_book, run, Plant};
use gen::{
    book, book_bytes, coherent, damaged_book, damaged_sheet, every_boom, every_flag, junk_event,
    lost_plants, lost_reports, mixed, plant, played, preview_grid, quick_site, right_previews,
    sheet_bytes, sheet_events, site, spoilt_plant, swept_event, swept_grid, swept_plant,
    BookDamage, Call, Command, Coverage, Rng, SheetDamage, Spoil,
};

/// The event from a sender that may send it, counted.
fn send(plant: &mut Plant, e: [u8; 4], seen: &mut Coverage) -> (u8, u32) {
    let (before, command) = (*plant, Command::rightful(e));
    let answer = event(plant, command.sender, e);
    seen.event(&before, command, answer, plant);
    answer
}

#[test]
fn numbers_follow_from_the_seed() {
    let mut rng = Rng::new(0);
    assert_eq!(rng.next(), 0xe220_a839_7b1d_cdaf);
    assert_eq!(rng.next(), 0x6e78_9e6a_a1b9_65f4);
    let mut rng = Rng::new(7);
    for n in 1..200 {
        assert!(rng.below(n) < n);
        assert!((n..=n + 3).contains(&rng.within(n..=n + 3)));
    }
}

fn fold(hash: u64, bytes: &[u8]) -> u64 {
    let step = |h: u64, b: &u8| (h ^ u64::from(*b)).wrapping_mul(0x100_0000_01b3);
    bytes.iter().fold(hash, step)
}

#[test]
fn the_same_on_every_machine() {
    let mut hash = 0xcbf2_9ce4_8422_2325;
    for index in 0..50 {
        let mut rng = Rng::of_case(1, index);
        hash = fold(hash, &book(&mut rng));
        let start = plant(&mut rng);
        let events = coherent(&mut rng, &start, 200);
        hash = fold(hash, &sheet_bytes(&events));
        hash = fold(hash, &mixed(&mut rng, &start, 50).concat());
        let (swept, crossing) = swept_plant(&mut rng);
        hash = fold(hash, &swept_event(&mut rng, &swept, crossing));
        hash = fold(hash, &coherent(&mut rng, &swept, 600).concat());
    }
    assert_eq!(hash, SAME);
}
const SAME: u64 = 17607823462710881376;

#[test]
fn good_books_are_taken() {
    let mut rng = Rng::new(1);
    for _ in 0..2000 {
        let settings = site(&mut rng);
        let bytes = book_bytes(&settings);
        let (number, plant) = read_book(&bytes);
        assert_eq!(number, 0);
        assert_eq!(plant.site, settings);
        let mut out = vec![0; book_len(settings.n)];
        assert_eq!(engine::write_book(&settings, &mut out), 0);
        assert_eq!(out, bytes);
    }
}

#[test]
fn damaged_books_are_refused() {
    let mut rng = Rng::new(2);
    for damage in BookDamage::ALL {
        let expected: &[u8] = match damage {
            BookDamage::Empty => &[1],
            BookDamage::Count => &[2],
            BookDamage::Short | BookDamage::Long | BookDamage::OldLength => &[1],
            BookDamage::OneByte => &[0, 1, 2, 3],
            BookDamage::Junk => &[0, 1, 2, 3],
            _ => &[3],
        };
        for _ in 0..500 {
            let bytes = damaged_book(&mut rng, damage);
            assert!(bytes.len() <= 86);
            let (number, _) = read_book(&bytes);
            assert!(expected.contains(&number), "{damage:?} {bytes:?}");
        }
    }
}

#[test]
fn plants_are_in_range() {
    let mut rng = Rng::new(3);
    for _ in 0..5000 {
        assert!(in_range(&plant(&mut rng)));
        assert!(in_range(&swept_plant(&mut rng).0));
    }
    let grid = swept_grid();
    assert_eq!(grid.len(), 41_400);
    let reports = lost_reports();
    assert_eq!(reports.len(), 33_280);
    assert!(grid.iter().chain(&reports).all(|(p, _)| in_range(p)));
    let plants = lost_plants();
    assert_eq!(plants.len(), 5_888);
    assert!(plants.iter().all(in_range));
}

/// Plants alone, without a list before them, meet every kind of swept strike-in and release.
#[test]
fn the_swept_grid_meets_everything() {
    let mut seen = Coverage::new();
    for (mut plant, e) in swept_grid() {
        send(&mut plant, e, &mut seen);
    }
    let left = seen.missing().into_iter();
    let mut left = left.filter(|s| s.starts_with("swept") || s.starts_with("unsure"));
    assert_eq!(left.next(), None);
}

/// Lost reports, ticks and panels, without a list before them.
#[test]
fn the_lost_grid_meets_everything() {
    let mut seen = Coverage::new();
    let ticks = lost_plants().into_iter().map(|plant| (plant, [0; 4]));
    for (before, e) in lost_reports().into_iter().chain(ticks) {
        send(&mut before.clone(), e, &mut seen);
        let mut panel = [0; 16];
        assert_eq!(draw(&before, 0, &mut panel), 0);
        seen.panel(&before, &panel);
    }
    let mut left = seen.missing().into_iter();
    let of_grid = |s: &String| s.starts_with("lost") || s.starts_with("refused");
    assert_eq!(left.find(of_grid), None);
}

/// Previews, without a list before them.
#[test]
fn the_preview_grid_meets_everything() {
    let mut seen = Coverage::new();
    let rightful = preview_grid().map(|look| (look, Command::rightful(look.1).sender));
    for ((plant, event, len), sender) in rightful.chain(right_previews()) {
        let mut panel = vec![0xa5; len];
        let answer = preview(&plant, sender, event, &mut panel);
        seen.preview(&plant, Command { sender, event }, answer, &panel);
    }
    let left = seen.missing().into_iter();
    let mut left = left.filter(|s| s.starts_with("preview") && !s.starts_with("preview in a list"));
    assert_eq!(left.next(), None);
}

/// The events of coherent traffic lead to the plant after it.
#[test]
fn played_plants_are_those_after_their_events() {
    for index in 0..20 {
        let fresh = engine::Plant::fresh(&quick_site(&mut Rng::new(index)));
        let mut plant = fresh;
        for e in coherent(&mut Rng::new(index), &fresh, 300) {
            event(&mut plant, Command::rightful(e).sender, e);
        }
        assert_eq!(played(&mut Rng::new(index), &fresh, 300), plant);
    }
}

#[test]
fn spoilt_plants_are_refused() {
    let mut rng = Rng::new(4);
    for spoil in Spoil::ALL {
        for _ in 0..300 {
            let spoilt = spoilt_plant(&mut rng, *spoil);
            let mut after = spoilt;
            let e = junk_event(&mut rng, &spoilt);
            for sender in [0, 3, 4, 255] {
                assert_eq!(event(&mut after, sender, e), (15, 0), "{spoil:?}");
                assert_eq!(after, spoilt);
                assert_eq!(draw(&spoilt, sender, &mut []), 15, "{spoil:?}");
            }
            assert_eq!(run(&mut after, &[], &mut []).number, 15, "{spoil:?}");
        }
    }
}

/// The goals with this beginning that these plants, handed to an event, leave.
fn lacks(goals: &str, plants: &mut dyn Iterator<Item = engine::Plant>) -> Vec<String> {
    let mut seen = Coverage::new();
    plants.for_each(|plant| seen.handed(Call::Event, &plant));
    let missing = seen.missing().into_iter();
    missing.filter(|goal| goal.starts_with(goals)).collect()
}

#[test]
fn every_flag_has_every_byte() {
    let goals = "flag bytes event";
    assert!(lacks(goals, &mut every_flag()).is_empty());
    let mut but_one = every_flag().filter(|plant| plant.crossings[3].kiosk != 77);
    let [unused, used] = ["unused 37631 of 37632", "used 43007 of 43008"];
    let both = [unused, used].map(|goal| format!("{goals} {goal}"));
    assert_eq!(lacks(goals, &mut but_one), both);
}

#[test]
fn every_boom_has_every_byte() {
    let goals = "boom bytes event";
    assert!(lacks(goals, &mut every_boom()).is_empty());
    let mut but_one = every_boom().filter(|plant| plant.crossings[3].booms[2] != 77);
    let unused = format!("{goals} unused 7167 of 7168");
    let used = [1, 2, 3, 4].map(|kind| format!("{goals} kind {kind} 8191 of 8192"));
    let all: Vec<String> = [unused].into_iter().chain(used).collect();
    assert_eq!(lacks(goals, &mut but_one), all);
}

/// A boom that is there may report up to 3; of the others only 0 is in range.
#[test]
fn every_boom_is_in_range_by_its_crossing() {
    for plant in every_boom() {
        let known = (0..8).all(|i| {
            let booms = [0, 0, 2, 2, 4, 0, 2][usize::from(plant.site.entries[i].kind)];
            let (there, lacking) = plant.crossings[i].booms.split_at(booms);
            there.iter().all(|b| *b <= 3) && lacking.iter().all(|b| *b == 0)
        });
        assert_eq!(in_range(&plant), known);
    }
}

#[test]
fn damaged_sheets_are_refused() {
    let mut rng = Rng::new(5);
    for damage in SheetDamage::ALL {
        let expected = match damage {
            SheetDamage::OverLong | SheetDamage::Over4096 => 2,
            _ => 4,
        };
        for _ in 0..100 {
            let mut start = plant(&mut rng);
            let events = mixed(&mut rng, &start, 5);
            assert_eq!(sheet_events(&sheet_bytes(&events)), Some(events.clone()));
            let bytes = damaged_sheet(&mut rng, sheet_bytes(&events), damage);
            let mut frame = vec![0; panel_len(start.site.n)];
            let answer = run(&mut start, &bytes, &mut frame);
            assert_eq!(answer.number, expected, "{damage:?}");
        }
    }
}

#[test]
fn traffic_reaches_its_states() {
    let mut rng = Rng::new(6);
    let mut seen = Coverage::new();
    for _ in 0..600 {
        let settings = quick_site(&mut rng);
        let mut plant = engine::Plant::fresh(&settings);
        let events = coherent(&mut rng, &plant, 4096);
        assert_eq!(events.len(), 4096);
        let mut panel = vec![0; panel_len(settings.n)];
        for e in events {
            let answer = send(&mut plant, e, &mut seen);
            assert_ne!(answer.0, number::FULL_TRACK);
            assert_eq!(draw(&plant, 0, &mut panel), 0);
            seen.panel(&plant, &panel);
        }
    }
    let left: Vec<String> = seen.missing();
    let of_events = |s: &&String| s.starts_with("kind") || s.starts_with("phase");
    assert!(!left.iter().any(|s| of_events(&s)), "{left:?}");
    assert!(!left.iter().any(|s| s.starts_with("written")), "{left:?}");
    assert!(!left.iter().any(|s| s.starts_with("unsure")), "{left:?}");
    let of_lost = |s: &&String| s.starts_with("lost,") || s.starts_with("lost alone");
    assert!(!left.iter().any(|s| of_lost(&s)), "{left:?}");
    assert!(!left.iter().any(|s| s.starts_with("pause")), "{left:?}");
    assert!(!left.iter().any(|s| s.starts_with("road")), "{left:?}");
}
