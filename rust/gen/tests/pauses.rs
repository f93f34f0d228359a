//! The time for motorists in the inputs (document 02, T-06).

use engine::{draw, event, in_range, read_book, write_book};
use gen::{
    book_bytes, every_left, every_pause, old_book, pause_events, pause_plants, plant, quick_site,
    site, Call, Command, Coverage, Rng,
};

/// What numbers aside make leaves the others as they were.
#[test]
fn aside_leaves_the_numbers() {
    let (mut rng, mut other) = (Rng::new(5), Rng::new(5));
    for _ in 0..100 {
        let mut aside = rng.aside();
        let first = aside.next();
        assert_eq!(rng.aside().next(), first);
        assert_ne!(aside.next(), first);
        let next = rng.next();
        assert_ne!(next, first);
        assert_eq!(next, other.next());
    }
    let later = (0..6000).filter(|_| rng.pick_or(&[0], &[1]) == 1).count();
    assert!((800..1200).contains(&later), "{later}");
}

/// 0 at every crossing of about half of the sites, otherwise mostly short; the bounds come.
#[test]
fn settings_with_and_without() {
    let mut rng = Rng::new(11);
    let (mut without, mut short, mut all) = (0, 0, 0);
    let mut met = [false; 541];
    for i in 0..4000 {
        let site = if i % 2 == 0 {
            site(&mut rng)
        } else {
            quick_site(&mut rng)
        };
        let entries = &site.entries[..site.n.into()];
        without += usize::from(entries.iter().all(|e| e.pause == 0));
        short += entries
            .iter()
            .filter(|e| (1..=6).contains(&e.pause))
            .count();
        all += entries.len();
        entries
            .iter()
            .for_each(|e| met[usize::from(e.pause)] = true);
    }
    assert!((2000..2400).contains(&without), "{without}");
    assert!((all / 5..all / 3).contains(&short), "{short} of {all}");
    assert!([0, 1, 6, 255, 256, 257, 512, 539, 540]
        .iter()
        .all(|m| met[*m]));
}

/// Plants with no tick left, one, some and all of them.
#[test]
fn plants_in_a_pause() {
    let mut rng = Rng::new(12);
    let mut counts = [0; 4];
    for _ in 0..4000 {
        let plant = plant(&mut rng);
        assert!(in_range(&plant));
        for (c, e) in plant.crossings.iter().zip(&plant.site.entries) {
            match c.left {
                0 if e.pause > 0 && c.phase == 0 => counts[0] += 1,
                0 => {}
                left if left == e.pause => counts[3] += 1,
                1 => counts[1] += 1,
                _ => counts[2] += 1,
            }
        }
    }
    assert!(counts.iter().all(|count| *count > 200), "{counts:?}");
}

#[test]
fn grids() {
    let plants = pause_plants();
    assert_eq!(plants.len(), 6_090);
    assert!(plants.iter().all(in_range));
    assert_eq!(pause_events().count(), 16 * plants.len());
    let lefts: Vec<_> = every_left().collect();
    assert_eq!(lefts.len(), (32 * 10 + 14 * 5) * 13 + 12 * 70);
    let sound = lefts.iter().filter(|plant| in_range(plant)).count();
    assert_eq!(sound, 686);
    assert_eq!(every_pause().count(), 6 * (601 + 512 + 8));
}

/// Plants and books alone, without a list before them, meet everything.
#[test]
fn the_grids_meet_everything() {
    let mut seen = Coverage::new();
    for (before, e) in pause_events() {
        let (mut plant, command) = (before, Command::rightful(e));
        let answer = event(&mut plant, command.sender, e);
        seen.event(&before, command, answer, &plant);
        let mut panel = [0; 16];
        assert_eq!(draw(&before, 0, &mut panel), 0);
        seen.panel(&before, &panel);
    }
    for plant in every_left() {
        let calls = [Call::Event, Call::Draw, Call::Run, Call::Preview];
        calls.into_iter().for_each(|call| seen.handed(call, &plant));
    }
    for site in every_pause() {
        let mut book = book_bytes(&site);
        [book.clone(), old_book(&site)]
            .iter()
            .for_each(|book| seen.read(book, read_book(book).0));
        seen.write(&site, write_book(&site, &mut book));
    }
    let of_grid = |s: &String| {
        let groups = [
            "pause, ",
            "left, ",
            "book read",
            "book written",
            "book without",
        ];
        groups.iter().any(|group| s.starts_with(group))
    };
    let left: Vec<String> = seen.missing().into_iter().filter(of_grid).collect();
    assert!(left.is_empty(), "{left:?}");
}
