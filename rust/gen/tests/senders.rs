//! Senders: their rights, their streams and their grids (document 02, T-04).

use engine::{draw, event, in_range, number, panel_len, Plant, Site};
use gen::{hide, right_grid, right_previews, views, Command, Coverage, Rng, Senders, KNOWN};

/// The rights here are those of the plain engine, where the plant lets every event be taken.
#[test]
fn rights_as_in_the_engine() {
    let mut site = Site { n: 1, ..Site::ZERO };
    site.entries[0] = engine::Entry {
        kind: 4,
        tracks: 1,
        mask: 1,
        pre: 1,
        gap: 1,
        pause: 0,
    };
    let mut plant = Plant::fresh(&site);
    plant.crossings[0].waiting[0] = 1;
    for (sender, code) in (0..=255).flat_map(|s| (0..=9).map(move |c| (s, c))) {
        let values = if [0, 1, 2, 7].contains(&code) { 1 } else { 2 };
        for value in 0..values {
            let command = Command {
                sender,
                event: [code, 0, 0, value],
            };
            let (number, _) = event(&mut plant.clone(), sender, command.event);
            let expected = match command.has_right() {
                true => number::TAKEN,
                false if sender > 3 => number::UNKNOWN_SENDER,
                false => number::NO_RIGHT,
            };
            assert_eq!(number, expected, "{command:?}");
            assert!(Command::rightful(command.event).has_right());
        }
    }
    assert_eq!(Command::rightful([10, 0, 0, 0]).sender, 0);
}

#[test]
fn views_as_in_the_engine() {
    let mut rng = Rng::new(8);
    for _ in 0..500 {
        let plant = gen::plant(&mut rng);
        let [mut whole, mut view] = [0x3c, 0xc3].map(|old| vec![old; panel_len(plant.site.n)]);
        for sender in KNOWN {
            assert_eq!(draw(&plant, 0, &mut whole), 0);
            assert_eq!(draw(&plant, sender, &mut view), 0);
            hide(sender, &mut whole);
            assert_eq!(view, whole);
        }
    }
}

/// Seven in eight may send the event; all senders come, and the same on every machine.
#[test]
fn streams_of_senders() {
    let events = (0..=9).flat_map(|code| [[code, 0, 0, 0], [code, 0, 0, 1]]);
    let events: Vec<[u8; 4]> = events.collect();
    let (mut rightful, mut hash) = (0, 0u64);
    let mut met = [false; 256];
    for index in 0..4000 {
        let mut senders = Senders::of_case(1, index);
        for e in &events {
            let command = senders.send(*e);
            rightful += u32::from(command.has_right());
            met[usize::from(command.sender)] = true;
            hash = hash.wrapping_mul(31).wrapping_add(command.sender.into());
        }
        hash = hash.wrapping_mul(31).wrapping_add(senders.look().into());
    }
    assert!((70_000..73_000).contains(&rightful), "{rightful}");
    assert!(met.iter().all(|met| *met));
    assert_eq!(hash, SAME);
}
const SAME: u64 = 6739011354699463937;

#[test]
fn grids() {
    let bytes = 256 * 256 * 2 + 6 * 256 * 256;
    assert_eq!(right_grid().count(), 199_296 + bytes);
    assert_eq!(right_previews().count(), 161_280);
    assert_eq!(views().count(), 82_272);
    let spoilt = right_grid().filter(|(plant, _)| !in_range(plant)).count();
    assert_eq!(4 * spoilt, 199_296);
}

/// Events and drawings of the grids alone, without lists.
#[test]
fn the_grids_meet_what_senders_should() {
    let mut seen = Coverage::new();
    for (before, command) in right_grid() {
        let mut plant = before;
        let answer = event(&mut plant, command.sender, command.event);
        seen.event(&before, command, answer, &plant);
    }
    for (plant, sender, len) in views() {
        let mut panel = vec![0xa5; len];
        let number = draw(&plant, sender, &mut panel);
        seen.draw(&plant, sender, number, &panel);
    }
    let of_grid = |s: &String| {
        let groups = ["taken, ", "17", "before 17", "15", "16", "hold", "drawn"];
        groups.iter().any(|group| s.starts_with(group))
    };
    let left: Vec<String> = seen.missing().into_iter().filter(of_grid).collect();
    assert!(left.is_empty(), "{left:?}");
}
