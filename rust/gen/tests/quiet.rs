//! Rows of ticks that only count, in the inputs (document 02, T-14).

use engine::{in_range, Plant, MAX_EVENTS};
use gen::{quiet_grid, quiet_rows, quiet_run, sheet_bytes, Coverage, Rng};

/// The beginnings of the goals' names.
const GROUPS: [&str; 17] = [
    "in a row, ",
    "2 before, ",
    "1 before, ",
    "after, ",
    "refusal, ",
    "last event, ",
    "middle, ",
    "ends in a row, ",
    "code:ticks before",
    "sooner, ",
    "later, ",
    "soonest, ",
    "due on one tick",
    "code 0, ",
    "ticks in a row",
    "from, ",
    "unsettled, ",
];

/// The goals that these sheets leave.
fn left(runs: impl Iterator<Item = (Plant, Vec<[u8; 4]>)>) -> Vec<String> {
    let mut seen = Coverage::new();
    for (plant, events) in runs {
        assert!(in_range(&plant));
        assert!(events.len() <= MAX_EVENTS);
        seen.ran(&plant, &sheet_bytes(&events), 0);
    }
    let of_these = |s: &String| GROUPS.iter().any(|group| s.starts_with(group));
    seen.missing().into_iter().filter(of_these).collect()
}

#[test]
fn grids() {
    assert_eq!(quiet_grid().count(), 316 * 5 * 30 * 3);
    assert_eq!(quiet_rows().count(), 3 * 7 * 20 * 2);
    let longest = quiet_rows().filter(|(_, events)| events.len() == MAX_EVENTS);
    assert_eq!(longest.count(), 3 * 7 * 2);
}

/// Without a sheet nothing is reached; the fixed ones reach everything.
#[test]
fn the_grids_meet_everything() {
    assert!(left([].into_iter()).len() > 300);
    let left = left(quiet_grid().chain(quiet_rows()));
    assert!(left.is_empty(), "{left:?}");
}

/// And seeded ones alone.
#[test]
fn seeded_sheets_meet_everything() {
    let runs = (0..20_000).map(|index| quiet_run(&mut Rng::of_case(16, index)));
    let left = left(runs);
    assert!(left.is_empty(), "{left:?}");
}
