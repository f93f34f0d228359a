//! The comparison finds every planted fault, and nothing where none is planted.

use compare::case::Case;
use compare::check::Pair;
use compare::engines::{Plain, Planted};
use compare::print::{is_fresh, start, text};
use compare::search::{find_fault, is_in_lists, reduce, search};
use compare::search::{search_among, search_fixed, Plan};
use compare::second::Proved;
use compare::{Command, Plant, Site};
use faults::FAULTS;
use gen::{flags, Coverage};

const CASES: u64 = 10_000;
const SESSIONS: u64 = 400;

/// Faults in calls of a list of events that no such list from a fresh plant can show: in the lent
/// frames, in books that are refused, in spoilt plants, at a crossing that every event would settle,
/// and a repeated hold, since a hold stands in the way of a running countdown.
const NOT_FROM_FRESH: [&str; 48] = [
    "book_any_gap",
    "book_frame_first",
    "book_length_first",
    "book_old_length",
    "book_old_pre_14",
    "book_past_n",
    "book_pause_541",
    "countdown_repeated_hold",
    "panel_draw_refused",
    "preview_clears_spoilt",
    "preview_clears_wrong_frame",
    "preview_code_before_frame",
    "preview_code_before_range",
    "preview_count_of_wrong_frame",
    "preview_event_before_frame",
    "preview_frame_before_range",
    "preview_frame_before_sender",
    "preview_length_as_a_byte",
    "preview_length_as_two_bytes",
    "preview_longer_frame",
    "preview_right_before_frame",
    "preview_shorter_frame",
    "range_flags",
    "range_flags_lamps",
    "range_flags_one_byte",
    "range_flags_past_n",
    "range_flags_signed",
    "range_lacking_boom",
    "range_lacking_boom_lamp",
    "range_lacking_boom_lost",
    "range_lamps_past_n",
    "range_left",
    "range_left_by_540",
    "range_left_out_of_phase_0",
    "range_left_past_n",
    "range_out",
    "range_pause_past_n",
    "range_report_4",
    "range_unsure_above_1",
    "range_unsure_lacking",
    "range_unsure_past_n",
    "range_waiting_plain",
    "run_unsettled_left",
    "sender_after_frame_draw",
    "sender_before_range_draw",
    "sender_before_range_event",
    "sender_before_range_preview",
    "sheet_frame_first",
];

/// Faults of a run that heal: only a sheet that ends at the right tick shows them.
const HEALED: [&str; 2] = ["run_1959_late", "run_due_not_brought_forward"];

/// Faults that no plant shows whose flags are all 0 or 1.
const ONLY_BY_FLAGS: [&str; 6] = [
    "range_flags",
    "range_flags_lamps",
    "range_flags_one_byte",
    "range_flags_past_n",
    "range_flags_signed",
    "range_unsure_above_1",
];

#[test]
fn every_planted_fault_is_found() {
    for seed in [1, 2] {
        let plan = Plan::of_cases(seed, CASES);
        let missed = FAULTS.iter().filter(|f| find_fault(f, plan).is_none());
        let missed: Vec<&str> = missed.map(|f| f.name).collect();
        assert!(missed.is_empty(), "seed {seed}: not found {missed:?}");
    }
}

#[test]
fn sessions_alone_find_what_shows_from_fresh() {
    let plan = Plan {
        sessions: true,
        ..Plan::of_cases(4, SESSIONS)
    };
    let in_lists = FAULTS.iter().filter(|f| is_in_lists(f));
    let missed = in_lists.filter(|f| find_fault(f, plan).is_none());
    let missed: Vec<&str> = missed.map(|f| f.name).collect();
    let (healed, missed): (Vec<&str>, Vec<&str>) =
        missed.into_iter().partition(|name| HEALED.contains(name));
    assert_eq!(missed, NOT_FROM_FRESH);
    assert_eq!(healed, HEALED);
}

/// Long rows of ticks from a fresh plant show what heals.
#[test]
fn rows_of_ticks_show_what_heals() {
    let sheets = || Case::rows().filter(is_fresh);
    let missed = HEALED.iter().filter(|name| {
        let pair = Pair {
            first: &fault(name),
            second: &Proved::default(),
        };
        search_among(pair, sheets()).difference.is_none()
    });
    assert_eq!(missed.count(), 0);
}

/// Whether a case hands over a flag that is neither 0 nor 1.
fn has_wide_flag(case: &Case) -> bool {
    let wide = |plant: &Plant| plant.crossings.iter().any(|c| flags(c).any(|f| *f > 1));
    start(case).is_some_and(wide)
}

#[test]
fn some_faults_show_by_flags_above_1_only() {
    let cases = (0..CASES).flat_map(|index| {
        [
            Case::make(1, index),
            Case::preview(1, index),
            Case::agree(1, index),
            Case::board(1, index),
        ]
    });
    let cases: Vec<Case> = cases.chain(Case::fixed()).collect();
    let (wide, others): (Vec<Case>, Vec<Case>) = cases.into_iter().partition(has_wide_flag);
    let unseen = &mut Coverage::new();
    let only = FAULTS.iter().filter(|fault| {
        let pair = Pair {
            first: &Planted(fault),
            second: &Proved::default(),
        };
        let mut differs = |case: &Case| pair.check(case, unseen).is_err();
        !others.iter().any(&mut differs) && wide.iter().any(differs)
    });
    let only: Vec<&str> = only.map(|fault| fault.name).collect();
    assert_eq!(only, ONLY_BY_FLAGS);
}

#[test]
fn without_a_fault_nothing_differs_and_all_is_reached() {
    let pair = Pair {
        first: &Plain,
        second: &Proved::default(),
    };
    let fixed = search_fixed(pair);
    assert!(fixed.difference.is_none());
    let mut outcome = search(pair, Plan::of_cases(3, CASES), &mut |_, _| {});
    if let Some(difference) = outcome.difference {
        panic!("{}", text(&difference.case));
    }
    outcome.seen.add(&fixed.seen);
    let missing = outcome.seen.missing();
    assert!(missing.is_empty(), "{missing:?}");
}

/// Faults of a preview, of rights, senders and views that show only beside an engine without
/// them: they are in the order of 14 to 16 and others, or take a wrong frame for a right one.
const NOT_BY_ITSELF: [&str; 14] = [
    "preview_code_before_frame",
    "preview_code_before_range",
    "preview_event_before_frame",
    "preview_frame_before_range",
    "preview_frame_before_sender",
    "preview_length_as_a_byte",
    "preview_length_as_two_bytes",
    "preview_longer_frame",
    "preview_right_before_frame",
    "preview_shorter_frame",
    "sender_after_frame_draw",
    "sender_before_range_draw",
    "sender_before_range_event",
    "sender_before_range_preview",
];
/// The beginnings of their names.
const BY_ITSELF: [&str; 4] = ["preview_", "rights_", "sender_", "view_"];

/// An engine's preview is held against its own event and drawing, its event against its own sheet
/// and the senders' rights, and what it draws against its own panel for detection.
#[test]
fn both_engines_with_the_same_fault() {
    let missed = FAULTS.iter().filter(|fault| {
        let planted = &Planted(fault);
        let pair = Pair {
            first: planted,
            second: planted,
        };
        let of_these = BY_ITSELF.iter().any(|name| fault.name.starts_with(name));
        let seeded = || search(pair, Plan::of_cases(1, CASES), &mut |_, _| {});
        let fixed = || search_among(pair, Case::fixed());
        of_these && seeded().difference.is_none() && fixed().difference.is_none()
    });
    let missed: Vec<&str> = missed.map(|fault| fault.name).collect();
    assert_eq!(missed, NOT_BY_ITSELF);
}

fn fault(name: &str) -> Planted {
    Planted(FAULTS.iter().find(|f| f.name == name).unwrap())
}

/// The smallest case found on which the plain engine and this fault differ.
fn smallest(name: &str, case: Case) -> Case {
    let pair = Pair {
        first: &Plain,
        second: &fault(name),
    };
    reduce(pair, case).0
}

/// Three crossings, the second with a dependent track.
fn three() -> Site {
    let mut site = Site { n: 3, ..Site::ZERO };
    let rng = &mut gen::Rng::new(5);
    site.entries[..3].fill_with(|| gen::entry(rng, true));
    site.entries[1].mask = 1;
    site
}

/// These events there, from those who may send them.
fn rightful(events: &[[u8; 4]]) -> Case {
    Case::Session {
        site: three(),
        commands: events.iter().map(|e| Command::rightful(*e)).collect(),
    }
}

#[test]
fn differences_are_made_small() {
    let mut events = vec![[0; 4]; 40];
    events.extend([[1, 1, 0, 0], [3, 0, 0, 1], [7, 1, 0, 0], [9, 2, 0, 0]]);
    events.extend([[0; 4]; 300]);
    let small = smallest("release_end_only_calling", rightful(&events));
    let Case::Session { site, commands } = small else {
        panic!("another case");
    };
    assert_eq!((site.n, commands.len()), (1, 272));
}

/// A preview in a list is the last event of the list; one by itself keeps what it needs.
#[test]
fn previews_are_made_small() {
    let events = vec![[0; 4], [3, 0, 0, 1], [9, 2, 0, 0], [1, 1, 0, 0], [0; 4]];
    let small = smallest("preview_before_event", rightful(&events));
    let Case::Session { site, commands } = small else {
        panic!("another case");
    };
    assert_eq!((site.n, commands.len()), (1, 1));

    let case = Case::Preview {
        plant: Plant::fresh(&three()),
        command: Command::rightful([1, 1, 0, 0]),
        frame: vec![0xa5; 3 * 16 + 256],
    };
    let small = smallest("preview_length_as_a_byte", case);
    let Case::Preview { plant, frame, .. } = small else {
        panic!("another case");
    };
    assert_eq!((plant.site.n, frame), (1, vec![0; 16 + 256]));
}

/// A plant of kind 6 goes down to kind 5, without its boom lamps, where either shows the fault; the
/// ticks out of normal to the fewest.
#[test]
fn plants_under_the_sheet_of_1959_are_made_small() {
    let mut plant = Plant::fresh(&three());
    let entry = &mut plant.site.entries[1];
    (entry.kind, entry.pre, entry.gap) = (6, 15, 0);
    let c = &mut plant.crossings[1];
    (c.lamps, c.phase, c.out) = ([1; 7], 3, 1080);
    (c.calling[0], c.kiosk, c.countdown) = (7, 1, 9);
    let command = Command::rightful([0; 4]);
    let small = smallest(
        "old_release_with_kiosk_hold",
        Case::Event { plant, command },
    );
    let Case::Event { plant, .. } = small else {
        panic!("another case");
    };
    let (entry, c) = (&plant.site.entries[0], &plant.crossings[0]);
    assert_eq!((plant.site.n, entry.kind, c.out), (1, 5, 1079));
    assert_eq!(c.lamps, [1, 1, 1, 1, 1, 0, 0]);
}
