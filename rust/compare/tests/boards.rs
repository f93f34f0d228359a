//! Board distance (document 02, T-08): faults in an engine by itself, and differences made small.

use compare::case::Case;
use compare::check::Pair;
use compare::engines::{Plain, Planted};
use compare::print::{files, text};
use compare::search::reduce;
use compare::Board;
use faults::FAULTS;
use gen::{board_edges, Coverage};

/// Faults that show only beside an engine without them: another formula, or rounding at another
/// place, gives multiples of 10 that grow and fall as they should.
const NOT_BY_ITSELF: [&str; 46] = [
    "board_2_for_d_only",
    "board_2_left_out",
    "board_always_10_more",
    "board_brake_down",
    "board_brake_nearest",
    "board_brake_up",
    "board_d_870",
    "board_d_in_cm_s2",
    "board_d_in_m_s2",
    "board_d_to_cm_s2",
    "board_f32",
    "board_f64",
    "board_full_10_raised",
    "board_g_10",
    "board_g_9_80",
    "board_g_9_8067",
    "board_g_9_82",
    "board_h_fall_left_out",
    "board_h_left_out",
    "board_h_percent",
    "board_h_rise_left_out",
    "board_h_slowing_down",
    "board_h_slowing_nearest",
    "board_metre_nearest",
    "board_not_above_2800",
    "board_parts_up_to_10",
    "board_printed",
    "board_tens_in_a_byte",
    "board_to_20",
    "board_v_by_3_5",
    "board_v_by_4",
    "board_v_in_km_h",
    "board_v_not_squared",
    "board_v_squared_down",
    "board_v_times_0_2778",
    "board_v_times_0_28",
    "board_v_up",
    "board_way_2",
    "board_way_3_m",
    "board_way_4",
    "board_way_down",
    "board_way_km_h",
    "board_way_left_out",
    "board_way_nearest",
    "board_way_squared",
    "board_way_up",
];

#[test]
fn both_engines_with_the_same_fault() {
    let seeded = (0..50_000).map(|index| Case::board(1, index));
    let cases: Vec<Case> = seeded.chain(board_edges().map(Case::Board)).collect();
    let unseen = &mut Coverage::new();
    let faults = FAULTS.iter().filter(|f| f.name.starts_with("board_"));
    let missed = faults.filter(|fault| {
        let planted = &Planted(fault);
        let pair = Pair {
            first: planted,
            second: planted,
        };
        cases.iter().all(|case| pair.check(case, unseen).is_ok())
    });
    let missed: Vec<&str> = missed.map(|fault| fault.name).collect();
    assert_eq!(missed, NOT_BY_ITSELF);
}

/// The smallest input found on which the plain engine and this fault differ.
fn smallest(name: &str, board: Board) -> Case {
    let fault = FAULTS.iter().find(|f| f.name == name).unwrap();
    let pair = Pair {
        first: &Plain,
        second: &Planted(fault),
    };
    let case = Case::Board(board);
    assert!(pair.check(&case, &mut Coverage::new()).is_err(), "{name}");
    reduce(pair, case).0
}

#[test]
fn boards_are_made_small() {
    for (name, (v, d, h), small) in [
        ("board_speed_121", (121, 1333, -17), Board::new(121, 500, 0)),
        (
            "board_21_before_20",
            (77, 65_535, -32_768),
            Board::new(1, 0, 31),
        ),
        (
            "board_gradient_as_a_byte",
            (99, 1400, 265),
            Board::new(1, 500, 226),
        ),
        (
            "board_gradient_minus_30_refused",
            (33, 888, -30),
            Board::new(1, 500, -30),
        ),
        ("board_h_sign", (117, 1300, -23), Board::new(6, 500, 23)),
        ("board_printed", (60, 870, 5), Board::new(60, 870, 5)),
    ] {
        assert_eq!(smallest(name, Board::new(v, d, h)), Case::Board(small));
    }
}

#[test]
fn a_board_is_shown_as_its_numbers() {
    let case = Case::Board(Board::new(60, 870, 5));
    let shown = "board distance\n60 km/h, 870 mm/s2, +5 per mille\n";
    assert_eq!(text(&case), shown);
    assert!(files(&case).is_empty());
}
