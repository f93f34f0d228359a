//! Hut against cabin (document 02, T-07): sheets that share their bytes, faults in an engine by
//! itself, and differences made small.

use compare::case::Case;
use compare::check::Pair;
use compare::engines::{Plain, Planted};
use compare::print::{files, text};
use compare::search::reduce;
use compare::second::Proved;
use compare::Engine;
use faults::FAULTS;
use gen::{sheet_bytes, shift_grid, Coverage};

const TICK: [u8; 4] = [0; 4];
const A: [u8; 4] = [1, 0, 0, 0];
const B: [u8; 4] = [8, 1, 0, 2];

/// Both sheets are only read, so they may be one slice or parts of one.
#[test]
fn sheets_may_overlap() {
    let bytes = [2, 0, 1, 0, 0, 0, 0, 0, 0, 0, 1, 0, 0, 0, 0, 0];
    let parts = (0..=bytes.len()).flat_map(|end| (0..=end).map(move |start| start..end));
    let parts: Vec<&[u8]> = parts.map(|part| &bytes[part]).collect();
    let proved = Proved::default();
    let mut agreed = 0;
    for (hut, cabin) in parts
        .iter()
        .flat_map(|hut| parts.iter().map(move |c| (hut, c)))
    {
        let answer = Plain.agree(hut, cabin);
        assert_eq!(proved.agree(hut, cabin), answer, "{hut:?} {cabin:?}");
        let [hut, cabin] = [hut, cabin].map(|part| part.to_vec());
        assert_eq!(proved.agree(&hut, &cabin), answer, "{hut:?} {cabin:?}");
        agreed += u32::from(answer.agreed);
    }
    assert!(agreed > 20, "{agreed}");
}

/// Faults that show only beside an engine without them: whichever sheet is the hut's, and however
/// each stretch is ordered, they overlook the same stretch, name the same wrong one, or take the
/// same sheets for too long.
const NOT_BY_ITSELF: [&str; 20] = [
    "agree_256_refused",
    "agree_257",
    "agree_after_last_tick",
    "agree_alone_too_high",
    "agree_before_first_tick",
    "agree_code_0_left_out",
    "agree_code_left_out",
    "agree_count_in_a_byte",
    "agree_crossing_left_out",
    "agree_empty_alone",
    "agree_from_1",
    "agree_how_many",
    "agree_last_failing",
    "agree_place_left_out",
    "agree_sets",
    "agree_stretch_in_a_byte",
    "agree_ticks_first",
    "agree_unknown_left_out",
    "agree_value_left_out",
    "agree_whole_shift",
];

#[test]
fn both_engines_with_the_same_fault() {
    let seeded = (0..10_000).map(|index| Case::agree(1, index));
    let grid = shift_grid().map(|[hut, cabin]| Case::Agree { hut, cabin });
    let cases: Vec<Case> = seeded.chain(grid).collect();
    let unseen = &mut Coverage::new();
    let faults = FAULTS.iter().filter(|f| f.name.starts_with("agree_"));
    let missed = faults.filter(|fault| {
        let planted = &Planted(fault);
        let pair = Pair {
            first: planted,
            second: planted,
        };
        cases.iter().all(|case| pair.check(case, unseen).is_ok())
    });
    let missed: Vec<&str> = missed.map(|fault| fault.name).collect();
    assert_eq!(missed, NOT_BY_ITSELF);
}

/// The smallest pair found on which the plain engine and this fault differ.
fn smallest(name: &str, hut: &[[u8; 4]], cabin: &[[u8; 4]]) -> Case {
    let fault = FAULTS.iter().find(|f| f.name == name).unwrap();
    let pair = Pair {
        first: &Plain,
        second: &Planted(fault),
    };
    let [hut, cabin] = [hut, cabin].map(sheet_bytes);
    let case = Case::Agree { hut, cabin };
    assert!(pair.check(&case, &mut Coverage::new()).is_err(), "{name}");
    reduce(pair, case).0
}

fn is(small: Case, hut: &[[u8; 4]], cabin: &[[u8; 4]]) {
    let [hut, cabin] = [hut, cabin].map(sheet_bytes);
    let expected = Case::Agree { hut, cabin };
    assert!(small == expected, "{}", text(&small));
}

#[test]
fn agreements_are_made_small() {
    let mut hut = vec![[9, 2, 1, 0]; 40];
    hut.extend([TICK, A, B, [200; 4], TICK, B]);
    let mut cabin = hut.clone();
    cabin.extend([TICK; 3]);
    is(smallest("agree_empty_alone", &hut, &cabin), &[], &[TICK]);
    cabin[41..44].reverse();
    let small = smallest("agree_order", &hut, &cabin[..hut.len()]);
    is(small, &[A, [0, 0, 0, 1]], &[[0, 0, 0, 1], A]);
    let long: Vec<[u8; 4]> = (0..=255).map(|i| [i, 7, 7, 7]).collect();
    let long = [long, vec![B; 9]].concat();
    is(
        smallest("agree_both_lengths", &long, &hut),
        &[TICK; 257],
        &[],
    );
}

#[test]
fn a_pair_is_shown_as_its_two_files() {
    let case = Case::Agree {
        hut: sheet_bytes(&[A]),
        cabin: vec![1],
    };
    let shown = "agree\nhut.bin   01 00 01 00 00 00\ncabin.bin 01\n";
    assert_eq!(text(&case), shown);
    let names: Vec<&str> = files(&case).into_iter().map(|(name, _)| name).collect();
    assert_eq!(names, ["hut.bin", "cabin.bin"]);
}
