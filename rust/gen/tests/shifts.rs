//! Pairs of sheets: seeded ones and the grid (document 02, T-07).

use engine::{agree, number};
use gen::{sheet_events, shift, shift_grid, Coverage, Rng, Shift};

fn events(sheet: &[u8]) -> Option<usize> {
    sheet_events(sheet).map(|events| events.len())
}

/// Most pairs are short, some long and some refused; about a third agrees.
#[test]
fn seeded_pairs() {
    let (mut long, mut short, mut agreed, mut hash) = (0, 0, 0, 0u64);
    let mut numbers = [0; 19];
    for index in 0..20_000 {
        let [hut, cabin]: Shift = shift(&mut Rng::of_case(1, index));
        let answer = agree(&hut, &cabin);
        numbers[usize::from(answer.number)] += 1;
        agreed += u32::from(answer.agreed);
        let sizes = events(&hut).zip(events(&cabin));
        long += u32::from(sizes.is_some_and(|(one, other)| one.min(other) > 24));
        short += u32::from(sizes.is_some_and(|(one, other)| one.max(other) <= 27));
        for byte in hut.iter().chain(&cabin) {
            hash = hash.wrapping_mul(31).wrapping_add(u64::from(*byte));
        }
    }
    assert!((130..280).contains(&long), "{long}");
    assert!(short > 16_000, "{short}");
    assert!((5_000..10_000).contains(&agreed), "{agreed}");
    let refused = [
        number::OVER_LONG,
        number::TORN_SHEET,
        number::SHIFT_TOO_LONG,
    ];
    assert!(refused.iter().all(|n| numbers[usize::from(*n)] > 20));
    assert_eq!(hash, SAME);
}
const SAME: u64 = 18039321987958163376;

/// The grid alone, without a seeded pair.
#[test]
fn the_grid_meets_everything() {
    let mut seen = Coverage::new();
    let mut pairs = 0;
    for [hut, cabin] in shift_grid() {
        pairs += 1;
        seen.agree(&hut, &cabin, agree(&hut, &cabin));
    }
    assert_eq!(pairs, 37_438);
    let left = seen.missing().into_iter();
    let left: Vec<String> = left.filter(|goal| goal.starts_with("agree")).collect();
    assert!(left.is_empty(), "{left:?}");
}
