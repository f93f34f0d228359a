//! Hut against cabin, document 02, T-07: two sheets of one shift, stretch by stretch.

mod common;

use common::{sheet, TICK};
use engine::{agree, Agreement};

const A: [u8; 4] = [1, 0, 0, 0];
const B: [u8; 4] = [8, 1, 0, 2];
const C: [u8; 4] = [9, 0, 4, 1];

fn answer(number: u8, agreed: bool, stretch: u16) -> Agreement {
    Agreement {
        number,
        agreed,
        stretch,
    }
}

/// What the comparison gives, either way round.
fn both(hut: &[[u8; 4]], cabin: &[[u8; 4]], expected: Agreement) {
    let [hut, cabin] = [hut, cabin].map(sheet);
    assert_eq!(agree(&hut, &cabin), expected, "{hut:?} {cabin:?}");
    assert_eq!(agree(&cabin, &hut), expected, "{cabin:?} {hut:?}");
}

fn agrees(hut: &[[u8; 4]], cabin: &[[u8; 4]]) {
    both(hut, cabin, answer(0, true, 0));
}

fn fails(hut: &[[u8; 4]], cabin: &[[u8; 4]], stretch: u16) {
    both(hut, cabin, answer(0, false, stretch));
}

#[test]
fn the_order_in_a_stretch_may_differ() {
    agrees(&[], &[]);
    agrees(&[A, B, C], &[C, A, B]);
    agrees(&[A, B, TICK, B, C, TICK], &[B, A, TICK, C, B, TICK]);
    agrees(&[TICK, A, A, B], &[TICK, A, B, A]);
    agrees(&[TICK; 3], &[TICK; 3]);
}

#[test]
fn every_stretch_counts() {
    fails(&[A], &[B], 0);
    fails(&[A], &[], 0);
    fails(&[A, TICK, B], &[B, TICK, A], 0);
    fails(&[TICK, A, TICK, B], &[TICK, TICK, A, B], 1);
    fails(&[A, TICK, B, TICK, C], &[A, TICK, C, TICK, C], 1);
    fails(&[A, TICK, B, TICK, C], &[A, TICK, B, TICK], 2);
    // The first of several.
    fails(&[A, TICK, B, TICK, C], &[A, TICK, A, TICK, A], 1);
}

#[test]
fn each_event_as_often() {
    fails(&[A], &[A, A], 0);
    fails(&[A, A, B], &[A, B, B], 0);
    fails(&[TICK, A, B, A, B], &[TICK, A, B, A], 1);
    fails(&[A; 256], &[], 0);
    fails(&[A; 256], &[A; 255], 0);
}

#[test]
fn a_stretch_of_one_sheet_alone() {
    fails(&[TICK], &[], 1);
    fails(&[TICK; 5], &[TICK; 2], 3);
    fails(&[A, TICK], &[A], 1);
    fails(&[A, TICK, B], &[A], 1);
    fails(&[TICK, A], &[A], 0);
    fails(&[TICK; 256], &[TICK; 255], 256);
    let mut other = [TICK; 256];
    other[255] = A;
    fails(&[TICK; 256], &other, 255);
}

/// Every other event is compared by its bytes, code 0 among them.
#[test]
fn a_tick_is_four_zero_bytes() {
    for field in 0..4 {
        for value in 1..=255 {
            let mut other = TICK;
            other[field] = value;
            fails(&[other], &[TICK], 0);
            agrees(&[A, other, TICK, B], &[other, A, TICK, B]);
            let mut near = [7; 4];
            near[field] ^= value;
            fails(&[TICK, A, near], &[TICK, A, [7; 4]], 1);
            agrees(&[TICK, A, near], &[TICK, near, A]);
        }
    }
}

/// Up to 256 events each, all of them different or all alike.
#[test]
fn long_sheets() {
    let distinct: Vec<[u8; 4]> = (0..=255).map(|i| [i, i / 3, 7, 255 - i]).collect();
    let reversed: Vec<[u8; 4]> = distinct.iter().rev().copied().collect();
    agrees(&distinct, &reversed);
    fails(&distinct, &reversed[1..], 0);
    agrees(&[B; 256], &[B; 256]);
    agrees(&[TICK; 256], &[TICK; 256]);
    for len in [257, 258, 4096] {
        for events in [A, TICK].map(|e| vec![e; len]) {
            both(&events, &events, answer(18, false, 0));
            both(&events, &[A; 256], answer(18, false, 0));
            both(&events, &[], answer(18, false, 0));
        }
    }
}

/// Sheets and the number that each gets by itself.
fn refused() -> Vec<(Vec<u8>, u8)> {
    let mut over = sheet(&[A; 4097]);
    let mut list = vec![(over.clone(), 2)];
    over.truncate(9);
    list.extend([(over, 2), (vec![1, 0x10], 2), (vec![255, 255, 0], 2)]);
    for torn in [&[][..], &[0], &[1], &[1, 0], &[0, 0, 0], &[0, 16], &[1, 1]] {
        list.push((torn.to_vec(), 4));
    }
    for good in [sheet(&[A, TICK, B]), sheet(&[A; 257]), sheet(&[A; 4096])] {
        list.push((good[..good.len() - 1].to_vec(), 4));
        list.push(([&good[..], &[0]].concat(), 4));
    }
    list
}

/// First the hut's own number, then the cabin's, then the length of either.
#[test]
fn refusals_in_order() {
    let refused = refused();
    let others = [vec![], vec![A, TICK, B], vec![A; 257], vec![TICK; 4096]];
    for (bytes, number) in &refused {
        for other in others.iter().map(|events| sheet(events)) {
            let expected = answer(*number, false, 0);
            assert_eq!(agree(bytes, &other), expected, "{bytes:?}");
            assert_eq!(agree(&other, bytes), expected, "{bytes:?}");
        }
        for (cabin, _) in &refused {
            assert_eq!(agree(bytes, cabin), answer(*number, false, 0));
        }
    }
}
