//! Fixed pairs of sheets (document 02, T-07): every short one of a few events, one byte or one
//! place apart, every set of failing stretches, sheets around 256 events, and torn ones.

use crate::sheets::sheet_bytes;
use crate::shifts::{Event, Shift, TICK};

type Lists = [Vec<Event>; 2];

const A: Event = [1, 0, 0, 0];
const B: Event = [2, 0, 0, 0];

/// All grids in turn.
pub fn shift_grid() -> impl Iterator<Item = Shift> {
    let lists = short().chain(bytes()).chain(failing()).chain(places());
    let lists = lists.chain(sizes()).chain(near_256());
    let sheets = lists.map(|pair| pair.map(|events| sheet_bytes(&events)));
    sheets.chain(torn()).chain(lengths())
}

/// Each with each.
fn pairs<T: Clone>(list: Vec<T>) -> impl Iterator<Item = [T; 2]> {
    let firsts = list.clone().into_iter();
    firsts.flat_map(move |first| {
        let seconds = list.clone().into_iter();
        seconds.map(move |second| [first.clone(), second])
    })
}

/// A pair, and the same with hut and cabin exchanged.
fn both_ways<T: Clone>([one, other]: [T; 2]) -> [[T; 2]; 2] {
    [[one.clone(), other.clone()], [other, one]]
}

/// All lists of up to so many of these events.
fn lists(events: &[Event], longest: usize) -> Vec<Vec<Event>> {
    let mut last = vec![vec![]];
    let mut all = last.clone();
    for _ in 0..longest {
        let longer = |list: &Vec<Event>| {
            let ends = events.iter().map(|e| [&list[..], &[*e]].concat());
            ends.collect::<Vec<_>>()
        };
        last = last.iter().flat_map(longer).collect();
        all.extend(last.clone());
    }
    all
}

/// All short lists of ticks and two others, each with each; code 0 and unknown codes among them.
fn short() -> impl Iterator<Item = Lists> {
    let three = [
        [TICK, [0, 1, 0, 0], A],
        [TICK, [0, 0, 1, 0], A],
        [TICK, [0, 0, 0, 1], A],
        [TICK, [10, 0, 0, 0], [255; 4]],
        [A, B, [0, 0, 0, 2]],
    ];
    let three = three
        .into_iter()
        .flat_map(|events| pairs(lists(&events, 3)));
    pairs(lists(&[TICK, A, B], 4)).chain(three)
}

/// Two events that differ in one byte, every value of it, one of them a tick or none: alone, with
/// others around them, and both in another order.
fn bytes() -> impl Iterator<Item = Lists> {
    let fields = (0..4).flat_map(|field| (1..=255).map(move |value| (field, value)));
    let events =
        fields.flat_map(|(field, value)| [TICK, [7; 4]].map(|event| (field, value, event)));
    events.flat_map(|(field, value, event)| {
        let mut other = event;
        other[field] ^= value;
        let apart = [
            [vec![event], vec![other]],
            [vec![A, TICK, event, B], vec![A, TICK, other, B]],
        ];
        let agreed = [vec![TICK, A, other, B], vec![TICK, other, B, A]];
        apart.into_iter().flat_map(both_ways).chain([agreed])
    })
}

/// What the hut has in a stretch that fails, and what the cabin has.
const FAILING: [[&[Event]; 2]; 7] = [
    [&[A, A, B], &[B, A, B]],
    [&[A, B], &[B, B]],
    [&[A, B], &[A, B, B]],
    [&[A, B], &[B]],
    [&[A], &[[3, 0, 0, 0]]],
    [&[], &[A]],
    [&[A, B], &[]],
];

/// One to five stretches with every set of them failing, the others in another order.
fn failing() -> impl Iterator<Item = Lists> {
    let sets = (1..=5).flat_map(|count| (0..1 << count).map(move |set| (count, set)));
    sets.flat_map(|(count, set)| {
        FAILING.map(|[hut, cabin]| {
            let stretch = |i: usize| match set >> i & 1 == 1 {
                true => cabin.to_vec(),
                false => hut.iter().rev().copied().collect(),
            };
            let cabin: Vec<Vec<Event>> = (0..count).map(stretch).collect();
            [vec![hut.to_vec(); count].join(&TICK), cabin.join(&TICK)]
        })
    })
}

/// At every place of a few lists: a tick more, an event more, one fewer, and the event exchanged
/// with the next or with the one after it.
fn places() -> impl Iterator<Item = Lists> {
    let lists = [
        vec![A, B, TICK, A, TICK, TICK, B, B],
        vec![TICK, A, B, A, TICK],
        vec![A, B, [3, 1, 0, 0], [0, 0, 1, 0], [99, 1, 2, 3]],
        vec![TICK; 4],
    ];
    let pairs = lists.into_iter().flat_map(|list| {
        let places = 0..=list.len();
        places.flat_map(move |place| {
            let changed = changed(&list, place).into_iter();
            changed
                .map(|other| [list.clone(), other])
                .collect::<Vec<_>>()
        })
    });
    pairs.flat_map(both_ways)
}

fn changed(list: &[Event], place: usize) -> Vec<Vec<Event>> {
    let (before, after) = list.split_at(place);
    let mut changed = vec![
        [before, &[TICK], after].concat(),
        [before, &[A], after].concat(),
    ];
    if let [_, rest @ ..] = after {
        changed.push([before, rest].concat());
    }
    for other in [place + 1, place + 2] {
        if other < list.len() {
            let mut exchanged = list.to_vec();
            exchanged.swap(place, other);
            changed.push(exchanged);
        }
    }
    changed
}

/// So many events that all differ, none of them a tick.
fn distinct(len: usize) -> Vec<Event> {
    (0..len).map(|i| [i as u8, (i >> 8) as u8, 9, 0]).collect()
}

/// Ticks only, one event again and again, or all different; every size with every other.
fn sizes() -> impl Iterator<Item = Lists> {
    let sizes = [0, 1, 2, 255, 256, 257, 4096].into_iter();
    let all = sizes.flat_map(|len| [vec![TICK; len], vec![A; len], distinct(len)]);
    pairs(all.collect())
}

/// Around 256 events: another order, and a change at either end or in the middle.
fn near_256() -> impl Iterator<Item = Lists> {
    let lists = [254, 255, 256, 257].into_iter().flat_map(|len| {
        let by_turns = [A, TICK].into_iter().cycle().take(len).collect();
        [vec![TICK; len], vec![B; len], distinct(len), by_turns]
    });
    let pairs = lists.flat_map(|list| {
        let mut others = vec![list.iter().rev().copied().collect()];
        for place in [0, list.len() / 2, list.len() - 1] {
            for event in [TICK, A, [200, 1, 2, 3]] {
                let mut other = list.clone();
                other[place] = event;
                others.push(other);
            }
        }
        others.push([&list[1..], &list[..1]].concat());
        others.push(list[1..].to_vec());
        others.into_iter().map(move |other| [list.clone(), other])
    });
    pairs.flat_map(both_ways)
}

/// Good sheets and long ones, torn in every way, and over-long ones: each with each.
fn torn() -> impl Iterator<Item = Shift> {
    let good = [0, 1, 3, 256, 257, 4096, 4097].map(|len| sheet_bytes(&distinct(len)));
    let mut all: Vec<Vec<u8>> = [&[][..], &[0], &[1], &[255], &[255, 255], &[255, 255, 0]]
        .map(Vec::from)
        .into();
    for sheet in good {
        let (size, short) = (sheet[..2].to_vec(), sheet[..sheet.len() - 1].to_vec());
        all.extend([[&sheet[..], &[0]].concat(), short, size, sheet]);
    }
    pairs(all)
}

/// Small sizes with every length, and every high byte of a size with nothing after it, beside a
/// good sheet.
fn lengths() -> impl Iterator<Item = Shift> {
    let small = (0..=6).flat_map(|size| (0..=30).map(move |len| vec![size; len]));
    let small = small.map(|mut bytes| {
        if let Some(high) = bytes.get_mut(1) {
            *high = 0;
        }
        bytes
    });
    let sizes = (0..=255).flat_map(|high| [0, 1, 255].map(|low| vec![low, high]));
    let good = sheet_bytes(&[A, TICK]);
    let pairs = small.chain(sizes).map(move |bytes| [good.clone(), bytes]);
    pairs.flat_map(both_ways)
}
