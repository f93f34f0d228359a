//! Rows of ticks that only count (document 02, T-14), without a seed: short ones around the end of
//! every count, with every event, and long ones.

use crate::ends::MOST_OUT;
use crate::shifts::{Event, TICK};
use engine::{boom, code, in_range, phase, Crossing, Entry, Plant, Site, MAX_EVENTS};

/// M, and F but of kind 6; G where it is.
const PAUSE: u16 = 7;
const PRE: u16 = 9;
const GAP: u16 = 8;
/// Ticks before a count ends.
const NEAR: u16 = 5;
/// Most ticks before the event.
const BEFORE: u16 = 4;

/// Puts a crossing so many ticks before the end of what runs.
type State = fn(&Entry, &mut Crossing, u16);

/// States of a crossing with its booms up, a train calling. In phase 3 booms that are up make the
/// tick after a release the end of raising.
const STATES: [State; 10] = [
    countdown_closed,
    |_, c, near| (c.phase, c.countdown) = (phase::ALL_DOWN, near),
    |_, c, near| (c.phase, c.timer) = (phase::WARNING, near),
    |_, c, near| (c.phase, c.timer) = (phase::RIGHT_DOWN, near),
    |_, c, near| (c.phase, c.timer, c.countdown) = (phase::WARNING, near, near),
    |_, c, near| c.left = near,
    |_, c, near| (c.left, c.calling) = (near, [0; 4]),
    |_, c, near| (c.left, c.countdown) = (near, near + 1),
    |_, c, near| (c.phase, c.out) = (phase::ALL_DOWN, MOST_OUT - near),
    |_, c, near| (c.phase, c.out, c.kiosk) = (phase::ALL_DOWN, MOST_OUT - near, 1),
];

/// States that no event leaves, and that the next tick settles; then some in which an event makes
/// something due: a route, an approach that is freed, the last boom.
const OTHERS: [State; 8] = [
    |_, _, _| {},
    |_, c, near| (c.phase, c.timer, c.calling) = (phase::WARNING, near, [0; 4]),
    |_, c, near| (c.phase, c.timer, c.calling) = (phase::RIGHT_DOWN, near, [0; 4]),
    |_, c, _| (c.phase, c.calling) = (phase::ALL_DOWN, [0; 4]),
    |_, c, near| (c.out, c.calling) = (near, [0; 4]),
    |_, c, _| (c.calling[0], c.waiting[1]) = (0, 1),
    |_, c, near| {
        (c.phase, c.out) = (phase::ALL_DOWN, MOST_OUT - near);
        c.occupied[0] = 1;
    },
    |_, c, _| (c.phase, c.booms[0]) = (phase::RAISING, boom::MOVING),
];

fn countdown_closed(entry: &Entry, c: &mut Crossing, near: u16) {
    (c.phase, c.countdown) = (phase::ALL_DOWN, near);
    c.booms[..entry.booms().into()].fill(boom::DOWN);
}

/// Events at a crossing: of each code one that is taken, mostly, then others, then refused ones.
fn events(c: u8) -> [Event; 20] {
    [
        [code::STRIKE_IN, c, 0, 0],
        [code::PASSAGE, c, 0, 0],
        [code::KIOSK_HOLD, c, 0, 1],
        [code::OPERATOR_HOLD, c, 0, 1],
        [code::ROUTE, c, 1, 1],
        [code::APPROACH, c, 0, 1],
        [code::TIME_RELEASE, c, 0, 0],
        [code::BOOM_REPORT, c, 0, boom::MOVING],
        [code::LAMP_REPORT, c, 1, 0],
        [code::TICK, 0, 0, 1],
        [code::KIOSK_HOLD, c, 0, 0],
        [code::OPERATOR_HOLD, c, 0, 0],
        [code::ROUTE, c, 1, 0],
        [code::APPROACH, c, 0, 0],
        [code::BOOM_REPORT, c, 0, boom::UP],
        [code::PASSAGE, c, 1, 0],
        [code::ROUTE, c, 0, 1],
        [code::STRIKE_IN, c, 2, 0],
        [code::TICK, c, 0, 0],
        [code::TICK, 0, c, 0],
    ]
}

/// How many of them come at another crossing too.
const ELSEWHERE: usize = 10;

fn entry(kind: u8) -> Entry {
    Entry {
        kind,
        tracks: 2,
        mask: 0b10,
        pre: if kind == 6 { 15 } else { PRE },
        gap: if kind == 4 { GAP } else { 0 },
        pause: PAUSE,
    }
}

/// A fresh crossing of these settings with a train.
fn with_train(entry: &Entry) -> Crossing {
    let mut c = Crossing::fresh(entry);
    c.calling[0] = 1;
    c
}

/// Three crossings: the first two in this state, the last, of the next kind, with a warning that
/// ends a tick later.
fn three(kind: u8, state: State, near: u16) -> Plant {
    let mut site = Site { n: 3, ..Site::ZERO };
    let kinds = [kind, kind, kind % 6 + 1];
    site.entries[..3].copy_from_slice(&kinds.map(entry));
    let mut plant = Plant::fresh(&site);
    plant.beat = near as u8 % 4;
    let records = plant.crossings.iter_mut().zip(&site.entries).take(3);
    for (i, (c, entry)) in records.enumerate() {
        *c = with_train(entry);
        match i {
            2 => (c.phase, c.timer) = (phase::WARNING, near + 1),
            _ => state(entry, c, near),
        }
    }
    plant
}

/// Every count at each small value, and the other states: some ticks, an event at the second
/// crossing or elsewhere, and no more, or ticks until the count ends, or one tick more.
pub fn quiet_grid() -> impl Iterator<Item = (Plant, Vec<Event>)> {
    let near = |state| (1..=NEAR).map(move |near| (state, near));
    let settled = STATES.into_iter().flat_map(near);
    let states = settled.chain(OTHERS.map(|state| (state, 3)));
    let plants = states.flat_map(|(state, near)| {
        let kinds = (1..=6).map(move |kind| (near, three(kind, state, near)));
        kinds.filter(|(_, plant)| in_range(plant))
    });
    plants.flat_map(|(near, plant)| sheets(near).map(move |sheet| (plant, sheet)))
}

fn sheets(near: u16) -> impl Iterator<Item = Vec<Event>> {
    (0..=BEFORE).flat_map(move |before| {
        let elsewhere = events(2 * (before as u8 % 2)).into_iter().take(ELSEWHERE);
        let all = events(1).into_iter().chain(elsewhere);
        all.flat_map(move |event| {
            let rest = near.saturating_sub(before);
            [0, rest, rest + 1].map(|after| row(before, event, after))
        })
    })
}

fn row(before: u16, event: Event, after: u16) -> Vec<Event> {
    let mut events = vec![TICK; before.into()];
    events.push(event);
    events.resize(events.len() + usize::from(after), TICK);
    events
}

/// Ticks of the long rows: around F and G, a byte, a release, the panel's and the most ticks out of
/// normal.
const LONG: [usize; 19] = [
    9, 10, 15, 17, 18, 254, 256, 269, 270, 271, 300, 540, 901, 1078, 1079, 1080, 1081, 1110, 2200,
];

/// Long rows at eight crossings of every kind: first the same at each of them, or what the plant
/// holds, then nothing but ticks; each also with an event in the row and ticks after it, and the
/// longest sheet of all.
pub fn quiet_rows() -> impl Iterator<Item = (Plant, Vec<Event>)> {
    [(0, 8), (3, 7), (540, 5)]
        .into_iter()
        .flat_map(|(pause, released)| {
            let starts = begun(pause, released).into_iter().chain(held(pause));
            starts.flat_map(|(plant, first)| {
                let ticks = LONG.into_iter().chain([MAX_EVENTS - first.len()]);
                ticks.flat_map(move |ticks| long_rows(&first, ticks).map(|sheet| (plant, sheet)))
            })
        })
}

fn long_rows(first: &[Event], ticks: usize) -> [Vec<Event>; 2] {
    let alone = [first, &vec![TICK; ticks]].concat();
    let mut broken = alone.clone();
    broken[first.len() + ticks - 3] = [code::LAMP_REPORT, 7, 0, 0];
    [alone, broken]
}

/// Eight crossings with this M.
fn eight(pause: u16) -> Site {
    let mut site = Site { n: 8, ..Site::ZERO };
    let kinds = [4, 1, 2, 3, 4, 5, 6, 6];
    site.entries = kinds.map(|kind| Entry {
        pause,
        ..entry(kind)
    });
    site
}

/// Events at every crossing of the fresh plant: a train, a train and, at so many, its release, a
/// hold, a second closure.
fn begun(pause: u16, released: usize) -> [(Plant, Vec<Event>); 4] {
    let fresh = Plant::fresh(&eight(pause));
    let at_all = |event: Event| (0..8).map(move |c| [event[0], c, event[2], event[3]]);
    let trains = at_all([code::STRIKE_IN, 0, 0, 0]);
    let releases = at_all([code::TIME_RELEASE, 0, 0, 0]).take(released);
    let holds = at_all([code::KIOSK_HOLD, 0, 0, 1]);
    [
        (fresh, trains.clone().collect()),
        (fresh, trains.chain(releases).collect()),
        (fresh, holds.collect()),
        (fresh, closed_again()),
    ]
}

/// Trains that pass while a boom is away; then others and their release, and the boom is up.
fn closed_again() -> Vec<Event> {
    let first = (0..8).flat_map(|c| [[code::STRIKE_IN, c, 0, 0], [code::BOOM_REPORT, c, 0, 1]]);
    let again = (0..8).flat_map(|c| {
        let train = [[code::PASSAGE, c, 0, 0], [code::STRIKE_IN, c, 0, 0]];
        let boom = [[code::TIME_RELEASE, c, 0, 0], [code::BOOM_REPORT, c, 0, 0]];
        train.into_iter().chain(boom)
    });
    let ticks = [TICK; (PRE + GAP) as usize];
    first.chain(ticks).chain(again).collect()
}

/// Plants with their counts at their most, and with counts that end one after the other.
fn held(pause: u16) -> [(Plant, Vec<Event>); 3] {
    let mut plants = [Plant::fresh(&eight(pause)); 3];
    for (i, entry) in eight(pause).entries.iter().enumerate() {
        let calling = with_train(entry);
        plants[0].crossings[i] = Crossing {
            countdown: 270,
            left: pause,
            ..calling
        };
        let right_down = entry.has_left_booms();
        plants[1].crossings[i] = Crossing {
            phase: phase::ALL_DOWN - u8::from(right_down),
            timer: entry.gap,
            out: MOST_OUT,
            kiosk: 1,
            ..calling
        };
        plants[2].crossings[i] = Crossing {
            countdown: 20 + i as u16,
            phase: phase::WARNING,
            timer: entry.pre,
            out: 1,
            ..calling
        };
    }
    plants.map(|plant| (plant, vec![]))
}
