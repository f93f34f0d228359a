//! Two sheets of one shift (document 02, T-07): a list of events, and another made of it.

use crate::rng::Rng;
use crate::sheets::{damaged_sheet, sheet_bytes, SheetDamage};

/// The hut's sheet and the cabin's.
pub type Shift = [Vec<u8>; 2];

pub(crate) type Event = [u8; 4];
pub(crate) const TICK: Event = [0; 4];

/// One pair in so many is long.
const LONG: u32 = 96;

/// Two sheets with few events that come again, one like the other but for up to three changes; now
/// and then one is damaged, or both are.
pub fn shift(rng: &mut Rng) -> Shift {
    let pool = pool(rng);
    let len = length(rng);
    let one = events(rng, &pool, len);
    let mut other = match rng.below(12) {
        0 => events(rng, &pool, len),
        _ => one.clone(),
    };
    if rng.flag() {
        shuffle(rng, &mut other);
    }
    for _ in 0..rng.below(4) {
        change(rng, &pool, &mut other);
    }
    let mut sheets = [one, other].map(|events| sheet_bytes(&events));
    if rng.flag() {
        sheets.reverse();
    }
    let damaged = rng.weighted(&[21, 1, 1, 1]);
    for (i, sheet) in sheets.iter_mut().enumerate() {
        if damaged >> i & 1 == 1 {
            let damage = rng.pick(&SheetDamage::ALL);
            *sheet = damaged_sheet(rng, std::mem::take(sheet), damage);
        }
    }
    sheets
}

/// Up to 24 events, or up to 256 and a few more.
fn length(rng: &mut Rng) -> usize {
    let len = match (rng.once_in(LONG), rng.flag()) {
        (true, true) => rng.pick(&[254, 255, 256, 256, 256, 257, 258]),
        (true, false) => rng.within(25..=252),
        (false, _) => rng.below(25),
    };
    len as usize
}

/// A few events, none of them a tick.
fn pool(rng: &mut Rng) -> Vec<Event> {
    let first = known(rng);
    let mut pool = vec![first];
    for _ in 0..rng.below(6) {
        let event = match rng.below(6) {
            0 => std::array::from_fn(|_| rng.within(1..=255) as u8),
            1 => one_byte(rng, TICK),
            2 => [rng.within(10..=255) as u8, 0, 0, 0],
            3 => near(rng, first),
            _ => known(rng),
        };
        pool.push(event);
    }
    pool
}

/// An event with a code of the table.
fn known(rng: &mut Rng) -> Event {
    let code = rng.within(1..=9) as u8;
    [
        code,
        rng.below(3) as u8,
        rng.below(3) as u8,
        rng.flag().into(),
    ]
}

/// Another event, of which one byte differs.
fn one_byte(rng: &mut Rng, event: Event) -> Event {
    let mut other = event;
    other[rng.below(4) as usize] ^= rng.within(1..=255) as u8;
    other
}

/// The same, but no tick.
fn near(rng: &mut Rng, event: Event) -> Event {
    match one_byte(rng, event) {
        TICK => event,
        other => other,
    }
}

fn events(rng: &mut Rng, pool: &[Event], len: usize) -> Vec<Event> {
    let ticks = rng.pick(&[0, 2, 4, 8, 15, 16]);
    let event = |_| match rng.below(16) < ticks {
        true => TICK,
        false => rng.pick(pool),
    };
    (0..len).map(event).collect()
}

/// Every stretch in another order.
fn shuffle(rng: &mut Rng, events: &mut [Event]) {
    for stretch in events.split_mut(|event| *event == TICK) {
        for i in (1..stretch.len()).rev() {
            stretch.swap(i, rng.below(i as u32 + 1) as usize);
        }
    }
}

/// One change at some place; an event may be exchanged with the next or over it, ticks too.
fn change(rng: &mut Rng, pool: &[Event], events: &mut Vec<Event>) {
    let len = events.len();
    let drawn = rng.below(9);
    if len == 0 || drawn == 0 {
        let event = if rng.flag() { TICK } else { rng.pick(pool) };
        return events.insert(rng.below(len as u32 + 1) as usize, event);
    }
    let place = rng.below(len as u32) as usize;
    let [next, second] = [1, 2].map(|step| (place + step) % len);
    match drawn {
        1 => {
            events.remove(place);
        }
        2 => events.swap(place, next),
        3 => events.swap(place, second),
        4 => events.insert(place, events[place]),
        5 => events[place] = events[next],
        6 => events[place] = rng.pick(pool),
        7 => events[place] = one_byte(rng, events[place]),
        _ => without_tick(events, place),
    }
}

/// Leaves out the first tick from a place on.
fn without_tick(events: &mut Vec<Event>, place: usize) {
    let tick = events[place..].iter().position(|event| *event == TICK);
    if let Some(tick) = tick {
        events.remove(place + tick);
    }
}
