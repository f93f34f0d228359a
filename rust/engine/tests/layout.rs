//! The layout of the types, as another language sees them.

use engine::{Agreement, BoardDistance, Crossing, Entry, Plant, Run, Site};
use std::mem::{offset_of, size_of};

#[test]
fn sizes() {
    assert_eq!(size_of::<Entry>(), 10);
    assert_eq!(size_of::<Site>(), 82);
    assert_eq!(size_of::<Crossing>(), 44);
    assert_eq!(size_of::<Plant>(), 436);
    assert_eq!(size_of::<Run>(), 16);
    assert_eq!(size_of::<Agreement>(), 4);
    assert_eq!(size_of::<BoardDistance>(), 4);
}

#[test]
fn offsets() {
    assert_eq!(offset_of!(Entry, pre), 4);
    assert_eq!(offset_of!(Entry, gap), 6);
    assert_eq!(offset_of!(Entry, pause), 8);
    assert_eq!(offset_of!(Site, entries), 2);
    assert_eq!(offset_of!(Plant, beat), 82);
    assert_eq!(offset_of!(Plant, crossings), 84);
    assert_eq!(offset_of!(Crossing, occupied), 12);
    assert_eq!(offset_of!(Crossing, unsure), 16);
    assert_eq!(offset_of!(Crossing, booms), 20);
    assert_eq!(offset_of!(Crossing, lamps), 24);
    assert_eq!(offset_of!(Crossing, kiosk), 31);
    assert_eq!(offset_of!(Crossing, operator), 32);
    assert_eq!(offset_of!(Crossing, countdown), 34);
    assert_eq!(offset_of!(Crossing, phase), 36);
    assert_eq!(offset_of!(Crossing, timer), 38);
    assert_eq!(offset_of!(Crossing, left), 40);
    assert_eq!(offset_of!(Crossing, out), 42);
    assert_eq!(offset_of!(Run, taken), 4);
    assert_eq!(offset_of!(Agreement, agreed), 1);
    assert_eq!(offset_of!(Agreement, stretch), 2);
    assert_eq!(offset_of!(BoardDistance, number), 0);
    assert_eq!(offset_of!(BoardDistance, distance), 2);
}
