//! What a crossing under the sheet of 1959 shows on the panel (document 02, T-09).

use engine::crossing::is_normal;
use engine::{boom, phase, Crossing};

/// What a crossing on the panel can show: kind 5, then kind 6, in the order of `lights_only` and
/// `half_booms`.
pub(crate) const SHOWN_5: [&str; 8] = [
    "road dark",
    "white, warning",
    "white, closed",
    "white, 2 dead",
    "dark, normal",
    "dark by 1",
    "dark by 3",
    "released, dark",
];
pub(crate) const SHOWN_6: [&str; 18] = [
    "road dark",
    "white",
    "amber, normal",
    "amber, warning",
    "amber, raising",
    "amber, secured",
    "amber by 1",
    "amber by 5",
    "amber by 6",
    "amber by 5 and 6",
    "dark",
    "dark, secured",
    "released, amber",
    "boom lamps off, warning",
    "boom lamps off, closed",
    "boom lamps, open",
    "boom lamps, one up",
    "boom lamps, both dead",
];

/// Dark in normal position with both lamps of the road whole.
fn road_dark(c: &Crossing) -> bool {
    is_normal(c) && c.lamps[..2] == [1, 1]
}

pub(crate) fn lights_only(c: &Crossing, bytes: &[u8]) -> [bool; SHOWN_5.len()] {
    let (white, dark) = (bytes[6] == 2, bytes[6] == 0);
    let closing = c.phase != phase::OPEN;
    [
        road_dark(c),
        white && c.phase == phase::WARNING,
        white && c.phase == phase::ALL_DOWN,
        white && c.lamps[2] == 0,
        dark && !closing && c.lamps[..4] == [1; 4],
        dark && closing && c.lamps[1] == 0 && c.lamps[3] == 1,
        dark && closing && c.lamps[1] == 1 && c.lamps[3] == 0,
        dark && bytes[8] != 0,
    ]
}

pub(crate) fn half_booms(c: &Crossing, bytes: &[u8]) -> [bool; SHOWN_6.len()] {
    let (amber, dark) = (bytes[6] == 3, bytes[6] == 0);
    let secured = bytes[9] & 2 == 2;
    let half_closed = |b: &u8| matches!(*b, boom::MOVING | boom::DOWN);
    let closed = c.phase == phase::ALL_DOWN && c.booms[..2].iter().all(half_closed);
    // Not secured because of these of lamps 1, 5 and 6 alone.
    let by = |lamps: [u8; 3]| amber && closed && [c.lamps[1], c.lamps[5], c.lamps[6]] == lamps;
    let lamps = bytes[3] == 1;
    [
        road_dark(c),
        bytes[6] == 2,
        amber && is_normal(c),
        amber && c.phase == phase::WARNING,
        amber && c.phase == phase::RAISING,
        amber && secured,
        by([0, 1, 1]),
        by([1, 0, 1]),
        by([1, 1, 0]),
        by([1, 0, 0]),
        dark && !secured,
        dark && secured,
        amber && bytes[8] != 0,
        !lamps && c.phase == phase::WARNING,
        !lamps && c.phase == phase::ALL_DOWN,
        lamps && c.phase == phase::OPEN,
        lamps && c.booms[..2].contains(&boom::UP),
        lamps && c.lamps[5..] == [0, 0],
    ]
}
