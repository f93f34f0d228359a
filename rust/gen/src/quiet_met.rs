//! Counters of what sheets met in rows of ticks that only count (document 02, T-14).

use crate::coverage::{sums, KINDS};
use crate::ends::{End, MOST_OUT};
use crate::quiet_walk::Walk;
use crate::shifts::{Event, TICK};
use engine::crossing::is_normal;
use engine::events::apply;
use engine::rights::Source;
use engine::{phase, Crossing, Entry, Plant, MAX_EVENTS};

const ENDS: usize = End::ALL.len();

/// How often, by end and kind.
type ByEnd = [[u64; KINDS]; ENDS];

/// How an end was met: its group in the table.
#[derive(Clone, Copy)]
pub(crate) enum How {
    /// In a row of ticks without an event of that crossing.
    Row,
    /// An event of that crossing was taken after a row of ticks and two ticks before, one before and
    /// right after.
    Two,
    One,
    After,
    /// On the tick after a refused event of that crossing, with a row of ticks before that.
    Refused,
    /// On the last event of the sheet; or not yet, in a row of ticks.
    Last,
    Middle,
}

impl How {
    pub(crate) const ALL: [(How, &'static str); 7] = [
        (How::Row, "in a row, kind:end"),
        (How::Two, "2 before, kind:end"),
        (How::One, "1 before, kind:end"),
        (How::After, "after, kind:end"),
        (How::Refused, "refusal, kind:end"),
        (How::Last, "last event, kind:end"),
        (How::Middle, "middle, kind:end"),
    ];

    /// Whether an end can be met so. Raising ends on the next tick, and beyond their most nothing
    /// ends.
    pub(crate) fn can_be(self, end: End) -> bool {
        match (self, end) {
            (How::Row, _) => true,
            (_, End::Beyond) => false,
            (How::Two | How::Middle, End::Raising) => false,
            _ => true,
        }
    }
}

/// A name in the table, and whether a crossing is so.
type Held = (&'static str, fn(&Entry, &Crossing) -> bool);

/// What a plant that is not fresh holds when a tick begins its sheet.
pub(crate) const FROM: [Held; 11] = [
    ("countdown 1", |_, c| c.countdown == 1),
    ("countdown 270", |_, c| c.countdown == 270),
    ("F 1", |e, c| {
        c.phase == phase::WARNING && c.timer == 1 && e.pre > 1
    }),
    ("F", |e, c| {
        c.phase == phase::WARNING && c.timer == e.pre && e.pre > 1
    }),
    ("G 1", |e, c| {
        c.phase == phase::RIGHT_DOWN && c.timer == 1 && e.gap > 1
    }),
    ("G", |e, c| {
        c.phase == phase::RIGHT_DOWN && c.timer == e.gap && e.gap > 1
    }),
    ("M 1", |e, c| c.left == 1 && e.pause > 1),
    ("M", |e, c| c.left == e.pause && e.pause > 1),
    ("out 1", |_, c| c.out == 1 && !is_normal(c)),
    ("out 1079", |_, c| c.out == MOST_OUT - 1 && !is_normal(c)),
    ("out 1080", |_, c| c.out == MOST_OUT && !is_normal(c)),
];

/// What the first tick settles though nothing ends: phases 0 to 3, and ticks out of normal that
/// normal position has. No event leaves such a plant.
pub(crate) const UNSETTLED: [&str; 5] = ["0", "1", "2", "3", "normal"];

/// Code 0 with a field that is not 0, between two ticks; the second ends something.
pub(crate) const CODE_0: [&str; 4] = ["crossing", "place", "value", "due"];

/// Ticks in a row, and in a sheet with nothing else.
pub(crate) const ROWS: [usize; 5] = [2, 256, 300, 1081, MAX_EVENTS];

#[derive(Clone, Default)]
pub(crate) struct QuietCounts {
    pub(crate) ends: [ByEnd; How::ALL.len()],
    /// Two, three, and more ends in one row.
    pub(crate) chains: [[u64; KINDS]; 3],
    /// By code: two ticks before an end, one before and right after.
    pub(crate) codes: [[u64; 3]; 10],
    /// By code and kind: what is due next at a crossing comes sooner or later by its event.
    pub(crate) moved: [[[u64; KINDS]; 10]; 2],
    /// Sooner than at any crossing before.
    pub(crate) soonest: [u64; KINDS],
    /// By the crossings at which something ends on one tick; and with unlike ends, in the last place.
    pub(crate) together: [u64; 10],
    pub(crate) from: [[u64; KINDS]; FROM.len()],
    pub(crate) unsettled: [[u64; KINDS]; UNSETTLED.len()],
    pub(crate) code_0: [u64; CODE_0.len()],
    pub(crate) rows: [u64; ROWS.len()],
}

impl QuietCounts {
    pub(crate) fn end(&self, how: How, end: End, kind: usize) -> u64 {
        self.ends[how as usize][end as usize][kind]
    }

    /// A sheet of these events run from a plant in range.
    pub(crate) fn run(&mut self, plant: &Plant, events: &[Event]) {
        if events.first() == Some(&TICK) {
            self.begin(plant);
        }
        let rows = events.split(|event| *event != TICK).map(<[Event]>::len);
        let longest = rows.max().unwrap_or(0);
        for (count, row) in self.rows.iter_mut().zip(ROWS) {
            *count += u64::from(longest >= row);
        }
        let mut walk = Walk::new(self, plant);
        for (i, event) in events.iter().enumerate() {
            walk.event(*event, i + 1 == events.len());
        }
        walk.close();
    }

    /// A tick begins the sheet.
    fn begin(&mut self, plant: &Plant) {
        if *plant == Plant::fresh(&plant.site) {
            return;
        }
        let mut after = *plant;
        let _ = apply(&mut after, Source::Sheet, TICK);
        for (i, entry) in used(plant) {
            let (c, kind) = (&plant.crossings[i], usize::from(entry.kind));
            for (counts, (_, holds)) in self.from.iter_mut().zip(FROM) {
                counts[kind] += u64::from(holds(&entry, c));
            }
            if let Some(class) = unsettled(&entry, c, &after.crossings[i]) {
                self.unsettled[class][kind] += 1;
            }
        }
    }

    pub(crate) fn add(&mut self, other: &QuietCounts) {
        let ends = self.ends.as_flattened_mut().as_flattened_mut();
        sums(ends, other.ends.as_flattened().as_flattened());
        sums(self.chains.as_flattened_mut(), other.chains.as_flattened());
        sums(self.codes.as_flattened_mut(), other.codes.as_flattened());
        let moved = self.moved.as_flattened_mut().as_flattened_mut();
        sums(moved, other.moved.as_flattened().as_flattened());
        sums(&mut self.soonest, &other.soonest);
        sums(&mut self.together, &other.together);
        sums(self.from.as_flattened_mut(), other.from.as_flattened());
        let unsettled = other.unsettled.as_flattened();
        sums(self.unsettled.as_flattened_mut(), unsettled);
        sums(&mut self.code_0, &other.code_0);
        sums(&mut self.rows, &other.rows);
    }
}

/// The used crossings and their settings.
pub(crate) fn used(plant: &Plant) -> impl Iterator<Item = (usize, Entry)> {
    let entries = plant.site.entries.into_iter().enumerate();
    entries.take(plant.site.n.into())
}

/// The place among what the first tick settles.
fn unsettled(entry: &Entry, before: &Crossing, after: &Crossing) -> Option<usize> {
    let ends = |(end, ..): &(End, _, _)| end.until(entry, before) == 1;
    match before.phase {
        _ if End::ALL.iter().any(ends) => None,
        phase if phase != after.phase => Some(phase.into()),
        _ if is_normal(before) && before.out > 0 => Some(4),
        _ => None,
    }
}
