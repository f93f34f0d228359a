//! Counters of what pairs of sheets met (document 02, T-07).

use crate::coverage::sums;
use crate::sheets::sheet_events;
use crate::shifts::{Event, TICK};
use crate::stretches::{Compared, HOW};
use engine::{code, number, Agreement, MAX_EVENTS};

/// What a sheet is: good, more than 256 events, over-long with the length of its size and with
/// another, then torn.
pub(crate) const STATES: [&str; 9] = [
    "good",
    "long",
    "over",
    "over torn",
    "0",
    "1",
    "size",
    "short",
    "more",
];

/// The sizes that are counted by what the sheet holds.
pub(crate) const SIZES: [usize; 4] = [255, 256, 257, MAX_EVENTS];
pub(crate) const CONTENTS: [&str; 3] = ["ticks", "one event", "all different"];

/// The place among the states.
fn state(sheet: &[u8]) -> usize {
    let size = match sheet {
        [] => return 4,
        [_] => return 5,
        [low, high, ..] => usize::from(u16::from_le_bytes([*low, *high])),
    };
    let right = 2 + 4 * size;
    match sheet.len() {
        len if size > MAX_EVENTS => 2 + usize::from(len != right),
        len if len == right => usize::from(size > 256),
        2 => 6,
        len if len < right => 7,
        _ => 8,
    }
}

/// The place among the contents.
fn content(events: &[Event]) -> Option<usize> {
    let mut sorted = events.to_vec();
    sorted.sort_unstable();
    sorted.dedup();
    match sorted[..] {
        [TICK] => Some(0),
        [_] => Some(1),
        _ => (sorted.len() == events.len() && sorted[0] != TICK).then_some(2),
    }
}

/// What two sheets that were compared can show: its group and name, and whether they do.
type Met = (&'static str, &'static str, fn(&Compared) -> bool);

pub(crate) const MET: [Met; 26] = [
    ("agree, order", "same", |c| c.agreed() && c.reordered() == 0),
    ("agree, order", "neighbours", |c| {
        c.agreed() && c.exchanged(1).is_some()
    }),
    ("agree, order", "one stretch", |c| {
        c.agreed() && c.reordered() == 1
    }),
    ("agree, order", "stretches", |c| {
        c.agreed() && c.reordered() > 1
    }),
    ("agree, order", "tick later", |c| {
        c.exchanged(1).is_some_and(|events| events[0] == TICK)
    }),
    ("agree, order", "tick earlier", |c| {
        c.exchanged(1).is_some_and(|events| events[1] == TICK)
    }),
    ("agree, order", "over a tick", |c| {
        c.exchanged(2).is_some_and(|events| events[1] == TICK)
    }),
    ("agree, empty", "both", |c| c.sizes() == [0, 0]),
    ("agree, empty", "hut", |c| {
        c.sizes()[0] == 0 && c.sizes()[1] > 0
    }),
    ("agree, empty", "cabin", |c| {
        c.sizes()[1] == 0 && c.sizes()[0] > 0
    }),
    ("agree, first failing", "the only", |c| {
        c.first() == Some(0) && c.counts() == [1, 1]
    }),
    ("agree, first failing", "0", |c| {
        c.first() == Some(0) && c.counts().iter().all(|n| *n > 1)
    }),
    ("agree, first failing", "1", |c| {
        c.first() == Some(1) && c.counts().iter().all(|n| *n > 2)
    }),
    ("agree, first failing", "middle", |c| {
        c.first()
            .is_some_and(|i| i > 1 && c.counts().iter().all(|n| *n > i + 1))
    }),
    ("agree, first failing", "last", |c| {
        c.first().is_some_and(|i| i > 0 && c.counts() == [i + 1; 2])
    }),
    ("agree, first failing", "255", |c| c.named(255)),
    ("agree, first failing", "256", |c| c.named(256)),
    ("agree, failing", "one", |c| c.failing() == 1),
    ("agree, failing", "some", |c| c.failing() > 1),
    ("agree, failing", "all", |c| {
        c.failing() > 1 && c.counts() == [c.failing(); 2]
    }),
    ("agree, code 0 with", "crossing", |c| {
        c.moved(|event| matches!(event, [0, 1..=255, 0, 0]))
    }),
    ("agree, code 0 with", "place", |c| {
        c.moved(|event| matches!(event, [0, 0, 1..=255, 0]))
    }),
    ("agree, code 0 with", "value", |c| {
        c.moved(|event| matches!(event, [0, 0, 0, 1..=255]))
    }),
    ("agree, unknown code", "agreed", |c| {
        c.moved(|event| event[0] > code::LAMP_REPORT)
    }),
    ("agree, unknown code", "failing", |c| c.unknown_apart()),
    ("agree, stretches", "257", |c| {
        c.agreed() && c.counts() == [257; 2]
    }),
];

/// How often.
#[derive(Clone, Default)]
pub(crate) struct AgreeCounts {
    /// By what the hut's sheet is, and the cabin's.
    pub(crate) states: [[u64; STATES.len()]; STATES.len()],
    /// By sheet, size and content, of sheets that are neither torn nor over-long.
    pub(crate) sizes: [[[u64; CONTENTS.len()]; SIZES.len()]; 2],
    /// Number 18 for two sheets that are the same, and for two that are not.
    pub(crate) long: [u64; 2],
    pub(crate) met: [u64; MET.len()],
    pub(crate) how: [u64; HOW.len()],
    /// By sheet: a tick more at the start, in the middle, at the end.
    pub(crate) ticks: [[u64; 3]; 2],
    /// By sheet: a stretch that it alone has, empty and not.
    pub(crate) alone: [[u64; 2]; 2],
    /// One byte of one event differs: by byte, and a tick in the hut's sheet, the cabin's or none.
    pub(crate) bytes: [[u64; 3]; 4],
}

impl AgreeCounts {
    pub(crate) fn pair(&mut self, hut: &[u8], cabin: &[u8], answer: Agreement) {
        self.states[state(hut)][state(cabin)] += 1;
        let (Some(first), Some(second)) = (sheet_events(hut), sheet_events(cabin)) else {
            return;
        };
        for (sheet, events) in [&first, &second].into_iter().enumerate() {
            let size = SIZES.iter().position(|size| *size == events.len());
            let counted = size.and_then(|size| Some((size, content(events)?)));
            if let Some((size, content)) = counted {
                self.sizes[sheet][size][content] += 1;
            }
        }
        match answer.number {
            number::TAKEN => self.compared(&Compared::new([first, second], answer)),
            _ => self.long[usize::from(first != second)] += 1,
        }
    }

    fn compared(&mut self, compared: &Compared) {
        for (count, (_, _, met)) in self.met.iter_mut().zip(MET) {
            *count += u64::from(met(compared));
        }
        if let Some(how) = compared.how() {
            self.how[how] += 1;
        }
        if let Some((byte, tick)) = compared.one_byte() {
            self.bytes[byte][tick] += 1;
        }
        for sheet in 0..2 {
            if let Some(place) = compared.tick_more(sheet) {
                self.ticks[sheet][place] += 1;
            }
            if let Some(stretch) = compared.alone(sheet) {
                self.alone[sheet][usize::from(!stretch.is_empty())] += 1;
            }
        }
    }

    pub(crate) fn add(&mut self, other: &AgreeCounts) {
        sums(self.states.as_flattened_mut(), other.states.as_flattened());
        let sizes = self.sizes.as_flattened_mut().as_flattened_mut();
        sums(sizes, other.sizes.as_flattened().as_flattened());
        sums(&mut self.long, &other.long);
        sums(&mut self.met, &other.met);
        sums(&mut self.how, &other.how);
        sums(self.ticks.as_flattened_mut(), other.ticks.as_flattened());
        sums(self.alone.as_flattened_mut(), other.alone.as_flattened());
        sums(self.bytes.as_flattened_mut(), other.bytes.as_flattened());
    }
}
