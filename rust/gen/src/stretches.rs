//! What two sheets that were compared have in common, and how they differ (document 02, T-07).

use crate::shifts::{Event, TICK};
use engine::{code, Agreement};
use std::cmp::Ordering;

/// Two lists of events, and what the comparison of their sheets gave.
pub(crate) struct Compared {
    lists: [Vec<Event>; 2],
    answer: Agreement,
    /// The stretches of each, sorted.
    stretches: [Vec<Vec<Event>>; 2],
    /// Those that both have and that fail.
    failing: Vec<usize>,
    /// The places at which the lists differ, of those that both have.
    apart: Vec<usize>,
    /// How many stretches of both differ as lists.
    reordered: usize,
}

fn stretches(events: &[Event]) -> Vec<Vec<Event>> {
    let stretches = events.split(|event| *event == TICK);
    let sorted = |stretch: &[Event]| {
        let mut stretch = stretch.to_vec();
        stretch.sort_unstable();
        stretch
    };
    stretches.map(sorted).collect()
}

/// The places at which two lists differ, as far as both go.
fn apart<T: PartialEq>(one: &[T], other: &[T]) -> Vec<usize> {
    let places = one.iter().zip(other).enumerate();
    let apart = places.filter(|(_, (a, b))| a != b);
    apart.map(|(i, _)| i).collect()
}

/// Each event once.
fn once(stretch: &[Event]) -> Vec<Event> {
    let mut events = stretch.to_vec();
    events.dedup();
    events
}

/// Whether a stretch has all of another's events, each at least as often.
fn holds(stretch: &[Event], other: &[Event]) -> bool {
    let mut left = stretch.iter();
    other.iter().all(|event| left.any(|e| e == event))
}

impl Compared {
    pub(crate) fn new(lists: [Vec<Event>; 2], answer: Agreement) -> Compared {
        let [hut, cabin] = &lists;
        let stretches = [stretches(hut), stretches(cabin)];
        let tick = |event: &Event| *event == TICK;
        let parts = hut.split(tick).zip(cabin.split(tick));
        Compared {
            failing: apart(&stretches[0], &stretches[1]),
            apart: apart(hut, cabin),
            reordered: parts.filter(|(one, other)| one != other).count(),
            lists,
            answer,
            stretches,
        }
    }

    pub(crate) fn agreed(&self) -> bool {
        self.answer.agreed
    }

    /// The comparison named this stretch.
    pub(crate) fn named(&self, stretch: u16) -> bool {
        !self.answer.agreed && self.answer.stretch == stretch
    }

    /// How many events, and how many stretches.
    pub(crate) fn sizes(&self) -> [usize; 2] {
        [self.lists[0].len(), self.lists[1].len()]
    }

    pub(crate) fn counts(&self) -> [usize; 2] {
        [self.stretches[0].len(), self.stretches[1].len()]
    }

    /// How many stretches of both fail.
    pub(crate) fn failing(&self) -> usize {
        self.failing.len()
    }

    /// The stretch of both that fails first.
    pub(crate) fn first(&self) -> Option<usize> {
        self.failing.first().copied()
    }

    /// The only difference is that two events, so far apart, are exchanged: those in the hut's list
    /// from the first of them to the second.
    pub(crate) fn exchanged(&self, far: usize) -> Option<&[Event]> {
        let [hut, cabin] = &self.lists;
        let &[first, second] = &self.apart[..] else {
            return None;
        };
        let exchanged = hut[first] == cabin[second] && hut[second] == cabin[first];
        let only = hut.len() == cabin.len() && exchanged && first + far == second;
        only.then(|| &hut[first..=second])
    }

    /// In how many stretches the order differs, of sheets that agree.
    pub(crate) fn reordered(&self) -> usize {
        self.reordered
    }

    /// Agreed, with such an event at another place.
    pub(crate) fn moved(&self, such: impl Fn(Event) -> bool) -> bool {
        self.agreed() && self.apart.iter().any(|place| such(self.lists[0][*place]))
    }

    /// One sheet has a tick more, and nothing else differs: at the start, in the middle or at the
    /// end.
    pub(crate) fn tick_more(&self, sheet: usize) -> Option<usize> {
        let (more, fewer) = (&self.lists[sheet], &self.lists[1 - sheet]);
        let place = self.apart.first().copied().unwrap_or(fewer.len());
        let only = more.get(place) == Some(&TICK) && more[place + 1..] == fewer[place..];
        let third = match place {
            _ if place == fewer.len() => 2,
            0 => 0,
            _ => 1,
        };
        only.then_some(third)
    }

    /// All stretches of both agree and one sheet has more of them: the first of these.
    pub(crate) fn alone(&self, sheet: usize) -> Option<&[Event]> {
        let stretch = self.stretches[sheet].get(self.stretches[1 - sheet].len());
        stretch.filter(|_| self.failing.is_empty()).map(|s| &s[..])
    }

    /// One event differs, in one byte: which, and which sheet has a tick there, 2 for none.
    pub(crate) fn one_byte(&self) -> Option<(usize, usize)> {
        let [hut, cabin] = self.one_event()?;
        let &[byte] = &apart(&hut, &cabin)[..] else {
            return None;
        };
        let tick = [hut, cabin].iter().position(|event| *event == TICK);
        Some((byte, tick.unwrap_or(2)))
    }

    /// One event differs, and in both sheets its code is unknown.
    pub(crate) fn unknown_apart(&self) -> bool {
        let unknown = |event: &Event| event[0] > code::LAMP_REPORT;
        self.one_event()
            .is_some_and(|events| events.iter().all(unknown))
    }

    /// The only event that differs, in either sheet.
    fn one_event(&self) -> Option<[Event; 2]> {
        let [hut, cabin] = &self.lists;
        match self.apart[..] {
            [place] if hut.len() == cabin.len() => Some([hut[place], cabin[place]]),
            _ => None,
        }
    }

    /// How the first stretch fails that both have: the place in `HOW`.
    pub(crate) fn how(&self) -> Option<usize> {
        let first = self.first()?;
        let [hut, cabin] = [&self.stretches[0][first], &self.stretches[1][first]];
        let same_set = once(hut) == once(cabin);
        Some(match (same_set, hut.len().cmp(&cabin.len())) {
            (true, Ordering::Equal) => 0,
            (true, Ordering::Greater) => 1,
            (true, Ordering::Less) => 2,
            (false, Ordering::Greater) if holds(hut, cabin) => 3,
            (false, Ordering::Less) if holds(cabin, hut) => 4,
            (false, _) => 5,
        })
    }
}

/// The ways a stretch fails: the same events, each as many in all, or oftener in one sheet; events
/// that one sheet alone has; or some of either.
pub(crate) const HOW: [&str; 6] = [
    "as many",
    "oftener, hut",
    "oftener, cabin",
    "more, hut",
    "more, cabin",
    "others",
];
