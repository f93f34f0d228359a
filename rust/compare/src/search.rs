//! Goes through generated cases until a difference, a count or a time.

use crate::case::Case;
use crate::check::Pair;
use crate::engines::Planted;
use crate::print::event_count;
use crate::second::Proved;
use crate::shrink::shrink;
use faults::Fault;
use gen::Coverage;
use std::time::{Duration, Instant};

/// Events put to the engines while one difference is made small, to be shown or to be counted.
const SHOWN: usize = 3_000_000;
const COUNTED: usize = 120_000;

/// One seeded case of so many has a sheet of ticks that only count beside it.
const QUIET_EVERY: u64 = 8;

/// Which cases, where to begin and when to end.
#[derive(Clone, Copy)]
pub struct Plan {
    pub seed: u64,
    pub first: u64,
    pub cases: Option<u64>,
    pub time: Option<Duration>,
    /// Only sessions, which begin at a fresh plant.
    pub sessions: bool,
}

impl Plan {
    /// So many cases of any kind.
    pub fn of_cases(seed: u64, cases: u64) -> Plan {
        Plan {
            seed,
            first: 0,
            cases: Some(cases),
            time: None,
            sessions: false,
        }
    }
}

/// A case on which the engines differ.
pub struct Difference {
    /// Its place among the seeded cases; none for a fixed case.
    pub index: Option<u64>,
    pub case: Case,
}

/// What a search came to.
pub struct Outcome {
    pub cases: u64,
    pub seen: Coverage,
    pub difference: Option<Difference>,
}

impl Plan {
    /// A session, or any case and beside it a preview, two sheets, an arrow board, and now and then
    /// a sheet of ticks that only count.
    fn cases(&self, index: u64) -> Vec<Case> {
        if self.sessions {
            return vec![Case::session(self.seed, index)];
        }
        let mut cases = vec![
            Case::make(self.seed, index),
            Case::preview(self.seed, index),
            Case::agree(self.seed, index),
            Case::board(self.seed, index),
        ];
        if index.is_multiple_of(QUIET_EVERY) {
            cases.push(Case::quiet(self.seed, index));
        }
        cases
    }

    fn is_over(&self, done: u64, since: Instant) -> bool {
        self.cases.is_some_and(|cases| done >= cases)
            || self.time.is_some_and(|time| since.elapsed() >= time)
    }
}

/// Compares over the fixed cases.
pub fn search_fixed(pair: Pair) -> Outcome {
    search_among(pair, Case::fixed().chain(Case::boards()))
}

/// Compares over these cases.
pub fn search_among(pair: Pair, mut list: impl Iterator<Item = Case>) -> Outcome {
    let mut seen = Coverage::new();
    let mut cases = 0;
    let differs = list.find(|case| {
        cases += 1;
        pair.check(case, &mut seen).is_err()
    });
    Outcome {
        cases,
        seen,
        difference: differs.map(|case| Difference { index: None, case }),
    }
}

/// Compares until the plan ends or the engines differ; calls `progress` now and then.
pub fn search(pair: Pair, plan: Plan, progress: &mut dyn FnMut(u64, &Coverage)) -> Outcome {
    let since = Instant::now();
    let mut seen = Coverage::new();
    let mut cases = 0;
    while !plan.is_over(cases, since) {
        let index = plan.first + cases;
        let mut beside = plan.cases(index).into_iter();
        cases += 1;
        if let Some(case) = beside.find(|case| pair.check(case, &mut seen).is_err()) {
            let index = Some(index);
            return Outcome {
                cases,
                seen,
                difference: Some(Difference { index, case }),
            };
        }
        progress(cases, &seen);
    }
    Outcome {
        cases,
        seen,
        difference: None,
    }
}

/// The smallest case found that still differs, and what differs in it.
pub fn reduce(pair: Pair, case: Case) -> (Case, String) {
    reduce_within(SHOWN, pair, case)
}

fn reduce_within(mut left: usize, pair: Pair, case: Case) -> (Case, String) {
    let mut unseen = Coverage::new();
    let case = shrink(case, &mut |c| {
        let cost = 50 + event_count(c);
        let affordable = left >= cost;
        left -= cost.min(left);
        affordable && pair.check(c, &mut unseen).is_err()
    });
    let what = pair.check(&case, &mut unseen).err().unwrap_or_default();
    (case, what)
}

/// Sessions looked at for a difference from a fresh plant.
const FRESH_SESSIONS: u64 = 2_000;

/// The smallest difference found in a list of events from a fresh plant.
pub fn from_fresh(pair: Pair, seed: u64) -> Option<(Case, String)> {
    let plan = Plan {
        sessions: true,
        ..Plan::of_cases(seed, FRESH_SESSIONS)
    };
    let outcome = search(pair, plan, &mut |_, _| {});
    Some(reduce(pair, outcome.difference?.case))
}

/// How a planted fault was found.
pub struct Found {
    pub cases: u64,
    pub time: Duration,
    pub difference: Difference,
}

/// Whether a list of events can show a fault. None compares two sheets or places an arrow board;
/// the names of faults there begin with the call.
pub fn is_in_lists(fault: &Fault) -> bool {
    let apart = ["agree_", "board_"];
    !apart.iter().any(|call| fault.name.starts_with(call))
}

/// Looks for a fault planted in the plain engine, against the proved one. What the plan's
/// cases do not show, the fixed ones may, unless only sessions are wished.
pub fn find_fault(fault: &'static Fault, plan: Plan) -> Option<Found> {
    let planted = Planted(fault);
    let pair = Pair {
        first: &planted,
        second: &Proved::default(),
    };
    let since = Instant::now();
    let mut outcome = search(pair, plan, &mut |_, _| {});
    if outcome.difference.is_none() && !plan.sessions {
        outcome = search_fixed(pair);
    }
    Some(Found {
        cases: outcome.cases,
        time: since.elapsed(),
        difference: outcome.difference?,
    })
}

/// How many events the smallest case found for a planted fault has.
pub fn smallest(fault: &'static Fault, found: &Found) -> usize {
    let planted = Planted(fault);
    let pair = Pair {
        first: &planted,
        second: &Proved::default(),
    };
    let case = found.difference.case.clone();
    event_count(&reduce_within(COUNTED, pair, case).0)
}
