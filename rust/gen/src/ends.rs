//! What falls due at a crossing on a tick, beside counting (document 02, T-14).

use engine::crossing::{booms_up, has_reason, is_held, is_normal};
use engine::{phase, Crossing, Entry};

/// The most ticks out of normal that are counted. The tick that finds one fewer, or as many, is the
/// one that ends a closure under the sheet of 1959.
pub(crate) const MOST_OUT: u16 = 1080;

/// What a tick ends.
#[derive(Clone, Copy, PartialEq, Debug)]
pub(crate) enum End {
    Countdown,
    Warning,
    Gap,
    /// Ticks left to motorists, without a reason and with one.
    Left,
    LeftReason,
    /// A closure of six minutes under the sheet of 1959, with something to be released.
    Overdue,
    /// Raising with every boom up.
    Raising,
    /// Ticks out of normal reach their most, or stay there.
    Most,
    Beyond,
}

/// Kinds: all, those with booms, those under the sheet of 1959.
const ALL: &[usize] = &[1, 2, 3, 4, 5, 6];
const BOOMS: &[usize] = &[2, 3, 4, 6];
const OLD: &[usize] = &[5, 6];

impl End {
    /// Each with its name in the table and its kinds.
    pub(crate) const ALL: [(End, &'static str, &'static [usize]); 9] = [
        (End::Countdown, "countdown", ALL),
        (End::Warning, "F", ALL),
        (End::Gap, "G", &[4]),
        (End::Left, "M", ALL),
        (End::LeftReason, "M, reason", ALL),
        (End::Overdue, "1959", OLD),
        (End::Raising, "raising", BOOMS),
        (End::Most, "1080", ALL),
        (End::Beyond, "beyond", ALL),
    ];

    /// On which tick from now it falls due; 0 where nothing of the kind runs.
    pub(crate) fn until(self, entry: &Entry, c: &Crossing) -> u16 {
        match self {
            End::Countdown => c.countdown,
            End::Warning if c.phase == phase::WARNING => c.timer,
            End::Gap if c.phase == phase::RIGHT_DOWN => c.timer,
            End::Left if !has_reason(c) => c.left,
            End::LeftReason if has_reason(c) => c.left,
            End::Overdue if is_counted(c) && may_be_overdue(entry, c) => (MOST_OUT - c.out).max(1),
            End::Raising => (c.phase == phase::RAISING && booms_up(c)).into(),
            End::Most if stays_out(entry, c) => MOST_OUT - c.out,
            End::Beyond => (stays_out(entry, c) && c.out == MOST_OUT).into(),
            _ => 0,
        }
    }

    /// Whether it is more than the end of counting ticks out of normal.
    pub(crate) fn acts(self) -> bool {
        !matches!(self, End::Most | End::Beyond)
    }
}

/// The first tick from now on which something other than counting is due.
pub(crate) fn next_end(entry: &Entry, c: &Crossing) -> Option<u16> {
    let ends = End::ALL.iter().filter(|(end, ..)| end.acts());
    let ticks = ends.map(|(end, ..)| end.until(entry, c));
    ticks.filter(|ticks| *ticks > 0).min()
}

/// Ticks out of normal are counted.
fn is_counted(c: &Crossing) -> bool {
    !is_normal(c)
}

fn may_be_overdue(entry: &Entry, c: &Crossing) -> bool {
    let trains = (c.calling, c.waiting, c.unsure) != ([0; 4], [0; 4], [0; 4]);
    entry.is_old() && trains && !is_held(c) && c.occupied == [0; 4]
}

/// Out of normal by a reason that neither a release nor its countdown takes away on the next tick.
fn stays_out(entry: &Entry, c: &Crossing) -> bool {
    is_counted(c) && has_reason(c) && c.countdown != 1 && !may_be_overdue(entry, c)
}
