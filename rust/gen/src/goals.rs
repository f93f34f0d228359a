//! What a set of inputs should reach, and the table of it.

mod agreements;
mod boards;
mod old;
mod pauses;
mod previews;
mod quiet;
mod senders;

use crate::booms::BoomBytes;
use crate::coverage::{Call, Coverage, KINDS};
use crate::flags::FlagBytes;
use crate::lost_met::LostMet;
use crate::unsure::Met;
use engine::{code, number, PANEL};
use std::fmt::Write;

const CALLS: [&str; 8] = [
    "read book",
    "write book",
    "event",
    "draw",
    "run",
    "preview",
    "agree",
    "board",
];
/// The numbers each call can give.
const CALL_NUMBERS: [&[u8]; 8] = [
    &[0, 1, 2, 3],
    &[0, 2, 3, 14],
    &[0, 5, 6, 7, 8, 10, 11, 12, 13, 15, 16, 17],
    &[0, 14, 15, 16],
    &[0, 2, 4, 14, 15],
    &[0, 5, 6, 7, 8, 10, 11, 12, 13, 14, 15, 16, 17],
    &[0, 2, 4, 18],
    &[0, 19, 20, 21],
];
const SIGNALS: [&str; 4] = ["road", "boom lamps", "train signal", "distant"];
const RHYTHMS: [&str; 3] = ["slow", "fast", "steady"];
/// The bits of each panel byte that can be 0 and 1.
const PANEL_BITS: [u8; PANEL] = [3, 15, 1, 1, 1, 1, 3, 3, 15, 7, 7, 3, 255, 3, 255, 3];
/// The changes of phase that one event can bring.
const MOVES: [(u8, u8); 13] = [
    (0, 1),
    (1, 0),
    (1, 2),
    (1, 3),
    (1, 4),
    (2, 3),
    (2, 4),
    (3, 0),
    (3, 4),
    (4, 0),
    (4, 1),
    (0, 0),
    (4, 4),
];
/// The calls that are handed a plant.
const WITH_PLANT: [Call; 4] = [Call::Event, Call::Draw, Call::Run, Call::Preview];
/// The crossings that have their bytes counted apart: of flags, and of boom reports.
const USES: [&str; 2] = ["unused", "used"];
const BY_KIND: [&str; KINDS] = [
    "unused", "kind 1", "kind 2", "kind 3", "kind 4", "kind 5", "kind 6",
];

/// The refusals an event of this code can meet, beside 6, 7, 8 and 17; 10 stands for the rest.
fn own_refusals(code: usize) -> &'static [u8] {
    match code as u8 {
        code::PASSAGE => &[number::GHOST_PASSAGE],
        code::OPERATOR_HOLD => &[number::TRAIN_CALLING],
        code::ROUTE => &[number::PLAIN_TRACK],
        code::TIME_RELEASE => &[number::NOT_CLEAR],
        _ => &[],
    }
}

/// The numbers an event of this code can get.
fn code_numbers(code: usize) -> Vec<u8> {
    let mut numbers = match code {
        10 => vec![number::UNKNOWN_CODE],
        _ => vec![0, 6, 7, 8, number::NO_RIGHT],
    };
    numbers.extend(own_refusals(code));
    numbers.extend([number::SPOILT_PLANT, number::UNKNOWN_SENDER]);
    numbers
}

fn has_booms(kind: usize) -> bool {
    !matches!(kind, 1 | 5)
}

fn kind_phases(kind: usize) -> &'static [usize] {
    match kind {
        1 | 5 => &[0, 1, 3],
        4 => &[0, 1, 2, 3, 4],
        _ => &[0, 1, 3, 4],
    }
}

/// One thing to be reached, how often it was and how often it must be.
struct Goal {
    group: &'static str,
    name: String,
    count: u64,
    needed: u64,
}

impl Goal {
    fn once(group: &'static str, name: String, count: u64) -> Goal {
        Goal {
            group,
            name,
            count,
            needed: 1,
        }
    }

    fn is_reached(&self) -> bool {
        self.count >= self.needed
    }

    fn cell(&self) -> String {
        match self.needed {
            1 => format!("{} {}", self.name, short(self.count)),
            all => format!("{} {} of {all}", self.name, self.count),
        }
    }
}

/// How many of all values a call was handed at these crossings.
fn handed(
    call: Call,
    group: &'static str,
    crossings: &[&str],
    counts: &[u64],
    all: &[u64],
) -> Vec<Goal> {
    let counts = counts.iter().zip(all);
    let goal = |(crossings, (count, all)): (&&str, (&u64, &u64))| Goal {
        group,
        name: format!("{} {crossings}", CALLS[call as usize]),
        count: *count,
        needed: *all,
    };
    crossings.iter().zip(counts).map(goal).collect()
}

impl Coverage {
    fn goals(&self) -> Vec<Goal> {
        let mut goals = self.number_goals();
        goals.extend(self.phase_goals());
        goals.extend(self.unsure_goals());
        goals.extend(self.lost_goals());
        goals.extend(self.pause_goals());
        goals.extend(self.old_goals());
        goals.extend(self.preview_goals());
        goals.extend(self.sender_goals());
        goals.extend(self.agree_goals());
        goals.extend(self.board_goals());
        goals.extend(self.quiet_goals());
        goals.extend(self.rhythm_goals());
        goals.extend(self.bit_goals());
        goals.extend(self.byte_goals());
        goals
    }

    fn number_goals(&self) -> Vec<Goal> {
        let mut goals = Vec::new();
        let mut goal = |group, name, count| goals.push(Goal::once(group, name, count));
        for n in (0..=number::GRADIENT_OUT_OF_RANGE).filter(|n| *n != number::FULL_TRACK) {
            let count = self.calls.iter().map(|c| c[usize::from(n)]).sum();
            goal("number", format!("{n}"), count);
        }
        for (c, numbers) in CALL_NUMBERS.iter().enumerate() {
            for n in *numbers {
                goal(CALLS[c], format!("{n}"), self.calls[c][usize::from(*n)]);
            }
        }
        for (c, counts) in self.codes.iter().enumerate() {
            for n in code_numbers(c) {
                goal("code:number", format!("{c}:{n}"), counts[usize::from(n)]);
            }
        }
        goals
    }

    fn phase_goals(&self) -> Vec<Goal> {
        let mut goals = Vec::new();
        let mut goal = |group, name, count| goals.push(Goal::once(group, name, count));
        for kind in 1..KINDS {
            goal("kind", format!("{kind}"), self.phases[kind].iter().sum());
        }
        for kind in 1..KINDS {
            for p in kind_phases(kind) {
                goal("kind:phase", format!("{kind}:{p}"), self.phases[kind][*p]);
            }
        }
        for (from, to) in MOVES {
            let count = self.moves[usize::from(from)][usize::from(to)];
            goal("phase>phase", format!("{from}>{to}"), count);
        }
        for (i, name) in ["0", "1", "more"].into_iter().enumerate() {
            goal("written off by a tick", name.into(), self.written_off[i]);
        }
        goals
    }

    /// Full and unsure tracks at every kind.
    fn unsure_goals(&self) -> Vec<Goal> {
        let mut goals = Vec::new();
        let mut goal = |group, name, count| goals.push(Goal::once(group, name, count));
        for kind in 1..KINDS {
            for p in kind_phases(kind) {
                let count = self.unsure.phase(kind, *p);
                goal("swept, kind:phase", format!("{kind}:{p}"), count);
            }
        }
        for (met, group, name) in Met::ALL {
            let of_booms = matches!(met, Met::BoomReport);
            for kind in (1..KINDS).filter(|kind| !of_booms || has_booms(*kind)) {
                goal(group, format!("{kind}:{name}"), self.unsure.met(met, kind));
            }
        }
        goals
    }

    /// Lost booms at every kind that has them.
    fn lost_goals(&self) -> Vec<Goal> {
        let mut goals = Vec::new();
        let lost = &self.lost;
        let mut goal = |group, kind: usize, name: &str, count| {
            goals.push(Goal::once(group, format!("{kind}:{name}"), count));
        };
        for (kind, booms) in [(2, 2), (3, 2), (4, 4), (6, 2)] {
            for p in kind_phases(kind) {
                let name = &p.to_string();
                goal("lost, kind:phase", kind, name, lost.phase(kind, *p));
                goal("lost bell, kind:phase", kind, name, lost.bell(kind, *p));
            }
            for b in 0..booms {
                let name = &b.to_string();
                goal("lost alone, kind:boom", kind, name, lost.stop(kind, b));
            }
            for (met, group, name) in LostMet::ALL {
                goal(group, kind, name, lost.met(met, kind));
            }
        }
        // One line of the table for a group.
        goals.sort_by_key(|goal| goal.group);
        goals
    }

    /// Each row of the table of rhythms (document 02, T-05), met by each signal that has the rhythm.
    fn rhythm_goals(&self) -> Vec<Goal> {
        let mut goals = Vec::new();
        for (s, signal) in SIGNALS.into_iter().enumerate() {
            for (beats, rhythm) in self.signals.iter().zip(RHYTHMS) {
                // Boom lamps show out of normal position only, where nothing is slow.
                if (s, rhythm) == (1, "slow") {
                    continue;
                }
                for (beat, counts) in beats.iter().enumerate() {
                    let shown = counts.sum(|b| b >> (4 + s) & 1 == 1);
                    goals.push(Goal::once(signal, format!("{rhythm} {beat}"), shown));
                }
            }
        }
        goals
    }

    fn bit_goals(&self) -> Vec<Goal> {
        let mut goals = Vec::new();
        for (i, mask) in PANEL_BITS.into_iter().enumerate() {
            for bit in (0..8).filter(|bit| mask >> bit & 1 == 1) {
                for value in 0..2 {
                    let count = self.bytes[i].sum(|b| b >> bit & 1 == value);
                    let name = format!("{i}.{bit}={value}");
                    goals.push(Goal::once("panel byte.bit=value", name, count));
                }
            }
        }
        goals
    }

    /// Every byte as every flag and as every boom report, in plants handed to a call.
    fn byte_goals(&self) -> Vec<Goal> {
        let flags = WITH_PLANT.map(|call| {
            let counts = self.flags[call as usize].counts();
            handed(call, "flag bytes", &USES, &counts, &FlagBytes::ALL)
        });
        let booms = WITH_PLANT.map(|call| {
            let counts = self.booms[call as usize].counts();
            handed(call, "boom bytes", &BY_KIND, &counts, &BoomBytes::ALL)
        });
        flags.into_iter().chain(booms).flatten().collect()
    }

    /// The things not reached.
    pub fn missing(&self) -> Vec<String> {
        let left = self.goals().into_iter().filter(|g| !g.is_reached());
        left.map(|g| format!("{} {}", g.group, g.cell())).collect()
    }

    /// How many things were reached, and how many there are.
    pub fn reached(&self) -> (usize, usize) {
        let goals = self.goals();
        let reached = goals.iter().filter(|g| g.is_reached()).count();
        (reached, goals.len())
    }

    /// A line or more per group: each thing and how often it was reached.
    pub fn table(&self) -> String {
        let mut text = String::new();
        let (mut group, mut width) = ("", 0);
        for g in self.goals() {
            let cell = format!("  {}", g.cell());
            if g.group != group || width + cell.len() > TABLE_WIDTH {
                let head = if g.group == group { "" } else { g.group };
                let _ = write!(text, "\n{head:<22}");
                (group, width) = (g.group, 22);
            }
            width += cell.len();
            text.push_str(&cell);
        }
        let (reached, all) = self.reached();
        let _ = writeln!(text, "\n{:<24}{}", "panels drawn", self.panels);
        let _ = writeln!(text, "{:<24}{reached} of {all}", "reached");
        text
    }
}

const TABLE_WIDTH: usize = 110;

/// A count as people read it: 734, 12k, 3.4M.
fn short(count: u64) -> String {
    match count {
        0..=9_999 => format!("{count}"),
        10_000..=999_999 => format!("{}k", count / 1000),
        _ => format!("{}.{}M", count / 1_000_000, count / 100_000 % 10),
    }
}
