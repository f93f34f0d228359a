//! What senders should reach (document 02, T-04).

use super::Goal;
use crate::coverage::Coverage;
use crate::sent::{SentCounts, WHO};
use engine::number;

/// The senders in the table; 4 stands for all that are unknown.
const UNKNOWN: usize = WHO - 1;
/// The codes that each known sender may send; 4 the centre with one value only.
const RIGHTS: [&[usize]; UNKNOWN] = [&[0, 1, 2, 5, 6, 8, 9], &[3], &[4, 7], &[4, 7]];
/// The centre and the operator hold.
const PARTLY: (usize, usize) = (3, 4);
/// The numbers that an event can get from one who may send it.
const OWN: [u8; 9] = [0, 5, 6, 7, 8, 10, 11, 12, 13];
/// Those of them that 17 comes before, by sender.
const LATER: [&[u8]; UNKNOWN] = [
    &[0, 11, 12],
    &[0, 10, 11, 12, 13],
    &[0, 10, 13],
    &[0, 10, 11, 13],
];
/// The operator hold with each value: by sender.
const HOLDS: [[u8; 3]; UNKNOWN] = [[17, 17, 8], [17, 17, 8], [0, 0, 8], [17, 0, 8]];
/// Bytes that operator and centre see, and those that they do not.
const SEEN: [usize; 7] = [0, 6, 7, 8, 9, 10, 11];
const UNSEEN: [usize; 9] = [1, 2, 3, 4, 5, 12, 13, 14, 15];

/// The groups of a call that takes an event: taken, no right, numbers before 17, 15 to 17 before
/// others, holds.
type Groups = [&'static str; 7];
const EVENT: Groups = [
    "taken, sender:code",
    "17, sender:code",
    "before 17, sender:number",
    "15, unknown before",
    "16, unknown before",
    "17, sender before",
    "hold, sender:value:number",
];
const PREVIEW: Groups = [
    "preview, sender:code",
    "preview 17, sender:code",
    "preview, before 17",
    "preview 15, unknown",
    "preview 16, unknown",
    "preview 17, before",
    "preview, hold",
];

/// The codes that a sender may not send, at least with some value.
fn wrongs(sender: usize) -> impl Iterator<Item = usize> {
    let may = move |code: &usize| RIGHTS[sender].contains(code) && (sender, *code) != PARTLY;
    (0..10).filter(move |code| !may(code))
}

fn no_right() -> usize {
    number::NO_RIGHT.into()
}

impl SentCounts {
    /// `early` are the numbers that come before 17.
    fn goals(&self, groups: Groups, early: &[u8]) -> Vec<Goal> {
        let mut goals = Vec::new();
        let [taken, wrong, before, ..] = groups;
        let mut goal = |group, name, count| goals.push(Goal::once(group, name, count));
        for s in 0..UNKNOWN {
            for c in RIGHTS[s] {
                goal(taken, format!("{s}:{c}"), self.codes[s][*c][0]);
            }
        }
        for s in 0..UNKNOWN {
            for c in wrongs(s) {
                goal(wrong, format!("{s}:{c}"), self.codes[s][c][no_right()]);
            }
        }
        for s in 0..UNKNOWN {
            for n in early {
                let codes = wrongs(s).map(|c| self.codes[s][c][usize::from(*n)]);
                goal(before, format!("{s}:{n}"), codes.sum());
            }
            goal(before, format!("{s}:5"), self.codes[s][10][5]);
        }
        goals.extend(self.orders(groups));
        goals
    }

    /// 15, 16 and 17 before the numbers that come later, and the operator hold.
    fn orders(&self, [_, _, _, spoilt, unknown, later, hold]: Groups) -> Vec<Goal> {
        let mut goals = Vec::new();
        let mut goal = |group, name, count| goals.push(Goal::once(group, name, count));
        for (group, behind) in [spoilt, unknown].into_iter().zip(&self.behind) {
            for n in OWN {
                goal(group, format!("{n}"), behind[UNKNOWN][usize::from(n)]);
            }
        }
        for (s, numbers) in LATER.into_iter().enumerate() {
            for n in numbers {
                let count = self.behind[2][s][usize::from(*n)];
                goal(later, format!("{s}:{n}"), count);
            }
        }
        for (s, numbers) in HOLDS.into_iter().enumerate() {
            for (value, n) in numbers.into_iter().enumerate() {
                let count = self.holds[s][value][usize::from(n)];
                goal(hold, format!("{s}:{value}:{n}"), count);
            }
        }
        goals
    }
}

impl Coverage {
    pub(super) fn sender_goals(&self) -> Vec<Goal> {
        let senders = &self.senders;
        let mut goals = senders.events.goals(EVENT, &[6, 7, 8]);
        goals.extend(senders.previews.goals(PREVIEW, &[6, 7, 8, 14]));
        goals.extend(self.frame_goals());
        goals.extend(self.view_goals());
        for s in 0..UNKNOWN {
            let mut goal = |n: usize| {
                let name = format!("{s}:{n}");
                goals.push(Goal::once("list, sender:number", name, senders.lists[s][n]));
            };
            goal(0);
            goal(no_right());
        }
        let count = senders.lists[UNKNOWN][usize::from(number::UNKNOWN_SENDER)];
        goals.push(Goal::once("list, sender:number", "4:16".into(), count));
        goals
    }

    /// Right frames and wrong ones, in range and spoilt, for every sender.
    fn frame_goals(&self) -> Vec<Goal> {
        let mut goals = Vec::new();
        let counts = [
            ("drawn", &self.senders.drawn),
            ("look", &self.senders.looks),
        ];
        for (group, counts) in counts {
            for (s, frames) in counts.iter().enumerate() {
                let expected = match s {
                    UNKNOWN => [16, 16],
                    _ => [0, 14],
                };
                let frames = ["right", "wrong"].into_iter().zip(frames);
                for ((frame, counts), n) in frames.zip(expected) {
                    let goal = |n: usize| (format!("{s}:{frame}:{n}"), counts[n]);
                    let pair = [goal(n), goal(15)];
                    goals.extend(pair.map(|(name, count)| Goal::once(group, name, count)));
                }
            }
        }
        goals
    }

    /// Every sender handed over, and every byte of a view.
    fn view_goals(&self) -> Vec<Goal> {
        let senders = &self.senders;
        let handed = [
            ("event", &senders.events.bytes),
            ("draw", &senders.bytes),
            ("preview", &senders.previews.bytes),
        ];
        let handed = handed.into_iter().map(|(name, bytes)| Goal {
            group: "senders handed",
            name: name.into(),
            count: bytes.values(),
            needed: 256,
        });
        let mut goals: Vec<Goal> = handed.collect();
        let shown = ("seen, sender:byte", &senders.shown, &SEEN[..]);
        let hidden = ("unseen, sender:byte", &senders.hidden, &UNSEEN[..]);
        for (group, counts, bytes) in [shown, hidden] {
            for (s, i) in [2, 3]
                .into_iter()
                .flat_map(|s| bytes.iter().map(move |i| (s, *i)))
            {
                goals.push(Goal::once(group, format!("{s}:{i}"), counts[s - 2][i]));
            }
        }
        goals
    }
}
