//! Counters of what previews met (document 02, T-03).

use crate::coverage::{own_answer, place, sums, ByteCounts, NUMBERS};
use crate::senders::Command;
use engine::crossing::settle;
use engine::{code, draw, number, panel_len, Plant, PANEL};

/// How many bytes were lent, right ones first.
pub(crate) const LENT: [&str; 8] = ["16n", "0", "1", "16n-1", "16n+1", "16n+16", "more", "fewer"];

/// The place among them.
fn lent(len: usize, n: u8) -> usize {
    let right = panel_len(n);
    match len {
        _ if len == right => 0,
        0 | 1 => 1 + len,
        _ if len + 1 == right => 3,
        _ if len == right + 1 => 4,
        _ if len == right + PANEL => 5,
        _ if len > right => 6,
        _ => 7,
    }
}

/// How often.
#[derive(Clone, Default)]
pub(crate) struct PreviewCounts {
    /// The codes handed over.
    pub(crate) bytes: ByteCounts,
    /// By code, 10 for the rest, and number.
    pub(crate) codes: [[u64; NUMBERS]; 11],
    /// By the bytes lent and the number that the event itself would get.
    pub(crate) lent: [[u64; NUMBERS]; LENT.len()],
    /// The plant's beat spoilt: by the number that the event itself would get.
    pub(crate) spoilt: [u64; NUMBERS],
    /// Taken, and the panel not what its sender sees of the plant as it stands: by code.
    pub(crate) moved: [u64; 10],
    /// Taken: trains written off by a tick and by a strike-in, 0, 1 and more.
    pub(crate) written_off: [[u64; 3]; 2],
    /// Refused with this number, a tick and a strike-in that would else write off.
    pub(crate) withheld: [[u64; NUMBERS]; 2],
    /// By n: taken, and refused for the frame.
    pub(crate) sizes: [[u64; 9]; 2],
    /// Taken beside a crossing that would move if it settled.
    pub(crate) neighbours: u64,
    /// Within lists of events, by number.
    pub(crate) lists: [u64; NUMBERS],
}

impl PreviewCounts {
    pub(crate) fn preview(
        &mut self,
        plant: &Plant,
        command: Command,
        answer: (u8, u32),
        panel: &[u8],
    ) {
        let code = command.event[0];
        self.bytes.count(code);
        self.codes[usize::from(code.min(code::LAMP_REPORT + 1))][place(answer.0)] += 1;
        let own = own_answer(plant, command).0;
        let spoilt = plant.beat > 3;
        let first = if spoilt { number::SPOILT_PLANT } else { own };
        self.lent[lent(panel.len(), plant.site.n)][place(first)] += 1;
        self.spoilt[place(own)] += u64::from(spoilt);
        match answer.0 {
            number::TAKEN if first == number::TAKEN => self.taken(plant, command, answer.1, panel),
            number::TAKEN => {}
            _ => self.refused(plant, command.event, answer.0),
        }
    }

    fn taken(&mut self, plant: &Plant, command: Command, written_off: u32, panel: &[u8]) {
        let e = command.event;
        let code = usize::from(e[0]);
        let mut before = panel.to_vec();
        if draw(plant, command.sender, &mut before) == number::TAKEN {
            self.moved[code] += u64::from(before != panel);
        }
        if let Some(counts) = self.written_off.get_mut(code) {
            counts[written_off.min(2) as usize] += 1;
        }
        self.sizes[0][usize::from(plant.site.n)] += 1;
        let settles = |i: u8| {
            let i = usize::from(i);
            let mut record = plant.crossings[i];
            settle(&mut record, &plant.site.entries[i]);
            record != plant.crossings[i]
        };
        let mut others = (0..plant.site.n).filter(|i| e[0] != code::TICK && *i != e[1]);
        self.neighbours += u64::from(others.any(settles));
    }

    fn refused(&mut self, plant: &Plant, e: [u8; 4], number: u8) {
        let meant = match e {
            [code::STRIKE_IN, c, t, _] => [code::STRIKE_IN, c, t, 0],
            _ => [code::TICK, 0, 0, 0],
        };
        if let Some(counts) = self.withheld.get_mut(usize::from(e[0])) {
            let (_, written_off) = own_answer(plant, Command::rightful(meant));
            counts[place(number)] += u64::from(written_off > 0);
        }
        if let (number::WRONG_FRAME, 1..=8) = (number, plant.site.n) {
            self.sizes[1][usize::from(plant.site.n)] += 1;
        }
    }

    pub(crate) fn in_list(&mut self, number: u8) {
        self.lists[place(number)] += 1;
    }

    pub(crate) fn add(&mut self, other: &PreviewCounts) {
        self.bytes.add(&other.bytes);
        sums(self.codes.as_flattened_mut(), other.codes.as_flattened());
        sums(self.lent.as_flattened_mut(), other.lent.as_flattened());
        sums(&mut self.spoilt, &other.spoilt);
        sums(&mut self.moved, &other.moved);
        sums(
            self.written_off.as_flattened_mut(),
            other.written_off.as_flattened(),
        );
        sums(
            self.withheld.as_flattened_mut(),
            other.withheld.as_flattened(),
        );
        sums(self.sizes.as_flattened_mut(), other.sizes.as_flattened());
        self.neighbours += other.neighbours;
        sums(&mut self.lists, &other.lists);
    }
}
