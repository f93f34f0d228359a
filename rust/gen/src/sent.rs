//! Counters of who sent what and who saw what (document 02, T-04).

use crate::coverage::{own_answer, place, sums, ByteCounts, NUMBERS};
use crate::senders::{Command, KNOWN};
use engine::{code, draw, number, panel_len, sender, Plant, PANEL};

/// The known senders, and all others.
pub(crate) const WHO: usize = KNOWN.len() + 1;

/// The place of a sender among them.
fn who(sender: u8) -> usize {
    usize::from(sender).min(KNOWN.len())
}

/// How often, by number.
type Numbers = [u64; NUMBERS];

/// What was sent in one of the calls that take an event.
#[derive(Clone, Default)]
pub(crate) struct SentCounts {
    /// By sender and code, 10 for the rest.
    pub(crate) codes: [[Numbers; 11]; WHO],
    /// Refused with 15, 16 or 17: by sender, and by the number that the event would get from one
    /// who may send it. A plant which only its beat spoils counts as if it were not.
    pub(crate) behind: [[Numbers; WHO]; 3],
    /// The operator hold: by sender and value, 2 for the rest.
    pub(crate) holds: [[Numbers; 3]; WHO],
    /// The senders handed over.
    pub(crate) bytes: ByteCounts,
}

impl SentCounts {
    pub(crate) fn sent(&mut self, plant: &Plant, command: Command, number: u8) {
        let [code, _, _, value] = command.event;
        let (who, number) = (who(command.sender), place(number));
        self.bytes.count(command.sender);
        self.codes[who][usize::from(code.min(code::LAMP_REPORT + 1))][number] += 1;
        if code == code::OPERATOR_HOLD {
            self.holds[who][usize::from(value.min(2))][number] += 1;
        }
        let first = usize::from(number::SPOILT_PLANT);
        if let Some(behind) = self.behind.get_mut(number.wrapping_sub(first)) {
            let own = own_answer(plant, Command::rightful(command.event)).0;
            behind[who][place(own)] += 1;
        }
    }

    fn add(&mut self, other: &SentCounts) {
        let codes = self.codes.as_flattened_mut().as_flattened_mut();
        sums(codes, other.codes.as_flattened().as_flattened());
        let behind = self.behind.as_flattened_mut().as_flattened_mut();
        sums(behind, other.behind.as_flattened().as_flattened());
        let holds = self.holds.as_flattened_mut().as_flattened_mut();
        sums(holds, other.holds.as_flattened().as_flattened());
        self.bytes.add(&other.bytes);
    }
}

/// How often.
#[derive(Clone, Default)]
pub(crate) struct SenderCounts {
    pub(crate) events: SentCounts,
    pub(crate) previews: SentCounts,
    /// Drawings and previews: by sender, and the right frame or a wrong one.
    pub(crate) drawn: [[Numbers; 2]; WHO],
    pub(crate) looks: [[Numbers; 2]; WHO],
    /// The senders that a drawing was for.
    pub(crate) bytes: ByteCounts,
    /// Operator and centre: bytes not 0 that are seen, and unseen ones that would not be.
    pub(crate) shown: [[u64; PANEL]; 2],
    pub(crate) hidden: [[u64; PANEL]; 2],
    /// Within lists of events.
    pub(crate) lists: [Numbers; WHO],
}

impl SenderCounts {
    pub(crate) fn event(&mut self, plant: &Plant, command: Command, number: u8) {
        self.events.sent(plant, command, number);
    }

    pub(crate) fn preview(&mut self, plant: &Plant, command: Command, number: u8, panel: &[u8]) {
        self.previews.sent(plant, command, number);
        let wrong = usize::from(panel.len() != panel_len(plant.site.n));
        self.looks[who(command.sender)][wrong][place(number)] += 1;
    }

    /// A drawing for a sender answered with `number`, and the lent panel after it.
    pub(crate) fn draw(&mut self, plant: &Plant, sender: u8, number: u8, panel: &[u8]) {
        let wrong = usize::from(panel.len() != panel_len(plant.site.n));
        self.bytes.count(sender);
        self.drawn[who(sender)][wrong][place(number)] += 1;
        if let (number::TAKEN, sender::OPERATOR | sender::CENTRE) = (number, sender) {
            self.view(plant, usize::from(sender - sender::OPERATOR), panel);
        }
    }

    fn view(&mut self, plant: &Plant, desk: usize, panel: &[u8]) {
        let mut whole = panel.to_vec();
        if draw(plant, sender::DETECTION, &mut whole) != number::TAKEN {
            return;
        }
        for (i, (seen, there)) in panel.iter().zip(&whole).enumerate() {
            let counts = match (seen, there) {
                (_, 0) => continue,
                (0, _) => &mut self.hidden[desk],
                _ => &mut self.shown[desk],
            };
            counts[i % PANEL] += 1;
        }
    }

    pub(crate) fn in_list(&mut self, sender: u8, number: u8) {
        self.lists[who(sender)][place(number)] += 1;
    }

    pub(crate) fn add(&mut self, other: &SenderCounts) {
        self.events.add(&other.events);
        self.previews.add(&other.previews);
        let drawn = self.drawn.as_flattened_mut().as_flattened_mut();
        sums(drawn, other.drawn.as_flattened().as_flattened());
        let looks = self.looks.as_flattened_mut().as_flattened_mut();
        sums(looks, other.looks.as_flattened().as_flattened());
        self.bytes.add(&other.bytes);
        sums(self.shown.as_flattened_mut(), other.shown.as_flattened());
        sums(self.hidden.as_flattened_mut(), other.hidden.as_flattened());
        sums(self.lists.as_flattened_mut(), other.lists.as_flattened());
    }
}
