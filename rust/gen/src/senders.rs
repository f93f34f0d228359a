//! Senders (document 02, T-04): an event with its sender, and senders for events and panels.

use crate::rng::Rng;
use engine::{code, sender, PANEL};

/// The known senders.
pub const KNOWN: [u8; 4] = [
    sender::DETECTION,
    sender::KIOSK,
    sender::OPERATOR,
    sender::CENTRE,
];

/// An event and its sender.
#[derive(Clone, Copy, PartialEq, Debug)]
pub struct Command {
    pub sender: u8,
    pub event: [u8; 4],
}

impl Command {
    /// The event from the first sender that may send it; where none may, from detection.
    pub fn rightful(event: [u8; 4]) -> Command {
        let commands = KNOWN.map(|sender| Command { sender, event });
        let rightful = commands.into_iter().find(|command| command.has_right());
        rightful.unwrap_or(commands[0])
    }

    /// Whether its sender may send it. A code that is unknown is nobody's.
    pub fn has_right(self) -> bool {
        let [code, _, _, value] = self.event;
        let senders: &[u8] = match code {
            code::KIOSK_HOLD => &[sender::KIOSK],
            code::OPERATOR_HOLD if value != 1 => &[sender::OPERATOR],
            code::OPERATOR_HOLD | code::TIME_RELEASE => &[sender::OPERATOR, sender::CENTRE],
            code::TICK..=code::LAMP_REPORT => &[sender::DETECTION],
            _ => &[],
        };
        senders.contains(&self.sender)
    }
}

/// Whether a sender sees all bytes of the panel.
pub fn sees_all(sender: u8) -> bool {
    [sender::DETECTION, sender::KIOSK].contains(&sender)
}

/// Leaves of a whole panel what a known sender sees.
pub fn hide(sender: u8, panel: &mut [u8]) {
    if sees_all(sender) {
        return;
    }
    for bytes in panel.chunks_exact_mut(PANEL) {
        bytes[1..6].fill(0);
        bytes[12..].fill(0);
    }
}

/// Takes the senders' numbers apart from those of the cases that they belong to.
const SENDERS: u64 = 0x7365_6e64_6572_735f;

/// The senders of one case.
pub struct Senders(Rng);

impl Senders {
    /// Those of case `index` under `seed`.
    pub fn of_case(seed: u64, index: u64) -> Senders {
        Senders(Rng::of_case(seed ^ SENDERS, index))
    }

    /// The event from one that may send it; once in eight from any known sender or from any byte.
    pub fn send(&mut self, event: [u8; 4]) -> Command {
        let sender = match self.0.below(16) {
            0 => self.0.byte(),
            1 => self.0.pick(&KNOWN),
            _ => self.rightful(event),
        };
        Command { sender, event }
    }

    /// One that may send the event.
    fn rightful(&mut self, event: [u8; 4]) -> u8 {
        let centre = Command {
            sender: sender::CENTRE,
            event,
        };
        match centre.has_right() && self.0.flag() {
            true => sender::CENTRE,
            false => Command::rightful(event).sender,
        }
    }

    /// Who looks at a panel: a known sender, once in eight any byte.
    pub fn look(&mut self) -> u8 {
        match self.0.once_in(8) {
            true => self.0.byte(),
            false => self.0.pick(&KNOWN),
        }
    }
}
