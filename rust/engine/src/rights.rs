//! Who sends a command: what each may send, and which panel bytes each sees (document 02, T-04).

use super::types::{code, sender};

/// The codes of detection.
const DETECTED: [u8; 7] = [
    code::TICK,
    code::STRIKE_IN,
    code::PASSAGE,
    code::ROUTE,
    code::APPROACH,
    code::BOOM_REPORT,
    code::LAMP_REPORT,
];

/// Where an event comes from, and for whom a panel is drawn.
#[derive(Clone, Copy, PartialEq, Debug)]
pub enum Source {
    /// A sheet carries no sender: it has every right, and its panel all bytes.
    Sheet,
    Detection,
    Kiosk,
    Operator,
    Centre,
}

impl Source {
    /// The sender of this number, where it is known.
    pub fn sender(number: u8) -> Option<Source> {
        match number {
            sender::DETECTION => Some(Source::Detection),
            sender::KIOSK => Some(Source::Kiosk),
            sender::OPERATOR => Some(Source::Operator),
            sender::CENTRE => Some(Source::Centre),
            _ => None,
        }
    }

    /// Whether events of this code and value may come from here.
    #[inline]
    pub fn may_send(self, code: u8, value: u8) -> bool {
        match self {
            Source::Sheet => true,
            Source::Detection => DETECTED.contains(&code),
            Source::Kiosk => code == code::KIOSK_HOLD,
            Source::Operator => code == code::OPERATOR_HOLD || code == code::TIME_RELEASE,
            Source::Centre => match code {
                code::OPERATOR_HOLD => value == 1,
                code::TIME_RELEASE => true,
                _ => false,
            },
        }
    }

    /// Whether this byte of each crossing is shown; the others are drawn as 0.
    pub fn sees(self, byte: usize) -> bool {
        match self {
            Source::Sheet | Source::Detection | Source::Kiosk => true,
            Source::Operator | Source::Centre => matches!(byte, 0 | 6..=11),
        }
    }
}
