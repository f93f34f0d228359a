//! The constants of include/wilzhoram.h, which says what each stands for: `boom::UP` is
//! WILZHORAM_BOOM_UP there, `book_length` WILZHORAM_BOOK_LENGTH. ci/boundary holds them to it.

/// The version of these declarations; that of the library is [`version`](crate::version).
pub const VERSION: u32 = 10900;

pub const MOST_CROSSINGS: usize = 8;
/// The most events of a sheet.
pub const MOST_EVENTS: usize = 4096;
/// The most events of a sheet that is compared with another (T-07).
pub const MOST_SHIFT_EVENTS: usize = 256;

/// The bytes of a site book of n crossings.
pub const fn book_length(n: usize) -> usize {
    1 + 9 * n
}

/// The bytes of a sheet of m events.
pub const fn sheet_length(m: usize) -> usize {
    2 + 4 * m
}

/// The bytes of a panel of n crossings; those of crossing i begin at `panel_length(i)`.
pub const fn panel_length(n: usize) -> usize {
    16 * n
}

/// What every call answers: taken, or why it was refused.
pub mod number {
    pub const TAKEN: u8 = 0;
    pub const BAD_BOOK_LENGTH: u8 = 1;
    pub const BAD_COUNT: u8 = 2;
    pub const BAD_SETTING: u8 = 3;
    pub const BAD_SHEET_LENGTH: u8 = 4;
    pub const UNKNOWN_CODE: u8 = 5;
    pub const UNKNOWN_CROSSING: u8 = 6;
    pub const UNKNOWN_PLACE: u8 = 7;
    pub const UNKNOWN_VALUE: u8 = 8;
    /// No call gives it (T-01).
    pub const TRACK_FULL: u8 = 9;
    pub const NO_TRAIN: u8 = 10;
    pub const TRAIN_CALLING: u8 = 11;
    pub const NOT_CLEAR: u8 = 12;
    pub const NOT_DEPENDENT: u8 = 13;
    pub const BAD_OUTPUT_LENGTH: u8 = 14;
    pub const OUT_OF_RANGE: u8 = 15;
    pub const UNKNOWN_SENDER: u8 = 16;
    pub const NO_RIGHT: u8 = 17;
    pub const SHIFT_TOO_LONG: u8 = 18;
    pub const BAD_SPEED: u8 = 19;
    pub const BAD_RETARDATION: u8 = 20;
    pub const BAD_GRADIENT: u8 = 21;
}

/// Kinds of a crossing; the last two are under the sheet of 1959 (T-09).
pub mod kind {
    pub const LIGHTS: u8 = 1;
    pub const HALF: u8 = 2;
    pub const TWO_FULL: u8 = 3;
    pub const FOUR_FULL: u8 = 4;
    pub const OLD_LIGHTS: u8 = 5;
    pub const OLD_HALF: u8 = 6;
}

/// Codes of an event.
pub mod code {
    pub const TICK: u8 = 0;
    pub const STRIKE_IN: u8 = 1;
    pub const PASSAGE: u8 = 2;
    pub const KIOSK_HOLD: u8 = 3;
    pub const OPERATOR_HOLD: u8 = 4;
    pub const ROUTE: u8 = 5;
    pub const APPROACH: u8 = 6;
    pub const TIME_RELEASE: u8 = 7;
    pub const BOOM_REPORT: u8 = 8;
    pub const LAMP_REPORT: u8 = 9;
}

/// Boom reports: the value of an event of code 8, and what the plant holds of each boom.
pub mod boom {
    pub const UP: u8 = 0;
    pub const MOVING: u8 = 1;
    pub const DOWN: u8 = 2;
    /// Position lost: neither up nor moving nor down (T-02).
    pub const LOST: u8 = 3;
}

/// Lamps: the place of an event of code 9, and of a flag in the plant.
pub mod lamp {
    pub const ROAD_WHITE: u8 = 0;
    pub const ROAD_RED: u8 = 1;
    pub const TRAIN_SIGNAL_RED: u8 = 2;
    pub const TRAIN_SIGNAL_WHITE: u8 = 3;
    pub const FLASHER: u8 = 4;
    /// Kind 6 alone, as the next (T-09).
    pub const BOOM_0: u8 = 5;
    pub const BOOM_1: u8 = 6;
}

/// Senders of a command (T-04); any other is unknown, number 16. Who has no right to an event gets
/// number 17, and bytes that a sender does not see are drawn as 0.
pub mod sender {
    /// May send codes 0, 1, 2, 5, 6, 8 and 9; sees every panel byte.
    pub const DETECTION: u8 = 0;
    /// May send code 3; sees every panel byte.
    pub const KIOSK: u8 = 1;
    /// The local operator: may send codes 4 and 7; sees bytes 0 and 6 to 11 of each crossing.
    pub const OPERATOR: u8 = 2;
    /// The remote centre: may send code 7, and 4 with value 1; sees what the operator does.
    pub const CENTRE: u8 = 3;
}

/// The bytes of a crossing in the panel.
pub mod panel {
    pub const ROAD: usize = 0;
    pub const LIT: usize = 1;
    pub const BELL: usize = 2;
    pub const BOOM_LAMPS: usize = 3;
    pub const RIGHT_DOWN: usize = 4;
    pub const LEFT_DOWN: usize = 5;
    pub const TRAIN_SIGNAL: usize = 6;
    pub const DISTANT: usize = 7;
    pub const RELEASED: usize = 8;
    pub const STATUS: usize = 9;
    pub const PHASE: usize = 10;
    pub const HOLDS: usize = 11;
    /// Trains, two bytes, low byte first.
    pub const CALLING: usize = 12;
    /// Trains, two bytes, low byte first.
    pub const WAITING: usize = 14;
}

/// What the road shows.
pub mod road {
    pub const DARK: u8 = 0;
    pub const WHITE: u8 = 1;
    pub const RED: u8 = 2;
}

/// Bits: lit in this beat.
pub mod lit {
    pub const ROAD: u8 = 1;
    pub const BOOM_LAMPS: u8 = 2;
    pub const TRAIN_SIGNAL: u8 = 4;
    pub const DISTANT: u8 = 8;
}

/// What the train signal shows.
pub mod train_signal {
    pub const DARK: u8 = 0;
    pub const STOP: u8 = 1;
    /// White at kinds 5 and 6 (T-09).
    pub const PASSABLE: u8 = 2;
    pub const AMBER: u8 = 3;
}

/// What the distant shows; at kinds 5 and 6 as the train signal (T-09).
pub mod distant {
    pub const DARK: u8 = 0;
    pub const VIOLET: u8 = 1;
    pub const WHITE: u8 = 2;
    pub const AMBER: u8 = 3;
}

/// Bits: status.
pub mod status {
    pub const NORMAL: u8 = 1;
    pub const SECURED: u8 = 2;
    pub const OVERDUE: u8 = 4;
}

/// Phases of a crossing.
pub mod phase {
    pub const OPEN: u8 = 0;
    pub const WARNING: u8 = 1;
    pub const RIGHT_DOWN: u8 = 2;
    pub const ALL_DOWN: u8 = 3;
    pub const RAISING: u8 = 4;
}

/// Bits: holds.
pub mod hold {
    pub const KIOSK: u8 = 1;
    pub const OPERATOR: u8 = 2;
}
