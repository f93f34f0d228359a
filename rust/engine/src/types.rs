//! The settings and what the plant holds.

/// Most events in a sheet.
pub const MAX_EVENTS: usize = 4096;

/// The numbers a call answers with.
pub mod number {
    pub const TAKEN: u8 = 0;
    pub const TORN_BOOK: u8 = 1;
    pub const OVER_LONG: u8 = 2;
    pub const WRONG_SETTING: u8 = 3;
    pub const TORN_SHEET: u8 = 4;
    pub const UNKNOWN_CODE: u8 = 5;
    pub const UNKNOWN_CROSSING: u8 = 6;
    pub const UNKNOWN_PLACE: u8 = 7;
    pub const UNKNOWN_VALUE: u8 = 8;
    /// No call gives it any more: document 02, T-01.
    pub const FULL_TRACK: u8 = 9;
    pub const GHOST_PASSAGE: u8 = 10;
    pub const TRAIN_CALLING: u8 = 11;
    pub const NOT_CLEAR: u8 = 12;
    pub const PLAIN_TRACK: u8 = 13;
    pub const WRONG_FRAME: u8 = 14;
    pub const SPOILT_PLANT: u8 = 15;
    /// Document 02, T-04, as the next.
    pub const UNKNOWN_SENDER: u8 = 16;
    pub const NO_RIGHT: u8 = 17;
    /// Document 02, T-07.
    pub const SHIFT_TOO_LONG: u8 = 18;
    /// Document 02, T-08, as the next two.
    pub const SPEED_OUT_OF_RANGE: u8 = 19;
    pub const RETARDATION_OUT_OF_RANGE: u8 = 20;
    pub const GRADIENT_OUT_OF_RANGE: u8 = 21;
}

/// The event codes.
pub mod code {
    pub const TICK: u8 = 0;
    pub const STRIKE_IN: u8 = 1;
    pub const PASSAGE: u8 = 2;
    pub const KIOSK_HOLD: u8 = 3;
    pub const OPERATOR_HOLD: u8 = 4;
    pub const ROUTE: u8 = 5;
    pub const APPROACH: u8 = 6;
    pub const TIME_RELEASE: u8 = 7;
    pub const BOOM_REPORT: u8 = 8;
    pub const LAMP_REPORT: u8 = 9;
}

/// The senders of a command (document 02, T-04).
pub mod sender {
    pub const DETECTION: u8 = 0;
    pub const KIOSK: u8 = 1;
    /// The local operator.
    pub const OPERATOR: u8 = 2;
    /// The remote centre.
    pub const CENTRE: u8 = 3;
}

/// The phases of a crossing.
pub mod phase {
    /// Road open.
    pub const OPEN: u8 = 0;
    /// Pre-ringing, timer 1 to F.
    pub const WARNING: u8 = 1;
    /// Right booms ordered down, kind 4 only, timer 1 to G.
    pub const RIGHT_DOWN: u8 = 2;
    /// All booms ordered down.
    pub const ALL_DOWN: u8 = 3;
    /// Booms rising, where there are any.
    pub const RAISING: u8 = 4;
}

/// The reports of a boom.
pub mod boom {
    pub const UP: u8 = 0;
    pub const MOVING: u8 = 1;
    pub const DOWN: u8 = 2;
    /// Position lost, which is none of the others (document 02, T-02).
    pub const LOST: u8 = 3;
}

/// Settings of one crossing.
#[repr(C)]
#[derive(Clone, Copy, PartialEq, Debug)]
pub struct Entry {
    /// 1 lights only, 2 half booms, 3 two full booms, 4 four full booms; under the sheet of 1959
    /// 5 lights only, 6 half booms (document 02, T-09).
    pub kind: u8,
    /// 1 to 4.
    pub tracks: u8,
    /// Bit t is set where track t depends on a route.
    pub mask: u8,
    /// F, pre-ringing in ticks, 1 to 180; 15 for kind 6.
    pub pre: u16,
    /// G, right booms to left in ticks; kind 4 only.
    pub gap: u16,
    /// M, for motorists between two closures in ticks, 0 to 540 (document 02, T-06).
    pub pause: u16,
}

impl Entry {
    pub const ZERO: Entry = Entry {
        kind: 0,
        tracks: 0,
        mask: 0,
        pre: 0,
        gap: 0,
        pause: 0,
    };

    /// How many booms this kind has.
    #[inline]
    pub fn booms(&self) -> u8 {
        match self.kind {
            2 | 3 | 6 => 2,
            4 => 4,
            _ => 0,
        }
    }

    #[inline]
    pub fn has_booms(&self) -> bool {
        self.booms() > 0
    }

    /// Booms left of the road too, which go down after the right ones.
    #[inline]
    pub fn has_left_booms(&self) -> bool {
        self.booms() > 2
    }

    #[inline]
    pub fn has_half_booms(&self) -> bool {
        matches!(self.kind, 2 | 6)
    }

    /// Under the sheet of 1959, source document 003 (document 02, T-09).
    #[inline]
    pub fn is_old(&self) -> bool {
        matches!(self.kind, 5 | 6)
    }

    /// Booms under that sheet: their lamps are steady and report, and F is fixed.
    #[inline]
    pub fn has_old_booms(&self) -> bool {
        self.is_old() && self.has_booms()
    }

    /// How many lamps report.
    #[inline]
    pub fn lamps(&self) -> u8 {
        match self.has_old_booms() {
            true => 7,
            false => 5,
        }
    }

    /// Whether `track` depends on a route.
    #[inline]
    pub fn depends(&self, track: usize) -> bool {
        self.mask >> track & 1 == 1
    }
}

/// Settings of the whole plant: `n` crossings, the entries past `n` all zero.
#[repr(C)]
#[derive(Clone, Copy, PartialEq, Debug)]
pub struct Site {
    pub n: u8,
    pub entries: [Entry; 8],
}

impl Site {
    pub const ZERO: Site = Site {
        n: 0,
        entries: [Entry::ZERO; 8],
    };
}

/// What the plant holds for one crossing. A flag is a byte: 0 no, 1 yes, no other in range.
#[repr(C)]
#[derive(Clone, Copy, PartialEq, Debug)]
pub struct Crossing {
    /// Trains that call for closing, per track.
    pub calling: [u8; 4],
    /// Trains that wait for a route, per dependent track.
    pub waiting: [u8; 4],
    /// Route set, a flag per dependent track.
    pub route: [u8; 4],
    /// Approach occupied, a flag per track.
    pub occupied: [u8; 4],
    /// Unsure, a flag per track: a strike-in found it full (document 02, T-01).
    pub unsure: [u8; 4],
    /// Last boom reports: 0 and 1 right of the road, 2 and 3 left.
    pub booms: [u8; 4],
    /// Lamp last reported whole, a flag each: road white, road red, train red or amber, train
    /// white, flasher; where old booms are, those of boom 0 and boom 1, elsewhere 0 (document 02,
    /// T-09).
    pub lamps: [u8; 7],
    /// Kiosk hold on, a flag.
    pub kiosk: u8,
    /// Operator hold on, a flag.
    pub operator: u8,
    /// Ticks left of a time release, 0 to 270.
    pub countdown: u16,
    pub phase: u8,
    pub timer: u16,
    /// Ticks left to motorists, 0 to M in phase 0, otherwise 0 (document 02, T-06).
    pub left: u16,
    /// Ticks out of normal position, 0 to 1,080 (document 02, T-09).
    pub out: u16,
}

impl Crossing {
    pub const ZERO: Crossing = Crossing {
        calling: [0; 4],
        waiting: [0; 4],
        route: [0; 4],
        occupied: [0; 4],
        unsure: [0; 4],
        booms: [boom::UP; 4],
        lamps: [0; 7],
        kiosk: 0,
        operator: 0,
        countdown: 0,
        phase: phase::OPEN,
        timer: 0,
        left: 0,
        out: 0,
    };

    /// A crossing of a fresh plant: nothing on, all its lamps whole.
    pub fn fresh(entry: &Entry) -> Crossing {
        let mut fresh = Crossing::ZERO;
        fresh.lamps[..entry.lamps().into()].fill(1);
        fresh
    }
}

/// The settings, the beat and the crossing records; records past `n` are all zero.
#[repr(C)]
#[derive(Clone, Copy, PartialEq, Debug)]
pub struct Plant {
    pub site: Site,
    pub beat: u8,
    pub crossings: [Crossing; 8],
}

impl Plant {
    /// The fresh plant of a site.
    pub fn fresh(site: &Site) -> Plant {
        let mut crossings = [Crossing::ZERO; 8];
        let entries = site.entries.iter().take(site.n.into());
        for (crossing, entry) in crossings.iter_mut().zip(entries) {
            *crossing = Crossing::fresh(entry);
        }
        Plant {
            site: *site,
            beat: 0,
            crossings,
        }
    }
}

/// The answer of a run.
#[repr(C)]
#[derive(Clone, Copy, PartialEq, Debug)]
pub struct Run {
    pub number: u8,
    pub taken: u32,
    pub refused: u32,
    pub written_off: u32,
}

impl Run {
    /// Nothing applied.
    pub fn answer(number: u8) -> Run {
        Run {
            number,
            taken: 0,
            refused: 0,
            written_off: 0,
        }
    }
}

/// The answer of a comparison of two sheets (document 02, T-07).
#[repr(C)]
#[derive(Clone, Copy, PartialEq, Debug)]
pub struct Agreement {
    pub number: u8,
    pub agreed: bool,
    /// The first stretch that fails, counted from 0; 0 where none does.
    pub stretch: u16,
}

/// The answer to where the arrow board stands (document 02, T-08).
#[repr(C)]
#[derive(Clone, Copy, PartialEq, Debug)]
pub struct BoardDistance {
    pub number: u8,
    /// Metres, a multiple of 10; 0 where the call is refused.
    pub distance: u16,
}
