//! Plants with exactly one kind of spoilt number.

use crate::books::{entry, give_pauses};
use crate::old::give_old_sheets;
use crate::plants::{crossing, plant};
use crate::rng::Rng;
use engine::{boom, phase, Crossing, Entry, Plant, Site};

macro_rules! spoils {
    ($($name:ident)*) => {
        /// Which number is spoilt.
        #[derive(Clone, Copy, PartialEq, Debug)]
        pub enum Spoil { $($name,)* }

        impl Spoil {
            pub const ALL: &'static [Spoil] = &[$(Spoil::$name,)*];
        }
    };
}

spoils! {
    CountZero CountOver Kind Tracks Mask Pre Gap GapWithoutBooms
    EntryPastKind EntryPastTracks EntryPastMask EntryPastPre EntryPastGap
    Beat TooManyTrains WaitingOnPlain RouteOnPlain
    CallingOffTrack WaitingOffTrack RouteOffTrack OccupiedOffTrack UnsureOffTrack
    Route Occupied Unsure Lamp Kiosk Operator
    BoomReport LackingBoom Countdown Out
    PhaseOver RightDownWithoutLeft RaisingLights
    WarningTimerZero WarningTimerOver GapTimerZero GapTimerOver StillTimer
    PastCalling PastWaiting PastRoute PastOccupied PastUnsure PastBooms PastLamps
    PastKiosk PastOperator PastCountdown PastPhase PastTimer PastOut
    Pause EntryPastPause LeftOver LeftOutside LeftWithoutPause PastLeft
    OldPre BoomLamp LackingBoomLamp PastBoomLamp
}

impl Spoil {
    /// Any of them; those of document 02, T-06 and T-09, which come last, by numbers aside.
    pub fn any(rng: &mut Rng) -> Spoil {
        let (older, latest) = Spoil::ALL.split_at(Spoil::OldPre as usize);
        let (first, later) = older.split_at(Spoil::Pause as usize);
        rng.pick_or_latest(first, later, latest)
    }

    /// Any of the settings.
    pub fn of_settings(rng: &mut Rng) -> Spoil {
        let first = &Spoil::ALL[..=Spoil::EntryPastGap as usize];
        let later = [Spoil::Pause, Spoil::EntryPastPause];
        rng.pick_or_latest(first, &later, &[Spoil::OldPre])
    }
}

/// A plant in range but for one number.
pub fn spoilt_plant(rng: &mut Rng, spoil: Spoil) -> Plant {
    let mut plant = plant(rng);
    shorten(rng, &mut plant);
    let i = rng.below(plant.site.n.into()) as usize;
    let past = rng.within(plant.site.n.into()..=7) as usize;
    let e = suited(rng, spoil);
    plant.site.entries[i] = e;
    plant.crossings[i] = match rng.flag() {
        true => Crossing::fresh(&e),
        false => crossing(rng, &e),
    };
    match spoil {
        Spoil::CountZero if rng.flag() => plant = Plant::fresh(&Site::ZERO),
        Spoil::CountZero => plant.site.n = 0,
        Spoil::CountOver => plant.site.n = rng.pick(&[9, 10, 255]),
        Spoil::Beat => plant.beat = rng.pick(&[4, 5, 255]),
        _ => {
            spoil_entry(rng, &mut plant.site.entries[i], spoil);
            spoil_past_entry(rng, &mut plant.site.entries[past], spoil);
            spoil_tracks(rng, &e, &mut plant.crossings[i], spoil);
            spoil_flags(rng, &e, &mut plant.crossings[i], spoil);
            spoil_phase(rng, &e, &mut plant.crossings[i], spoil);
            spoil_left(rng, &e, &mut plant.crossings[i], spoil);
            spoil_boom_lamps(rng, &mut plant.crossings[i], spoil);
            spoil_past(rng, &mut plant.crossings[past], spoil);
        }
    }
    plant
}

/// Leaves at least one record past n.
fn shorten(rng: &mut Rng, plant: &mut Plant) {
    if plant.site.n == 8 {
        plant.site.n = rng.within(1..=7) as u8;
        for i in usize::from(plant.site.n)..8 {
            plant.site.entries[i] = Entry::ZERO;
            plant.crossings[i] = Crossing::ZERO;
        }
    }
}

/// Settings under which this number can be spoilt alone.
fn suited(rng: &mut Rng, spoil: Spoil) -> Entry {
    let mut e = entry(rng, false);
    give_pauses(rng.aside(), std::slice::from_mut(&mut e));
    let kind = match spoil {
        Spoil::Gap | Spoil::GapTimerZero | Spoil::GapTimerOver => 4,
        Spoil::GapWithoutBooms | Spoil::RightDownWithoutLeft => rng.within(1..=3) as u8,
        Spoil::LackingBoom => rng.within(1..=3) as u8,
        Spoil::BoomReport => rng.within(2..=4) as u8,
        Spoil::RaisingLights => 1,
        _ => e.kind,
    };
    e.kind = kind;
    let old = rng.aside().aside();
    e.gap = if kind == 4 {
        rng.within(1..=90) as u16
    } else {
        0
    };
    match spoil {
        Spoil::CallingOffTrack | Spoil::WaitingOffTrack => e.tracks = e.tracks.min(3),
        Spoil::RouteOffTrack | Spoil::OccupiedOffTrack => e.tracks = e.tracks.min(3),
        Spoil::UnsureOffTrack => e.tracks = e.tracks.min(3),
        Spoil::TooManyTrains | Spoil::Route => e.mask |= 1,
        Spoil::LeftOutside => e.pause = e.pause.max(1),
        Spoil::LeftWithoutPause => e.pause = 0,
        _ => {}
    }
    e.mask &= match spoil {
        Spoil::WaitingOnPlain | Spoil::RouteOnPlain => (1 << (e.tracks - 1)) - 1,
        _ => (1 << e.tracks) - 1,
    };
    suit_old(old, &mut e, spoil);
    e
}

/// Kind 6 where its numbers are spoilt, otherwise some under the sheet of 1959 (document 02, T-09).
fn suit_old(rng: Rng, e: &mut Entry, spoil: Spoil) {
    match spoil {
        Spoil::OldPre | Spoil::BoomLamp => (e.kind, e.pre, e.gap) = (6, 15, 0),
        _ => give_old_sheets(rng, std::slice::from_mut(e)),
    }
    if (spoil, e.kind) == (Spoil::LackingBoomLamp, 6) {
        e.kind = 5;
    }
}

/// A byte from `least` on, often at a bound.
fn byte(rng: &mut Rng, least: u8) -> u8 {
    match rng.flag() {
        true => rng.pick(&[least, 127, 128, 254, 255]),
        false => rng.within(least.into()..=255) as u8,
    }
}

fn spoil_entry(rng: &mut Rng, e: &mut Entry, spoil: Spoil) {
    match spoil {
        Spoil::Kind => e.kind = rng.pick(&[0, 7, 255]),
        Spoil::Tracks => e.tracks = rng.pick(&[0, 5, 255]),
        Spoil::Mask => e.mask |= 1 << rng.within(e.tracks.into()..=7),
        Spoil::Pre => e.pre = rng.pick(&[0, 181, 65535]),
        Spoil::Gap => e.gap = rng.pick(&[0, 91, 65535]),
        Spoil::GapWithoutBooms => e.gap = rng.pick(&[1, 90, 65535]),
        Spoil::Pause => e.pause = rng.pick(&[541, 542, 796, 65535]),
        Spoil::OldPre => e.pre = rng.pick(&[14, 14, 16, 16, 1, 5, 180, 271]),
        _ => {}
    }
}

fn spoil_past_entry(rng: &mut Rng, e: &mut Entry, spoil: Spoil) {
    match spoil {
        Spoil::EntryPastKind => e.kind = rng.pick(&[1, 4, 255]),
        Spoil::EntryPastTracks => e.tracks = rng.pick(&[1, 4, 255]),
        Spoil::EntryPastMask => e.mask = rng.pick(&[1, 8, 128]),
        Spoil::EntryPastPre => e.pre = rng.pick(&[1, 180, 256]),
        Spoil::EntryPastGap => e.gap = rng.pick(&[1, 90, 256]),
        Spoil::EntryPastPause => e.pause = rng.pick(&[1, 256, 540]),
        _ => {}
    }
}

fn spoil_tracks(rng: &mut Rng, e: &Entry, c: &mut Crossing, spoil: Spoil) {
    let last = usize::from(e.tracks) - 1;
    let off = rng.within(u32::from(e.tracks).min(3)..=3) as usize;
    let lacking = rng.within(u32::from(e.booms()).min(3)..=3) as usize;
    match spoil {
        Spoil::TooManyTrains => {
            c.calling[0] = rng.within(1..=255) as u8;
            c.waiting[0] = rng.within(256 - u32::from(c.calling[0])..=255) as u8;
        }
        Spoil::WaitingOnPlain => {
            c.waiting[last] = 1;
            c.calling[last] = c.calling[last].min(254);
        }
        Spoil::RouteOnPlain => c.route[last] = byte(rng, 1),
        Spoil::CallingOffTrack => c.calling[off] = rng.pick(&[1, 255]),
        Spoil::WaitingOffTrack => c.waiting[off] = rng.pick(&[1, 255]),
        Spoil::RouteOffTrack => c.route[off] = byte(rng, 1),
        Spoil::OccupiedOffTrack => c.occupied[off] = byte(rng, 1),
        Spoil::UnsureOffTrack if rng.flag() => c.unsure[off] = 1,
        Spoil::UnsureOffTrack => c.unsure[off] = byte(rng, 1),
        Spoil::BoomReport => {
            let b = rng.below(e.booms().into()) as usize;
            c.booms[b] = rng.pick(&[boom::LOST + 1, 5, 255]);
        }
        Spoil::LackingBoom => c.booms[lacking] = rng.pick(&[1, 2, boom::LOST, 255]),
        Spoil::Countdown => c.countdown = rng.pick(&[271, 526, 65535]),
        Spoil::Out => c.out = rng.pick(&[1081, 1336, 65535]),
        _ => {}
    }
}

/// A flag that may be set, but neither to 0 nor to 1.
fn spoil_flags(rng: &mut Rng, e: &Entry, c: &mut Crossing, spoil: Spoil) {
    let track = rng.below(e.tracks.into()) as usize;
    match spoil {
        Spoil::Route => c.route[0] = byte(rng, 2),
        Spoil::Occupied => c.occupied[track] = byte(rng, 2),
        Spoil::Unsure => c.unsure[track] = byte(rng, 2),
        Spoil::Lamp => c.lamps[rng.below(5) as usize] = byte(rng, 2),
        Spoil::Kiosk => c.kiosk = byte(rng, 2),
        Spoil::Operator => c.operator = byte(rng, 2),
        _ => {}
    }
}

/// A number above `max`.
fn over(rng: &mut Rng, max: u16) -> u16 {
    rng.pick(&[max + 1, max + 256, 65535])
}

fn spoil_phase(rng: &mut Rng, e: &Entry, c: &mut Crossing, spoil: Spoil) {
    let (phase, timer) = match spoil {
        Spoil::PhaseOver => (rng.pick(&[5, 6, 255]), 0),
        Spoil::RightDownWithoutLeft => (phase::RIGHT_DOWN, rng.pick(&[0, 1])),
        Spoil::RaisingLights => (phase::RAISING, 0),
        Spoil::WarningTimerZero => (phase::WARNING, 0),
        Spoil::WarningTimerOver => (phase::WARNING, over(rng, e.pre)),
        Spoil::GapTimerZero => (phase::RIGHT_DOWN, 0),
        Spoil::GapTimerOver => (phase::RIGHT_DOWN, over(rng, e.gap)),
        Spoil::StillTimer if !e.has_booms() => (rng.pick(&[0, 3]), 1),
        Spoil::StillTimer => (rng.pick(&[0, 3, 4]), rng.pick(&[1, 65535])),
        _ => return,
    };
    (c.phase, c.timer, c.left) = (phase, timer, 0);
}

/// Ticks left to motorists: more than M, out of phase 0, or without M (document 02, T-06).
fn spoil_left(rng: &mut Rng, e: &Entry, c: &mut Crossing, spoil: Spoil) {
    let outside: &[(u8, u16)] = match e.booms() {
        0 => &[(phase::WARNING, 1), (phase::ALL_DOWN, 0)],
        4 => &[(phase::RIGHT_DOWN, 1), (phase::RAISING, 0)],
        _ => &[(phase::WARNING, 1), (phase::RAISING, 0)],
    };
    let ((phase, timer), left) = match spoil {
        Spoil::LeftOver => ((phase::OPEN, 0), over(rng, e.pause)),
        Spoil::LeftWithoutPause => ((phase::OPEN, 0), rng.pick(&[1, 2, 540])),
        Spoil::LeftOutside => (rng.pick(outside), rng.pick(&[1, e.pause])),
        _ => return,
    };
    (c.phase, c.timer, c.left) = (phase, timer, left);
}

/// A boom lamp that is neither whole nor dead, or that is not there (document 02, T-09).
fn spoil_boom_lamps(rng: &mut Rng, c: &mut Crossing, spoil: Spoil) {
    let least = match spoil {
        Spoil::BoomLamp => 2,
        Spoil::LackingBoomLamp => 1,
        _ => return,
    };
    let value = byte(rng, least);
    c.lamps[rng.within(5..=6) as usize] = value;
}

fn spoil_past(rng: &mut Rng, c: &mut Crossing, spoil: Spoil) {
    let i = rng.below(4) as usize;
    match spoil {
        Spoil::PastCalling => c.calling[i] = 1,
        Spoil::PastWaiting => c.waiting[i] = 1,
        Spoil::PastRoute => c.route[i] = byte(rng, 1),
        Spoil::PastOccupied => c.occupied[i] = byte(rng, 1),
        Spoil::PastUnsure => c.unsure[i] = byte(rng, 1),
        Spoil::PastBooms => c.booms[i] = rng.pick(&[1, 2, boom::LOST, 255]),
        Spoil::PastLamps if rng.flag() => c.lamps[..5].fill(1),
        Spoil::PastLamps => c.lamps[rng.below(5) as usize] = byte(rng, 1),
        Spoil::PastBoomLamp => c.lamps[5 + i % 2] = byte(rng, 1),
        Spoil::PastKiosk => c.kiosk = byte(rng, 1),
        Spoil::PastOperator => c.operator = byte(rng, 1),
        Spoil::PastCountdown => c.countdown = rng.pick(&[1, 256, 270]),
        Spoil::PastPhase => c.phase = rng.pick(&[1, 3, 255]),
        Spoil::PastTimer => c.timer = rng.pick(&[1, 256]),
        Spoil::PastLeft => c.left = rng.pick(&[1, 256, 540]),
        Spoil::PastOut => c.out = rng.pick(&[1, 256, 901]),
        _ => {}
    }
}
