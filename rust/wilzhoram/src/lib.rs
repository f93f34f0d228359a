//! The proved engine's eight calls; include/wilzhoram.h says what each does. The types are
//! laid out as there, and every byte pattern is a value of each that a call is handed: what is
//! out of range, the calls refuse.

mod constants;

pub use constants::*;

/// The settings of one crossing. Kinds 5 and 6 are 1 and 2 under the sheet of 1959 (T-09). `pause`
/// is M, the ticks for motorists between two closures, 0 to 540 at every kind (T-06).
#[repr(C)]
#[derive(Clone, Copy, PartialEq, Debug)]
pub struct Entry {
    pub kind: u8,
    pub tracks: u8,
    pub mask: u8,
    pub pre: u16,
    pub gap: u16,
    pub pause: u16,
}

/// The settings of a plant; the entries past `n` all zero.
#[repr(C)]
#[derive(Clone, Copy, PartialEq, Debug)]
pub struct Site {
    pub n: u8,
    pub entries: [Entry; MOST_CROSSINGS],
}

/// What the plant holds for one crossing. Each byte of route, occupied, unsure, lamps, kiosk
/// and operator is a flag, 0 or 1; any other is out of range, number 15. Lamps 5 and 6 are those of
/// booms 0 and 1 of kind 6, elsewhere 0 (T-09). `left` are the ticks left to motorists, 0 to M in
/// phase 0 and 0 in any other (T-06). `out` are the ticks out of normal, 0 to 1,080 (T-09).
#[repr(C)]
#[derive(Clone, Copy, PartialEq, Debug)]
pub struct Crossing {
    pub calling: [u8; 4],
    pub waiting: [u8; 4],
    pub route: [u8; 4],
    pub occupied: [u8; 4],
    pub unsure: [u8; 4],
    pub booms: [u8; 4],
    pub lamps: [u8; 7],
    pub kiosk: u8,
    pub operator: u8,
    pub countdown: u16,
    pub phase: u8,
    pub timer: u16,
    pub left: u16,
    pub out: u16,
}

/// The plant: it goes in and comes back by value.
#[repr(C)]
#[derive(Clone, Copy, PartialEq, Debug)]
pub struct Plant {
    pub site: Site,
    pub beat: u8,
    pub crossings: [Crossing; MOST_CROSSINGS],
}

/// An event: any four bytes.
#[repr(C)]
#[derive(Clone, Copy, PartialEq, Debug)]
pub struct Event {
    pub code: u8,
    pub crossing: u8,
    pub place: u8,
    pub value: u8,
}

/// What reading a book gives.
#[repr(C)]
#[derive(Clone, Copy, PartialEq, Debug)]
pub struct Reading {
    pub number: u8,
    pub plant: Plant,
}

/// What an event gives.
#[repr(C)]
#[derive(Clone, Copy, PartialEq, Debug)]
pub struct Answer {
    pub number: u8,
    /// Trains written off.
    pub written: u32,
    pub plant: Plant,
}

/// What a preview gives; no plant comes back.
#[repr(C)]
#[derive(Clone, Copy, PartialEq, Debug)]
pub struct Preview {
    pub number: u8,
    /// Trains that the event would write off.
    pub written: u32,
}

/// What a sheet run gives.
#[repr(C)]
#[derive(Clone, Copy, PartialEq, Debug)]
pub struct Run {
    pub number: u8,
    pub plant: Plant,
    pub taken: u16,
    pub refused: u16,
    /// Trains written off.
    pub written: u32,
}

/// What the comparison of two sheets gives (T-07). `stretch` is the first that fails, counted from
/// 0; 0 where the sheets agree or the call is refused.
#[repr(C)]
#[derive(Clone, Copy, PartialEq, Debug)]
pub struct Agreement {
    pub number: u8,
    pub agreed: bool,
    pub stretch: u16,
}

/// What the distance of an arrow board gives (T-08): metres, a multiple of 10; 0 where the call is
/// refused.
#[repr(C)]
#[derive(Clone, Copy, PartialEq, Debug)]
pub struct BoardDistance {
    pub number: u8,
    pub distance: u16,
}

/// A slice goes as its first byte and its length.
mod c {
    use super::{Agreement, Answer, BoardDistance, Event, Plant, Preview, Reading, Run, Site};

    extern "C" {
        #[link_name = "wilzhoram_version_10900"]
        pub fn wilzhoram_version() -> u32;
        pub fn wilzhoram_read(book: *const u8, length: usize) -> Reading;
        pub fn wilzhoram_write(site: Site, book: *mut u8, length: usize) -> u8;
        pub fn wilzhoram_event(plant: Plant, sender: u8, event: Event) -> Answer;
        pub fn wilzhoram_draw(plant: Plant, sender: u8, panel: *mut u8, length: usize) -> u8;
        pub fn wilzhoram_preview(
            plant: Plant,
            sender: u8,
            event: Event,
            panel: *mut u8,
            length: usize,
        ) -> Preview;
        pub fn wilzhoram_run(
            plant: Plant,
            sheet: *const u8,
            sheet_length: usize,
            panel: *mut u8,
            panel_length: usize,
        ) -> Run;
        pub fn wilzhoram_agree(
            hut: *const u8,
            hut_length: usize,
            cabin: *const u8,
            cabin_length: usize,
        ) -> Agreement;
        pub fn wilzhoram_board_distance(
            speed: u16,
            retardation: u16,
            gradient: i16,
        ) -> BoardDistance;
    }
}

/// The version of the library, [`VERSION`]: the linker knows it by a name that holds the version, so
/// that a program which calls this does not link with a library of another one.
pub fn version() -> u32 {
    // SAFETY: it takes nothing.
    unsafe { c::wilzhoram_version() }
}

/// Reads a site book of 1 + 9n bytes; one without M is torn, number 1 (T-06).
pub fn read(book: &[u8]) -> Reading {
    // SAFETY: the pointer and the length are those of one slice, lent for the call.
    unsafe { c::wilzhoram_read(book.as_ptr(), book.len()) }
}

/// Writes settings as a site book of 1 + 9n bytes.
pub fn write(site: Site, book: &mut [u8]) -> u8 {
    // SAFETY: as in `read`.
    unsafe { c::wilzhoram_write(site, book.as_mut_ptr(), book.len()) }
}

/// Applies one event of a sender.
pub fn event(plant: Plant, sender: u8, event: Event) -> Answer {
    // SAFETY: all go by value, laid out as C does.
    unsafe { c::wilzhoram_event(plant, sender, event) }
}

/// Draws what a sender sees of the panel of 16n bytes.
pub fn draw(plant: Plant, sender: u8, panel: &mut [u8]) -> u8 {
    // SAFETY: as in `read`.
    unsafe { c::wilzhoram_draw(plant, sender, panel.as_mut_ptr(), panel.len()) }
}

/// Draws what a sender would see after its event, and applies nothing (T-03).
pub fn preview(plant: Plant, sender: u8, event: Event, panel: &mut [u8]) -> Preview {
    let (out, length) = (panel.as_mut_ptr(), panel.len());
    // SAFETY: as in `read`.
    unsafe { c::wilzhoram_preview(plant, sender, event, out, length) }
}

/// Applies each event of a sheet in turn, with every right, and draws the whole panel after the
/// last.
pub fn run(plant: Plant, sheet: &[u8], panel: &mut [u8]) -> Run {
    let (events, out) = (sheet.as_ptr(), panel.as_mut_ptr());
    // SAFETY: as in `read`; a lent panel and a lent sheet never overlap.
    unsafe { c::wilzhoram_run(plant, events, sheet.len(), out, panel.len()) }
}

/// Compares the hut's sheet with the cabin's, stretch by stretch between ticks (T-07). One of more
/// than 256 events gets number 18.
pub fn agree(hut: &[u8], cabin: &[u8]) -> Agreement {
    let (first, second) = (hut.as_ptr(), cabin.as_ptr());
    // SAFETY: as in `read`; both sheets are only read, and may overlap or be the same.
    unsafe { c::wilzhoram_agree(first, hut.len(), second, cabin.len()) }
}

/// How far before a crossing its arrow board stands, up to a full 10 m (T-08): by the speed in km/h,
/// the retardation in mm/s2 and the gradient in per mille, a fall negative. Number 19 for a speed
/// that is not 1 to 120, 20 for a retardation not 500 to 1,500, 21 for a gradient not -30 to 30.
pub fn board_distance(speed: u16, retardation: u16, gradient: i16) -> BoardDistance {
    // SAFETY: all go by value, as numbers of these sizes.
    unsafe { c::wilzhoram_board_distance(speed, retardation, gradient) }
}
