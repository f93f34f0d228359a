//! Seeded inputs for a crossing engine, and counters of what they reach.
//!
//! Everything follows from the seed alone, so a case is the same on every machine.

mod agreed;
mod boarded;
mod boards;
mod books;
mod booms;
mod bytes;
mod coverage;
mod ends;
mod events;
mod flags;
mod goals;
mod lost;
mod lost_met;
mod old;
mod old_met;
mod old_shown;
mod paused;
mod pauses;
mod plants;
mod previewed;
mod previews;
mod quiet;
mod quiet_grid;
mod quiet_met;
mod quiet_walk;
mod rights;
mod rng;
mod senders;
mod sent;
mod sheets;
mod shift_grid;
mod shifts;
mod spoilt;
mod stretches;
mod swept;
mod traffic;
mod unsure;

pub use boards::{board, board_edges, board_grid, Board, FULL, IN_RANGE, NEAR_FULL};
pub use books::{
    all_lengths, book, book_bytes, damaged_book, entry, frame, old_book, quick_site, site,
    BookDamage,
};
pub use booms::every_boom;
pub use coverage::{Call, Coverage};
pub use events::{event, event_grid, junk_event};
pub use flags::{every_flag, flags, FLAGS};
pub use lost::{lost_plants, lost_reports};
pub use old::{every_old, old_lamps, old_panels, old_settings, old_ticks};
pub use pauses::{every_left, every_pause, pause_events, pause_plants};
pub use plants::plant;
pub use previews::{preview_frame, preview_grid};
pub use quiet::quiet_run;
pub use quiet_grid::{quiet_grid, quiet_rows};
pub use rights::{right_grid, right_previews, views};
pub use rng::Rng;
pub use senders::{hide, sees_all, Command, Senders, KNOWN};
pub use sheets::{damaged_sheet, sheet_bytes, sheet_events, SheetDamage};
pub use shift_grid::shift_grid;
pub use shifts::{shift, Shift};
pub use spoilt::{spoilt_plant, Spoil};
pub use swept::{swept_event, swept_grid, swept_plant};
pub use traffic::{coherent, mixed, played};
