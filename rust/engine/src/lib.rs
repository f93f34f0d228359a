//! A level crossing protection plant: site book, plant, events, panel, preview, event sheet, two
//! sheets of one shift compared, and the distance of the arrow board. Events, panels and previews
//! are a sender's; a sheet has every right.
//!
//! Every call answers with one number: 0 when taken, otherwise a refusal from
//! [`number`]. A refused call changes neither the plant nor a lent output.

pub mod agree;
pub mod board;
pub mod book;
pub mod crossing;
pub mod events;
pub mod lights;
pub mod panel;
pub mod preview;
mod program;
pub mod range;
pub mod rights;
pub mod sheet;
pub mod types;

pub use agree::agree;
pub use board::board_distance;
pub use book::{book_len, read_book, write_book};
pub use events::event;
pub use panel::{draw, panel_len, PANEL};
pub use preview::preview;
pub use program::program;
pub use range::in_range;
pub use sheet::{run, sheet_events};
pub use types::{boom, code, number, phase, sender};
pub use types::{Agreement, BoardDistance, Crossing, Entry, Plant, Run, Site, MAX_EVENTS};
