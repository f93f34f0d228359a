//! The plain engine with planted faults, to show that a comparison finds them: an engine for
//! each edit of edits/, made by the build script. The plain engine knows nothing of them. The tests
//! here are of edits alone, and are built without the engines.
#![cfg_attr(test, allow(unused))]

#[cfg(test)]
mod edit;

use engine::{Agreement, BoardDistance, Plant, Run, Site};

/// A number and the trains written off.
type Answer = (u8, u32);

/// The eight calls of one engine; a `u8` is the sender.
#[derive(Clone, Copy)]
pub struct Calls {
    pub read_book: fn(&[u8]) -> (u8, Plant),
    pub write_book: fn(&Site, &mut [u8]) -> u8,
    pub event: fn(&mut Plant, u8, [u8; 4]) -> Answer,
    pub draw: fn(&Plant, u8, &mut [u8]) -> u8,
    pub preview: fn(&Plant, u8, [u8; 4], &mut [u8]) -> Answer,
    pub run: fn(&mut Plant, &[u8], &mut [u8]) -> Run,
    pub agree: fn(&[u8], &[u8]) -> Agreement,
    pub board_distance: fn(u16, u16, i16) -> BoardDistance,
}

/// One planted fault.
#[derive(Clone, Copy)]
pub struct Fault {
    /// The edit's name.
    pub name: &'static str,
    /// What is wrong.
    pub what: &'static str,
    pub calls: Calls,
}

macro_rules! fault {
    ($name:ident, $what:literal) => {
        Fault {
            name: stringify!($name),
            what: $what,
            calls: Calls {
                read_book: $name::book::read_book,
                write_book: $name::book::write_book,
                event: $name::events::event,
                draw: $name::panel::draw,
                preview: $name::preview::preview,
                run: $name::sheet::run,
                agree: $name::agree::agree,
                board_distance: $name::board::board_distance,
            },
        }
    };
}

#[cfg(not(test))]
#[allow(unused, clippy::all)]
mod engines {
    use super::{Calls, Fault};

    include!(concat!(env!("OUT_DIR"), "/faults.rs"));
}

/// Every planted fault, by name.
#[cfg(not(test))]
pub use engines::FAULTS;
