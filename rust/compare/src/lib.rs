//! Compares two crossing engines over generated inputs.

mod candidates;
pub mod case;
pub mod chart;
pub mod check;
pub mod engines;
pub mod print;
pub mod search;
pub mod second;
pub mod shrink;
pub mod stack;

pub use engine::{Agreement, BoardDistance, Plant, Run, Site};
pub use gen::{Board, Command};

/// The eight calls of a crossing engine.
pub trait Engine {
    fn name(&self) -> String;
    fn read_book(&self, book: &[u8]) -> (u8, Plant);
    fn write_book(&self, site: &Site, out: &mut [u8]) -> u8;
    fn event(&self, plant: &mut Plant, command: Command) -> (u8, u32);
    fn draw(&self, plant: &Plant, sender: u8, panel: &mut [u8]) -> u8;
    fn preview(&self, plant: &Plant, command: Command, panel: &mut [u8]) -> (u8, u32);
    fn run(&self, plant: &mut Plant, sheet: &[u8], panel: &mut [u8]) -> Run;
    fn agree(&self, hut: &[u8], cabin: &[u8]) -> Agreement;
    fn board_distance(&self, board: Board) -> BoardDistance;
}
