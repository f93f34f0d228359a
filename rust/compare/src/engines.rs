//! The plain engine, as it is and with planted faults.

use crate::{Agreement, Board, BoardDistance, Command, Engine, Plant, Run, Site};
use faults::Fault;

/// The plain engine.
pub struct Plain;

impl Engine for Plain {
    fn name(&self) -> String {
        "plain".into()
    }

    fn read_book(&self, book: &[u8]) -> (u8, Plant) {
        engine::read_book(book)
    }

    fn write_book(&self, site: &Site, out: &mut [u8]) -> u8 {
        engine::write_book(site, out)
    }

    fn event(&self, plant: &mut Plant, Command { sender, event }: Command) -> (u8, u32) {
        engine::event(plant, sender, event)
    }

    fn draw(&self, plant: &Plant, sender: u8, panel: &mut [u8]) -> u8 {
        engine::draw(plant, sender, panel)
    }

    fn preview(&self, plant: &Plant, command: Command, panel: &mut [u8]) -> (u8, u32) {
        engine::preview(plant, command.sender, command.event, panel)
    }

    fn run(&self, plant: &mut Plant, sheet: &[u8], panel: &mut [u8]) -> Run {
        engine::run(plant, sheet, panel)
    }

    fn agree(&self, hut: &[u8], cabin: &[u8]) -> Agreement {
        engine::agree(hut, cabin)
    }

    fn board_distance(&self, board: Board) -> BoardDistance {
        engine::board_distance(board.speed, board.retardation, board.gradient)
    }
}

/// The plain engine with a planted fault.
pub struct Planted(pub &'static Fault);

impl Engine for Planted {
    fn name(&self) -> String {
        format!("fault {}", self.0.name)
    }

    fn read_book(&self, book: &[u8]) -> (u8, Plant) {
        (self.0.calls.read_book)(book)
    }

    fn write_book(&self, site: &Site, out: &mut [u8]) -> u8 {
        (self.0.calls.write_book)(site, out)
    }

    fn event(&self, plant: &mut Plant, Command { sender, event }: Command) -> (u8, u32) {
        (self.0.calls.event)(plant, sender, event)
    }

    fn draw(&self, plant: &Plant, sender: u8, panel: &mut [u8]) -> u8 {
        (self.0.calls.draw)(plant, sender, panel)
    }

    fn preview(&self, plant: &Plant, command: Command, panel: &mut [u8]) -> (u8, u32) {
        (self.0.calls.preview)(plant, command.sender, command.event, panel)
    }

    fn run(&self, plant: &mut Plant, sheet: &[u8], panel: &mut [u8]) -> Run {
        (self.0.calls.run)(plant, sheet, panel)
    }

    fn agree(&self, hut: &[u8], cabin: &[u8]) -> Agreement {
        (self.0.calls.agree)(hut, cabin)
    }

    fn board_distance(&self, board: Board) -> BoardDistance {
        (self.0.calls.board_distance)(board.speed, board.retardation, board.gradient)
    }
}
