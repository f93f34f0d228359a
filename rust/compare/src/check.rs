//! Puts one case to both engines and looks for a difference.

mod agreements;
mod boards;
mod previews;
mod senders;
mod sessions;

use crate::case::Case;
use crate::print::hex;
use crate::{Command, Engine};
use engine::{number, Plant, Run, Site};
use gen::{Call, Coverage};
use std::fmt::Debug;

/// The two engines, the plain one first.
#[derive(Clone, Copy)]
pub struct Pair<'a> {
    pub first: &'a dyn Engine,
    pub second: &'a dyn Engine,
}

/// What differs, in words.
pub type Check = Result<(), String>;

/// What each engine is lent for a panel.
type Frames = [Vec<u8>; 2];

/// A number and the trains written off.
type Answer = (u8, u32);

impl Pair<'_> {
    /// Compares every answer, plant and lent byte of a case; counts what the first did.
    pub fn check(&self, case: &Case, seen: &mut Coverage) -> Check {
        match case {
            Case::Read { book } => self.read(book, seen),
            Case::Write { site, frame } => self.write(site, frame, seen),
            Case::Event { plant, command } => {
                seen.handed(Call::Event, plant);
                let mut after = *plant;
                let answer = self.event(&mut after, *command, seen)?;
                self.rights(plant, *command, answer, &after)
            }
            Case::Draw {
                plant,
                sender,
                frame,
            } => {
                seen.handed(Call::Draw, plant);
                self.lent(plant, *sender, frame, seen)
            }
            Case::Run {
                plant,
                sheet,
                frame,
            } => {
                seen.handed(Call::Run, plant);
                let (answer, ..) = self.run(plant, sheet, frame, seen)?;
                seen.ran(plant, sheet, answer.number);
                Ok(())
            }
            Case::Preview {
                plant,
                command,
                frame,
            } => {
                seen.handed(Call::Preview, plant);
                self.preview(plant, *command, frame, seen)
            }
            Case::Session { site, commands } => self.session(site, commands, seen),
            Case::Agree { hut, cabin } => self.agree(hut, cabin, seen),
            Case::Board(board) => self.board(*board, seen),
        }
    }

    fn read(&self, book: &[u8], seen: &mut Coverage) -> Check {
        let (number, plant) = self.first.read_book(book);
        let (other, other_plant) = self.second.read_book(book);
        seen.read(book, number);
        same("number", &number, &other)?;
        same_plant(&plant, &other_plant)?;
        if number != 0 {
            return Ok(());
        }
        for engine in [self.first, self.second] {
            let mut back = vec![0x55; book.len()];
            let number = engine.write_book(&plant.site, &mut back);
            same("write of a book read", &0, &number)?;
            same_bytes("book read and written", book, &back)?;
        }
        Ok(())
    }

    fn write(&self, site: &Site, frame: &[u8], seen: &mut Coverage) -> Check {
        let (mut out, mut other_out) = (frame.to_vec(), frame.to_vec());
        let number = self.first.write_book(site, &mut out);
        let other = self.second.write_book(site, &mut other_out);
        seen.write(site, number);
        same("number", &number, &other)?;
        same_bytes("book", &out, &other_out)?;
        if number != 0 {
            return same_bytes("book of a refused call", &out, frame);
        }
        for engine in [self.first, self.second] {
            let (number, plant) = engine.read_book(&out);
            same("read of a book written", &0, &number)?;
            same_plant(&Plant::fresh(site), &plant)?;
        }
        Ok(())
    }

    /// One event; `plant` becomes the plant after it.
    fn event(
        &self,
        plant: &mut Plant,
        command: Command,
        seen: &mut Coverage,
    ) -> Result<Answer, String> {
        let before = *plant;
        let mut other_plant = before;
        let answer = self.first.event(plant, command);
        let other = self.second.event(&mut other_plant, command);
        same("number and written off", &answer, &other)?;
        seen.event(&before, command, answer, plant);
        if answer.0 != 0 {
            same_plant(&before, &other_plant)?;
        }
        same_plant(plant, &other_plant)?;
        Ok(answer)
    }

    /// One panel into a frame for each engine, both with the same bytes; gives the number.
    fn draw(
        &self,
        plant: &Plant,
        sender: u8,
        frames: &mut Frames,
        seen: &mut Coverage,
    ) -> Result<u8, String> {
        let [frame, other_frame] = frames;
        let number = self.first.draw(plant, sender, frame);
        let other = self.second.draw(plant, sender, other_frame);
        same("number of a panel", &number, &other)?;
        seen.draw(plant, sender, number, frame);
        same_bytes("panel", frame, other_frame)?;
        Ok(number)
    }

    /// One panel into a frame as it was lent.
    fn lent(&self, plant: &Plant, sender: u8, frame: &[u8], seen: &mut Coverage) -> Check {
        let mut frames = [frame.to_vec(), frame.to_vec()];
        match self.draw(plant, sender, &mut frames, seen)? {
            number::TAKEN => self.view(plant, sender, &frames[1]),
            _ => same_bytes("panel of a refused call", frame, &frames[1]),
        }
    }

    /// One run; gives its answer, the plant after it and the panel.
    fn run(
        &self,
        plant: &Plant,
        sheet: &[u8],
        frame: &[u8],
        seen: &mut Coverage,
    ) -> Result<(Run, Plant, Vec<u8>), String> {
        let (mut after, mut other_after) = (*plant, *plant);
        let (mut panel, mut other_panel) = (frame.to_vec(), frame.to_vec());
        let answer = self.first.run(&mut after, sheet, &mut panel);
        let other = self.second.run(&mut other_after, sheet, &mut other_panel);
        seen.call(Call::Run, answer.number);
        same("run", &answer, &other)?;
        if answer.number != 0 {
            same_plant(plant, &other_after)?;
            same_bytes("panel of a refused run", frame, &other_panel)?;
        }
        same_plant(&after, &other_after)?;
        same_bytes("panel of a run", &panel, &other_panel)?;
        Ok((answer, after, panel))
    }
}

fn same<T: PartialEq + Debug + ?Sized>(what: &str, first: &T, second: &T) -> Check {
    if first == second {
        return Ok(());
    }
    Err(format!("{what}\n  first  {first:?}\n  second {second:?}"))
}

fn same_bytes(what: &str, first: &[u8], second: &[u8]) -> Check {
    if first == second {
        return Ok(());
    }
    same(what, &hex(first), &hex(second))
}

fn same_plant(first: &Plant, second: &Plant) -> Check {
    if first == second {
        return Ok(());
    }
    same("site", &first.site, &second.site)?;
    same("beat", &first.beat, &second.beat)?;
    for (i, (a, b)) in first.crossings.iter().zip(&second.crossings).enumerate() {
        same(&format!("crossing {i}"), a, b)?;
    }
    Ok(())
}
