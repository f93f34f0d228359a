//! Senders: each engine by itself keeps to their rights and to what they see (document 02, T-04).

use super::{same, same_bytes, same_plant, Answer, Check, Pair};
use crate::{Command, Engine};
use engine::{in_range, number, panel_len, sender, Plant, Run};
use gen::{hide, sheet_bytes, KNOWN};

impl Pair<'_> {
    /// An event answered so on both engines, and the plant after it.
    pub(super) fn rights(
        &self,
        plant: &Plant,
        command: Command,
        answer: Answer,
        after: &Plant,
    ) -> Check {
        if !in_range(plant) {
            return Ok(());
        }
        for engine in [self.first, self.second] {
            let what = match command.has_right() {
                true => as_sheet(engine, plant, command.event, answer, after),
                false => without_right(engine, plant, command, answer),
            };
            what.map_err(|what| format!("{}: {what}", engine.name()))?;
        }
        Ok(())
    }

    /// What both engines drew for a sender, held against the whole panel.
    pub(super) fn view(&self, plant: &Plant, sender: u8, panel: &[u8]) -> Check {
        if sender == sender::DETECTION {
            return Ok(());
        }
        for engine in [self.first, self.second] {
            let mut whole = vec![0x3c; panel.len()];
            let number = engine.draw(plant, sender::DETECTION, &mut whole);
            hide(sender, &mut whole);
            let what = same("number of the whole panel", &number::TAKEN, &number)
                .and_then(|()| same_bytes("seen of the whole panel", &whole, panel));
            what.map_err(|what| format!("{}: {what}", engine.name()))?;
        }
        Ok(())
    }
}

/// From one who may send it, an event is what it is in a sheet of its own.
fn as_sheet(
    engine: &dyn Engine,
    plant: &Plant,
    event: [u8; 4],
    (number, written_off): Answer,
    after: &Plant,
) -> Check {
    let (mut run_plant, mut panel) = (*plant, vec![0x3c; panel_len(plant.site.n)]);
    let run = engine.run(&mut run_plant, &sheet_bytes(&[event]), &mut panel);
    let taken = u32::from(number == number::TAKEN);
    let expected = Run {
        number: number::TAKEN,
        taken,
        refused: 1 - taken,
        written_off,
    };
    same("event and a sheet of it", &expected, &run)?;
    same_plant(after, &run_plant)
}

/// From any other, it is refused for the sender, or for what one who may send it is told before.
fn without_right(engine: &dyn Engine, plant: &Plant, command: Command, answer: Answer) -> Check {
    let rightful = Command::rightful(command.event);
    let expected = match engine.event(&mut plant.clone(), rightful).0 {
        _ if !KNOWN.contains(&command.sender) => number::UNKNOWN_SENDER,
        early @ number::UNKNOWN_CODE..=number::UNKNOWN_VALUE => early,
        _ => number::NO_RIGHT,
    };
    same("event without the right", &(expected, 0), &answer)
}
