//! Lists of events from a fresh plant: one by one, each from its sender, and as a sheet.

use super::{same, same_bytes, same_plant, Answer, Check, Frames, Pair};
use crate::Command;
use engine::{book_len, number, panel_len, sender, Plant, Run, Site};
use gen::{book_bytes, sheet_bytes, Coverage};

/// In a session one event of so many is previewed, and the last.
const LOOK_EVERY: usize = 8;

impl Pair<'_> {
    /// The events one by one come to what the sheet of them does, which has every right.
    pub(super) fn session(&self, site: &Site, commands: &[Command], seen: &mut Coverage) -> Check {
        let book = book_bytes(site);
        self.read(&book, seen)?;
        let (_, mut plant) = self.first.read_book(&book);
        let lent = vec![0xc3; panel_len(site.n)];
        let events: Vec<[u8; 4]> = commands.iter().map(|command| command.event).collect();
        let sheet = self.run(&plant, &sheet_bytes(&events), &lent, seen)?;
        let mut frames = [lent.clone(), lent.clone()];
        self.draw(&plant, sender::DETECTION, &mut frames, seen)?;
        let mut walk = Run::answer(number::TAKEN);
        for (i, command) in commands.iter().enumerate() {
            let looks = i % LOOK_EVERY == 0 || i + 1 == commands.len();
            let lent = looks.then_some(&lent[..]);
            let step = self.sent(&mut plant, *command, &mut frames, lent, seen);
            let answer = step.map_err(|what| format!("event {i}: {what}"))?;
            count(&mut walk, answer);
        }
        self.draw(&plant, sender::DETECTION, &mut frames, seen)?;
        same("sheet and its events one by one", &sheet.0, &walk)?;
        same_plant(&sheet.1, &plant)?;
        same_bytes("panel of the sheet and of detection", &sheet.2, &frames[0])?;
        for engine in [self.first, self.second] {
            let mut back = vec![0; book_len(site.n)];
            let number = engine.write_book(&plant.site, &mut back);
            same("write of the site", &0, &number)?;
            same_bytes("book of the site", &book, &back)?;
        }
        Ok(())
    }

    /// One event of a list. Refused for its sender, who looks at the panel too, it comes again from
    /// one who may send it; gives the last answer.
    fn sent(
        &self,
        plant: &mut Plant,
        command: Command,
        frames: &mut Frames,
        lent: Option<&[u8]>,
        seen: &mut Coverage,
    ) -> Result<Answer, String> {
        let answer = match lent {
            Some(lent) => self.looked_step(plant, command, frames, lent, seen)?,
            None => self.step(plant, command, frames, seen)?,
        };
        seen.event_in_list(command.sender, answer.0);
        match answer.0 {
            number::UNKNOWN_SENDER | number::NO_RIGHT => {
                self.draw(plant, command.sender, frames, seen)?;
                self.step(plant, Command::rightful(command.event), frames, seen)
            }
            _ => Ok(answer),
        }
    }

    /// One event of a list and what its sender sees after it; gives the event's answer.
    pub(super) fn step(
        &self,
        plant: &mut Plant,
        command: Command,
        frames: &mut Frames,
        seen: &mut Coverage,
    ) -> Result<Answer, String> {
        let answer = self.event(plant, command, seen)?;
        // A refused event leaves the plant, whose panel was drawn before.
        if answer.0 == number::TAKEN {
            self.draw(plant, command.sender, frames, seen)?;
        }
        Ok(answer)
    }
}

/// Counts an answer as a run does.
fn count(run: &mut Run, (number, written_off): Answer) {
    match number {
        number::TAKEN => run.taken += 1,
        _ => run.refused += 1,
    }
    run.written_off += written_off;
}
