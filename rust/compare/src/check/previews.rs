//! Previews: alike on both engines, and as each engine's own event and drawing would have it
//! (document 02, T-03).

use super::{same, same_bytes, Answer, Check, Frames, Pair};
use crate::print::hex;
use crate::{Command, Engine};
use engine::{in_range, panel_len, Plant};
use gen::Coverage;

/// A preview's answer, and the lent panel after it.
type Look = (Answer, Vec<u8>);

impl Pair<'_> {
    /// One preview into a frame as it was lent.
    pub(super) fn preview(
        &self,
        plant: &Plant,
        command: Command,
        frame: &[u8],
        seen: &mut Coverage,
    ) -> Check {
        let look = self.look(plant, command, frame)?;
        seen.preview(plant, command, look.0, &look.1);
        if !in_range(plant) || frame.len() != panel_len(plant.site.n) {
            return Ok(());
        }
        for engine in [self.first, self.second] {
            let pressed = press(engine, plant, command, frame);
            let what = pressed.and_then(|pressed| same_look(&pressed, &look));
            what.map_err(|what| format!("{}: {what}", engine.name()))?;
        }
        Ok(())
    }

    /// One preview, alike on both engines.
    fn look(&self, plant: &Plant, command: Command, frame: &[u8]) -> Result<Look, String> {
        let [first, second] = [self.first, self.second].map(|engine| {
            let mut panel = frame.to_vec();
            (engine.preview(plant, command, &mut panel), panel)
        });
        let alike = alike(frame, &first, &second);
        alike.map_err(|what| format!("preview of {}: {what}", hex(&command.event)))?;
        Ok(first)
    }

    /// A step that is previewed first, into bytes which are not those of the panel before; and
    /// so is the event with its value one higher, which mostly is refused.
    pub(super) fn looked_step(
        &self,
        plant: &mut Plant,
        command: Command,
        frames: &mut Frames,
        lent: &[u8],
        seen: &mut Coverage,
    ) -> Result<Answer, String> {
        let look = self.look(plant, command, lent)?;
        let mut higher = command;
        higher.event[3] = higher.event[3].wrapping_add(1);
        self.look(plant, higher, lent)?;
        let answer = self.step(plant, command, frames, seen)?;
        seen.preview_in_list(answer.0);
        let panel = match answer.0 {
            0 => frames[0].clone(),
            _ => lent.to_vec(),
        };
        same_look(&(answer, panel), &look)?;
        Ok(answer)
    }
}

/// The same answer and panel; refused, a preview counts nothing and leaves the frame.
fn alike(frame: &[u8], first: &Look, second: &Look) -> Check {
    same("number and written off", &first.0, &second.0)?;
    if first.0 .0 != 0 {
        same("written off by a refused call", &0, &second.0 .1)?;
        same_bytes("panel of a refused call", frame, &second.1)?;
    }
    same_bytes("panel", &first.1, &second.1)
}

/// The event itself on a copy and, where it is taken, a drawing after it for the same sender into
/// the same frame.
fn press(
    engine: &dyn Engine,
    plant: &Plant,
    command: Command,
    frame: &[u8],
) -> Result<Look, String> {
    let (mut after, mut panel) = (*plant, frame.to_vec());
    let answer = engine.event(&mut after, command);
    if answer.0 == 0 {
        let number = engine.draw(&after, command.sender, &mut panel);
        same("number of a panel after the event", &0, &number)?;
    }
    Ok((answer, panel))
}

/// What the event gave, and what its preview did.
fn same_look(pressed: &Look, look: &Look) -> Check {
    same("event and its preview", &pressed.0, &look.0)?;
    same_bytes("panel after the event and its preview", &pressed.1, &look.1)
}
