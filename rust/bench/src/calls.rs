//! The proved engine's event, preview and drawing, each by itself, on eight crossings of kinds 1 to
//! 6 with M: the time of a call in nanoseconds, and over that of the plain engine. The event is in
//! place: the plant that it gives takes the place of the one before.

use crate::moments::{measure, Moment, Way, INPUTS};
use crate::sheets::all_kinds;
use compare::second::proved_plant;
use engine::code;
use gen::Rng;

const SEED: u64 = 141;

#[inline(never)]
fn proved_event(moment: &mut Moment) {
    let answer = wilzhoram::event(moment.proved_plant, moment.sender, moment.proved_event);
    moment.answer = (answer.number, answer.written);
    moment.proved_plant = answer.plant;
}

#[inline(never)]
fn plain_event(moment: &mut Moment) {
    moment.answer = engine::event(&mut moment.plant, moment.sender, moment.event);
}

#[inline(never)]
pub fn proved_preview(moment: &mut Moment) {
    let (plant, event) = (moment.proved_plant, moment.proved_event);
    let preview = wilzhoram::preview(plant, moment.sender, event, &mut moment.panel);
    moment.answer = (preview.number, preview.written);
}

#[inline(never)]
pub fn plain_preview(moment: &mut Moment) {
    let (sender, event) = (moment.sender, moment.event);
    moment.answer = engine::preview(&moment.plant, sender, event, &mut moment.panel);
}

#[inline(never)]
fn proved_draw(moment: &mut Moment) {
    let number = wilzhoram::draw(moment.proved_plant, moment.sender, &mut moment.panel);
    moment.answer = (number, 0);
}

#[inline(never)]
fn plain_draw(moment: &mut Moment) {
    let number = engine::draw(&moment.plant, moment.sender, &mut moment.panel);
    moment.answer = (number, 0);
}

/// A call by both engines, at moments whose event has this code and is taken, or is refused.
pub struct Call {
    pub name: &'static str,
    pub proved: Way,
    pub plain: Way,
    code: Option<u8>,
}

impl Call {
    /// Seeded, the same for every call of one code.
    pub fn moments(&self) -> Vec<Moment> {
        let index = self.code.map_or(u64::MAX, u64::from);
        let rng = &mut Rng::of_case(SEED, index);
        let site = all_kinds(rng);
        let moment = |_| Moment::find(rng, self.code, |_| site);
        (0..INPUTS).map(moment).collect()
    }
}

/// Each is for the event's sender; a tick is detection's, who sees the whole drawing.
pub fn calls() -> Vec<Call> {
    let call = |name, [proved, plain]: [Way; 2], code| Call {
        name,
        proved,
        plain,
        code,
    };
    let event: [Way; 2] = [proved_event, plain_event];
    let preview: [Way; 2] = [proved_preview, plain_preview];
    let draw: [Way; 2] = [proved_draw, plain_draw];
    vec![
        call("event: tick", event, Some(code::TICK)),
        call("event: boom report", event, Some(code::BOOM_REPORT)),
        call("event: strike-in", event, Some(code::STRIKE_IN)),
        call("event: refused", event, None),
        call("preview: tick", preview, Some(code::TICK)),
        call("preview: boom report", preview, Some(code::BOOM_REPORT)),
        call("preview: strike-in", preview, Some(code::STRIKE_IN)),
        call("preview: refused", preview, None),
        call("drawing", draw, Some(code::TICK)),
    ]
}

/// The same answers, plants and panels.
pub fn equal([proved, plain]: [&Moment; 2]) -> bool {
    proved.answer == plain.answer
        && proved.panel == plain.panel
        && proved.proved_plant == proved_plant(&plain.plant)
}

/// Prints a line for each call; false if the outputs differ.
pub fn print(rounds: usize) -> bool {
    println!("\ntime of one call in ns, eight crossings of kinds 1 to 6 with M, {INPUTS} plants");
    println!("call                   least  median   plain  least/plain  median/plain");
    for call in calls() {
        let ways = [call.proved, call.plain];
        let Some([proved, plain]) = measure(ways, &call.moments(), rounds, equal) else {
            println!("{}: the outputs differ", call.name);
            return false;
        };
        let middle = rounds / 2;
        println!(
            "{:<21} {:>6.0} {:>7.0} {:>7.0} {:>12.2} {:>13.2}",
            call.name,
            proved[0],
            proved[middle],
            plain[0],
            proved[0] / plain[0],
            proved[middle] / plain[middle]
        );
    }
    println!("every answer, plant and panel equal in every round");
    true
}
