//! Grids of senders (document 02, T-04): every sender with every code, and every sender's view.

use crate::lost::lost_plants;
use crate::previews::{busy, events, frames, fresh, plants, restless, with_beats, Look};
use crate::senders::{Command, KNOWN};
use engine::{panel_len, sender, Plant};
use std::ops::RangeInclusive;

/// A plant, who looks at its panel and how many bytes are lent.
pub type View = (Plant, u8, usize);

/// The known senders, and the first and the last that are not.
fn some() -> impl Iterator<Item = u8> + Clone {
    KNOWN.into_iter().chain([sender::CENTRE + 1, 255])
}

/// Plants whose track 0 is plain, and the same with it dependent and track 1 plain: quiet, busy,
/// and ready to move as soon as they settle.
fn shapes(n: u8) -> impl Iterator<Item = Plant> + Clone {
    let plain = [fresh(n), busy(n, 255), restless(n)];
    plain
        .into_iter()
        .flat_map(|plant| [plant, dependent(plant)])
}

/// Those in range, and the busy ones spoilt.
fn shapes_and_spoilt(n: u8) -> impl Iterator<Item = Plant> + Clone {
    let busy = [busy(n, 255), dependent(busy(n, 255))];
    shapes(n).chain(busy.map(|plant| Plant { beat: 4, ..plant }))
}

fn dependent(mut plant: Plant) -> Plant {
    for entry in plant.site.entries.iter_mut().take(plant.site.n.into()) {
        entry.mask = 0b01;
    }
    plant
}

/// Every code, two unknown ones among them, and every value around its bound, at this place.
fn at(crossing: u8, place: u8) -> impl Iterator<Item = [u8; 4]> {
    let codes = (0..=10).chain([255]);
    codes.flat_map(move |code| {
        let values = (0..=4).chain([255]);
        values.map(move |value| [code, crossing, place, value])
    })
}

/// Each of the senders with each of the events.
fn sent(
    senders: impl Iterator<Item = u8> + Clone,
    events: impl Iterator<Item = [u8; 4]>,
) -> impl Iterator<Item = Command> {
    events.flat_map(move |event| senders.clone().map(move |sender| Command { sender, event }))
}

/// Every byte as code, with these values, at the first crossing and place.
fn codes(values: RangeInclusive<u8>) -> impl Iterator<Item = [u8; 4]> {
    (0..=255).flat_map(move |code| values.clone().map(move |value| [code, 0, 0, value]))
}

/// All 256 senders with every byte as code; some of them with every byte as value too.
fn byte_grid() -> impl Iterator<Item = (Plant, Command)> {
    let plant = busy(1, 255);
    let all = sent(0..=255, codes(0..=1));
    let some = sent(some(), codes(0..=255));
    all.chain(some).map(move |command| (plant, command))
}

/// All 256 senders at the first crossing; some of them at every crossing and place of plants of
/// all kinds, and past them; and the bytes that are no code or value.
pub fn right_grid() -> impl Iterator<Item = (Plant, Command)> {
    let all = shapes_and_spoilt(2).flat_map(|plant| {
        let commands = sent(0..=255, at(0, 0));
        commands.map(move |command| (plant, command))
    });
    let some = shapes_and_spoilt(4).flat_map(|plant| {
        let places = (0..5).flat_map(|crossing| (0..3).map(move |place| (crossing, place)));
        let events = places.flat_map(|(crossing, place)| at(crossing, place));
        sent(some(), events).map(move |command| (plant, command))
    });
    all.chain(some).chain(byte_grid())
}

/// Previews, the plants in range and spoilt: all 256 senders over the right frame and a shorter
/// one; some of them with every number of a refusal and every kind of frame.
pub fn right_previews() -> impl Iterator<Item = (Look, u8)> {
    let [_, spoilt] = with_beats(dependent(busy(2, 255)));
    let few = [busy(2, 255), dependent(fresh(2)), restless(2), spoilt];
    let all = few.into_iter().flat_map(|plant| {
        let lengths = [panel_len(2), panel_len(2) - 1].into_iter();
        let commands = lengths.flat_map(|len| sent(0..=255, at(0, 0)).map(move |c| (c, len)));
        commands.map(move |(command, len)| ((plant, command.event, len), command.sender))
    });
    let some = shapes(3).flat_map(with_beats).flat_map(|plant| {
        // Number 6, 7 and 8 before 17 for detection too.
        let kiosk = [[3, 3, 0, 0], [3, 1, 1, 0], [3, 1, 0, 2]];
        let commands = sent(some(), events(3, 1).into_iter().chain(kiosk));
        let lent = commands.flat_map(|command| frames(3).map(|len| (command, len)));
        lent.map(move |(command, len)| ((plant, command.event, len), command.sender))
    });
    all.chain(some)
}

/// All 256 senders over every kind of frame, in range and spoilt; some of them over every length;
/// and those that are not detection with every combination of boom reports.
pub fn views() -> impl Iterator<Item = View> {
    let all = [1, 2, 8].into_iter().flat_map(plants).flat_map(with_beats);
    let all = all.flat_map(|plant| {
        let lent = frames(plant.site.n).into_iter();
        lent.flat_map(move |len| (0..=255).map(move |sender| (plant, sender, len)))
    });
    let lengths = (1..=8).map(|n| busy(n, 255)).flat_map(with_beats);
    let lengths = lengths.flat_map(|plant| {
        let senders = some();
        senders.flat_map(move |sender| (0..=160).map(move |len| (plant, sender, len)))
    });
    let lost = lost_plants().into_iter().flat_map(|plant| {
        let len = panel_len(plant.site.n);
        [1, 2, 3].map(|sender| (plant, sender, len))
    });
    all.chain(lengths).chain(lost)
}
