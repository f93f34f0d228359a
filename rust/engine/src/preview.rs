//! The preview: the panel that an event would give, the plant left as it is (document 02, T-03).

use super::events::apply;
use super::panel::{paint, panel_len};
use super::range::in_range;
use super::rights::Source;
use super::types::{number, Plant};

/// Draws what a sender would see after its event into a lent output of exactly the panel's length;
/// gives the event's number and the trains it would write off.
pub fn preview(plant: &Plant, sender: u8, event: [u8; 4], panel: &mut [u8]) -> (u8, u32) {
    if !in_range(plant) {
        return (number::SPOILT_PLANT, 0);
    }
    let Some(source) = Source::sender(sender) else {
        return (number::UNKNOWN_SENDER, 0);
    };
    if panel.len() != panel_len(plant.site.n) {
        return (number::WRONG_FRAME, 0);
    }
    let mut copy = *plant;
    match apply(&mut copy, source, event) {
        Ok(written_off) => {
            paint(&copy, source, panel);
            (number::TAKEN, written_off)
        }
        Err(refusal) => (refusal, 0),
    }
}
