//! Events: four bytes of code, crossing, place, value.

use super::crossing::{count_down, count_out, is_held, run_pause, run_timer, settle};
use super::range::in_range;
use super::rights::Source;
use super::types::{boom, code, number, Crossing, Entry, Plant, Site};

const RELEASE: u16 = 270;
const FULL: u16 = 255;

/// Takes or refuses one event of a sender; gives the number and the trains written off.
pub fn event(plant: &mut Plant, sender: u8, event: [u8; 4]) -> (u8, u32) {
    if !in_range(plant) {
        return (number::SPOILT_PLANT, 0);
    }
    let Some(source) = Source::sender(sender) else {
        return (number::UNKNOWN_SENDER, 0);
    };
    match apply(plant, source, event) {
        Ok(written_off) => (number::TAKEN, written_off),
        Err(refusal) => (refusal, 0),
    }
}

/// One event on a plant known to be in range. Inlined into the sheet run, it needs no look at the
/// rights there.
#[inline(always)]
pub fn apply(plant: &mut Plant, source: Source, event: [u8; 4]) -> Result<u32, u8> {
    known(&plant.site, event)?;
    let [code, crossing, place, value] = event;
    if !source.may_send(code, value) {
        return Err(number::NO_RIGHT);
    }
    if code == code::TICK {
        return Ok(tick(plant));
    }
    let entry = &plant.site.entries[usize::from(crossing)];
    let record = &mut plant.crossings[usize::from(crossing)];
    let written_off = take(record, entry, code, place, value)?;
    settle(record, entry);
    count_out(record, false);
    Ok(written_off)
}

/// Whether the event table has such an event for this site; a tick is the whole plant's.
#[inline]
fn known(site: &Site, event: [u8; 4]) -> Result<(), u8> {
    let [code, crossing, place, value] = event;
    if code > code::LAMP_REPORT {
        return Err(number::UNKNOWN_CODE);
    }
    let crossings = if code == code::TICK { 1 } else { site.n };
    if crossing >= crossings {
        return Err(number::UNKNOWN_CROSSING);
    }
    let entry = &site.entries[usize::from(crossing)];
    let (places, values) = limits(entry, code);
    if place >= places {
        return Err(number::UNKNOWN_PLACE);
    }
    if value >= values {
        return Err(number::UNKNOWN_VALUE);
    }
    Ok(())
}

fn tick(plant: &mut Plant) -> u32 {
    plant.beat = (plant.beat + 1) % 4;
    let n = usize::from(plant.site.n);
    let mut written_off = 0;
    for (record, entry) in plant.crossings[..n].iter_mut().zip(&plant.site.entries) {
        written_off += count_down(record, entry);
        run_timer(record, entry);
        run_pause(record);
        settle(record, entry);
        count_out(record, true);
    }
    written_off
}

/// How many places and values an event of `code` knows; a field marked - knows only 0.
#[inline]
fn limits(entry: &Entry, code: u8) -> (u8, u8) {
    match code {
        code::STRIKE_IN | code::PASSAGE => (entry.tracks, 1),
        code::KIOSK_HOLD | code::OPERATOR_HOLD => (1, 2),
        code::ROUTE | code::APPROACH => (entry.tracks, 2),
        code::BOOM_REPORT => (entry.booms(), boom::LOST + 1),
        code::LAMP_REPORT => (entry.lamps(), 2),
        _ => (1, 1),
    }
}

/// Everything a known event other than a tick does before the crossing settles; gives the trains
/// written off.
#[inline]
fn take(record: &mut Crossing, entry: &Entry, code: u8, place: u8, value: u8) -> Result<u32, u8> {
    let place = usize::from(place);
    let mut written_off = 0;
    match code {
        code::STRIKE_IN => written_off = strike_in(record, entry, place),
        code::PASSAGE => passage(record, place)?,
        code::KIOSK_HOLD => record.kiosk = value,
        code::OPERATOR_HOLD => operator_hold(record, value)?,
        code::ROUTE => set_route(record, entry, place, value)?,
        code::APPROACH => record.occupied[place] = value,
        code::TIME_RELEASE => time_release(record)?,
        code::BOOM_REPORT => record.booms[place] = value,
        _ => record.lamps[place] = value,
    }
    let cancels = match code {
        code::STRIKE_IN => true,
        code::KIOSK_HOLD | code::OPERATOR_HOLD | code::ROUTE | code::APPROACH => value == 1,
        _ => false,
    };
    if cancels {
        record.countdown = 0;
    }
    Ok(written_off)
}

/// On a full track the counts stay, the track becomes unsure and the train is written off at
/// once (document 02, T-01). Gives the trains written off.
fn strike_in(record: &mut Crossing, entry: &Entry, track: usize) -> u32 {
    if u16::from(record.calling[track]) + u16::from(record.waiting[track]) >= FULL {
        record.unsure[track] = 1;
        return 1;
    }
    if !entry.depends(track) || record.route[track] != 0 {
        record.calling[track] += 1;
    } else {
        record.waiting[track] += 1;
    }
    0
}

fn passage(record: &mut Crossing, track: usize) -> Result<(), u8> {
    if record.calling[track] > 0 {
        record.calling[track] -= 1;
    } else if record.waiting[track] > 0 {
        record.waiting[track] -= 1;
    } else {
        return Err(number::GHOST_PASSAGE);
    }
    Ok(())
}

fn operator_hold(record: &mut Crossing, on: u8) -> Result<(), u8> {
    if on == 0 && record.calling != [0; 4] {
        return Err(number::TRAIN_CALLING);
    }
    record.operator = on;
    Ok(())
}

fn set_route(record: &mut Crossing, entry: &Entry, track: usize, on: u8) -> Result<(), u8> {
    if !entry.depends(track) {
        return Err(number::PLAIN_TRACK);
    }
    record.route[track] = on;
    if on != 0 {
        record.calling[track] += record.waiting[track];
        record.waiting[track] = 0;
    }
    Ok(())
}

fn time_release(record: &mut Crossing) -> Result<(), u8> {
    if is_held(record) || record.route != [0; 4] || record.occupied != [0; 4] {
        return Err(number::NOT_CLEAR);
    }
    record.countdown = RELEASE;
    Ok(())
}
