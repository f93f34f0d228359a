//! The library by the names of this crate: its version, and a train as the panel shows it.

use wilzhoram::{code, kind, lit, number, panel, phase, road, sender, status, train_signal};

#[test]
fn version() {
    assert_eq!(wilzhoram::version(), wilzhoram::VERSION);
}

#[test]
fn strike_in() {
    let mut book = [0; wilzhoram::book_length(1)];
    book[..5].copy_from_slice(&[1, kind::TWO_FULL, 1, 0, 2]);
    let reading = wilzhoram::read(&book);
    assert_eq!(reading.number, number::TAKEN);

    let mut row = [0; wilzhoram::panel_length(1)];
    let drawn = wilzhoram::draw(reading.plant, sender::KIOSK, &mut row);
    assert_eq!(drawn, number::TAKEN);
    assert_eq!(row[panel::ROAD], road::WHITE);
    assert_eq!(row[panel::STATUS], status::NORMAL);

    let train = wilzhoram::Event {
        code: code::STRIKE_IN,
        crossing: 0,
        place: 0,
        value: 0,
    };
    let refused = wilzhoram::preview(reading.plant, sender::KIOSK, train, &mut row);
    assert_eq!(refused.number, number::NO_RIGHT);
    let preview = wilzhoram::preview(reading.plant, sender::DETECTION, train, &mut row);
    assert_eq!(preview.number, number::TAKEN);
    assert_eq!(row[panel::ROAD], road::RED);
    assert_eq!(row[panel::LIT] & lit::BOOM_LAMPS, lit::BOOM_LAMPS);
    assert_eq!(row[panel::TRAIN_SIGNAL], train_signal::STOP);
    assert_eq!(row[panel::PHASE], phase::WARNING);
    assert_eq!(row[panel::CALLING], 1);
}
