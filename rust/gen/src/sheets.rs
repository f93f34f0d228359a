//! Event sheets, good and damaged.

use crate::rng::Rng;

/// The sheet of these events; at most 65,535 fit.
pub fn sheet_bytes(events: &[[u8; 4]]) -> Vec<u8> {
    let mut bytes = Vec::with_capacity(2 + 4 * events.len());
    bytes.extend((events.len() as u16).to_le_bytes());
    bytes.extend(events.iter().map(|e| e[0]));
    bytes.extend(events.iter().flat_map(|e| [e[1], e[2], e[3]]));
    bytes
}

/// The events of a good sheet.
pub fn sheet_events(sheet: &[u8]) -> Option<Vec<[u8; 4]>> {
    Some(engine::sheet_events(sheet).ok()?.collect())
}

/// The ways a sheet is damaged.
#[derive(Clone, Copy, PartialEq, Debug)]
pub enum SheetDamage {
    Empty,
    OneByte,
    Count,
    OverLong,
    Over4096,
    Short,
    Long,
}

impl SheetDamage {
    pub const ALL: [SheetDamage; 7] = [
        SheetDamage::Empty,
        SheetDamage::OneByte,
        SheetDamage::Count,
        SheetDamage::OverLong,
        SheetDamage::Over4096,
        SheetDamage::Short,
        SheetDamage::Long,
    ];
}

/// A good sheet with this damage.
pub fn damaged_sheet(rng: &mut Rng, mut sheet: Vec<u8>, damage: SheetDamage) -> Vec<u8> {
    match damage {
        SheetDamage::Empty => sheet.clear(),
        SheetDamage::OneByte => sheet.truncate(1),
        SheetDamage::Count => sheet[0] = sheet[0].wrapping_add(rng.within(1..=255) as u8),
        SheetDamage::OverLong => {
            sheet[0] = rng.pick(&[1, 2, 255]);
            sheet[1] = rng.pick(&[0x10, 0x11, 0xff]);
        }
        SheetDamage::Over4096 => sheet = sheet_bytes(&[[0; 4]; 4097]),
        SheetDamage::Short => sheet.truncate(rng.below(sheet.len() as u32) as usize),
        SheetDamage::Long => sheet.resize(sheet.len() + rng.within(1..=5) as usize, 0),
    }
    sheet
}
