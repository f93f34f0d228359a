//! What the program prints for the bytes of site.bin and sheet.bin.

use super::book::read_book;
use super::panel::{panel_len, PANEL};
use super::sheet::run;
use super::types::number;
use std::fmt::Write;

/// Runs a sheet from the fresh plant of a book and gives the printed text.
pub fn program(site: &[u8], sheet: &[u8]) -> String {
    let (refusal, mut plant) = read_book(site);
    if refusal != number::TAKEN {
        return format!("refused {refusal}\n");
    }
    let mut panel = vec![0; panel_len(plant.site.n)];
    let answer = run(&mut plant, sheet, &mut panel);
    if answer.number != number::TAKEN {
        return format!("refused {}\n", answer.number);
    }
    let mut text = format!(
        "taken {} refused {} written-off {}\n",
        answer.taken, answer.refused, answer.written_off
    );
    for (i, bytes) in panel.chunks_exact(PANEL).enumerate() {
        let _ = write!(text, "{i}:");
        for byte in bytes {
            let _ = write!(text, " {byte:02x}");
        }
        text.push('\n');
    }
    text
}
