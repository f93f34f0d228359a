//! The proved engine's sheet run (document 02, T-14): its time over that of the plain one on each
//! sheet, and how it grows with the sheet.

use crate::sheets::{sheets, Sheet};
use crate::sort;
use compare::engines::Plain;
use compare::second::Proved;
use compare::{Engine, Plant, Run};
use std::time::Instant;

/// Events of the short sheet, the first of the whole one: an eighth of them.
const SHORT: usize = 512;

/// What a run gave: its answer, the plant after it and the panel.
type Output = (Run, Plant, [u8; 128]);

/// The times of the plain engine and of the proved one, sorted.
type Times = [Vec<f64>; 2];

/// One run, and its time in seconds.
fn timed(engine: &dyn Engine, sheet: &Sheet) -> (Output, f64) {
    let (mut plant, mut panel) = (sheet.plant, [0; 128]);
    let start = Instant::now();
    let run = engine.run(&mut plant, &sheet.bytes, &mut panel);
    let time = start.elapsed().as_secs_f64();
    ((run, plant, panel), time)
}

/// The times for each of the sheets; none if the outputs differ.
fn measure<const N: usize>(sheets: [&Sheet; N], rounds: usize) -> Option<[Times; N]> {
    let mut times = [(); N].map(|_| Times::default());
    for _ in 0..rounds {
        for (sheet, [plain, proved]) in sheets.iter().zip(&mut times) {
            let (expected, time) = timed(&Plain, sheet);
            plain.push(time);
            let (output, time) = timed(&Proved::default(), sheet);
            proved.push(time);
            if output != expected {
                return None;
            }
        }
    }
    times.iter_mut().flatten().for_each(|times| sort(times));
    Some(times)
}

/// Prints what a sheet has and its ratios; false if the outputs differ.
fn print_row(sheet: &Sheet, rounds: usize) -> bool {
    let first = sheet.first(SHORT);
    let Some([whole, short]) = measure([sheet, &first], rounds) else {
        println!("{}: the outputs differ", sheet.label());
        return false;
    };
    print!("{:<10} {:<10}", sheet.name, sheet.kinds);
    let (ticks, taken, codes) = (sheet.ticks(), sheet.taken(), sheet.codes_taken());
    print!(" {ticks:>6} {taken:>6} {codes:>6}");
    let [plain, proved] = &whole;
    let middle = rounds / 2;
    let [least, median] = [0, middle].map(|at| proved[at] / plain[at]);
    let [plain, proved] = [0, 1].map(|engine| whole[engine][0] / short[engine][0]);
    print!(" {least:>8.2} {median:>7.2}");
    println!(" {:>7} {proved:>7.2} {plain:>6.2}", first.ticks());
    true
}

const HEAD: &str =
    "                                           proved / plain      4096 / 512 events
sheet      kinds       ticks  taken  codes  minimum  median   ticks  proved  plain";

/// Prints a row for each sheet; false if the outputs differ, or if a sheet is not to be measured.
pub fn print(rounds: usize) -> bool {
    let sheets = sheets();
    for sheet in &sheets {
        if let Some(fault) = sheet.fault() {
            println!("{}: not measured: {fault}", sheet.label());
            return false;
        }
    }
    println!("time of the run, {rounds} rounds; codes among the taken; ticks among the first 512");
    println!("{HEAD}");
    let equal = sheets.iter().all(|sheet| print_row(sheet, rounds));
    if equal {
        println!("every output equal in every round");
    }
    equal
}
