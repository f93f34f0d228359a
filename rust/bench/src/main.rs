//! The time of the proved engine's sheet run over that of the plain one, as a ratio.
//!
//! Both run the same sheets of 4,096 events over eight crossings, one after the other in every
//! round, and every output is compared. Then, in the same way, the other calls: event, preview and
//! drawing; the preview over an event and a drawing; two sheets compared; the distance of an arrow
//! board. bench [ROUNDS]
//!
//! bench --once lists the sheets and the calls; with one of them and an engine, proved or plain, it
//! does that once and prints how many calls these were. bench --once NAME ENGINE

mod agreements;
mod boards;
mod calls;
mod moments;
mod once;
mod previews;
mod runs;
mod sheets;

use std::process::ExitCode;

const ROUNDS: usize = 2000;

/// The least time first, the median in the middle.
fn sort(times: &mut [f64]) {
    times.sort_by(f64::total_cmp);
}

fn measure(rounds: usize) -> bool {
    runs::print(rounds)
        && calls::print(rounds)
        && previews::print(rounds)
        && agreements::print(rounds)
        && boards::print(rounds)
}

/// Whether all went well; none for arguments that are not to be understood.
fn answer(args: &[&str]) -> Option<bool> {
    match args {
        [] => Some(measure(ROUNDS)),
        ["--once"] => {
            once::names().iter().for_each(|name| println!("{name}"));
            Some(true)
        }
        ["--once", work, engine] => {
            println!("{}", once::once(work, engine)?);
            Some(true)
        }
        [rounds] => match rounds.parse() {
            Ok(rounds) if rounds > 0 => Some(measure(rounds)),
            _ => None,
        },
        _ => None,
    }
}

fn main() -> ExitCode {
    let args: Vec<String> = std::env::args().skip(1).collect();
    let args: Vec<&str> = args.iter().map(String::as_str).collect();
    match answer(&args) {
        Some(true) => ExitCode::SUCCESS,
        Some(false) => ExitCode::FAILURE,
        None => {
            eprintln!("bench [ROUNDS]\nbench --once [NAME proved|plain]");
            ExitCode::from(2)
        }
    }
}
