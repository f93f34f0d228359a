//! The proved engine's comparison of two sheets (document 02, T-07) on pairs that take long: its
//! time in microseconds, and over that of the plain engine, which sorts.

use crate::sort;
use std::time::Instant;

/// The longest sheet that is compared, in events.
const EVENTS: usize = 256;

/// A pair of sheets, the hut's and the cabin's.
struct Pair {
    name: &'static str,
    hut: Vec<u8>,
    cabin: Vec<u8>,
}

/// The sheet that has the event `at` gives for each place.
fn sheet(at: impl Fn(usize) -> [u8; 4]) -> Vec<u8> {
    let events: Vec<[u8; 4]> = (0..EVENTS).map(at).collect();
    let size = (EVENTS as u16).to_le_bytes();
    let codes = events.iter().map(|event| event[0]);
    let triples = events.iter().flat_map(|event| event[1..].to_vec());
    size.into_iter().chain(codes).chain(triples).collect()
}

/// An event of its own for each place, none a tick.
fn own(at: usize) -> [u8; 4] {
    [1 + (at % 9) as u8, at as u8, 0, 0]
}

/// A tick in four; the two before it exchanged in the cabin's sheet.
fn ticked(at: usize, exchanged: bool) -> [u8; 4] {
    match at % 4 {
        3 => [0; 4],
        1 if exchanged => own(at + 1),
        2 if exchanged => own(at - 1),
        _ => own(at),
    }
}

fn pairs() -> [Pair; 4] {
    let pair = |name, hut, cabin| Pair { name, hut, cabin };
    [
        pair(
            "one stretch, no event twice, turned about",
            sheet(own),
            sheet(|at| own(EVENTS - 1 - at)),
        ),
        pair(
            "one stretch, one event throughout",
            sheet(|_| own(0)),
            sheet(|_| own(0)),
        ),
        pair("ticks only", sheet(|_| [0; 4]), sheet(|_| [0; 4])),
        pair(
            "a tick in four, neighbours exchanged",
            sheet(|at| ticked(at, false)),
            sheet(|at| ticked(at, true)),
        ),
    ]
}

/// The times of both engines, sorted; none if they do not agree that the sheets do.
fn times(pair: &Pair, rounds: usize) -> Option<(Vec<f64>, Vec<f64>)> {
    let (mut proved, mut plain) = (Vec::new(), Vec::new());
    for _ in 0..rounds {
        let start = Instant::now();
        let ours = wilzhoram::agree(&pair.hut, &pair.cabin);
        proved.push(start.elapsed().as_secs_f64() * 1e6);
        let start = Instant::now();
        let theirs = engine::agree(&pair.hut, &pair.cabin);
        plain.push(start.elapsed().as_secs_f64() * 1e6);
        if !(ours.agreed && theirs.agreed) {
            return None;
        }
    }
    sort(&mut proved);
    sort(&mut plain);
    Some((proved, plain))
}

/// Prints a line for each pair; false if the engines differ.
pub fn print(rounds: usize) -> bool {
    println!("two sheets of {EVENTS} events compared, time of the proved engine in us and over that of the plain one");
    println!(
        "sheets                                      least  median  least/plain  median/plain"
    );
    for pair in pairs() {
        let Some((proved, plain)) = times(&pair, rounds) else {
            println!("{}: not agreed", pair.name);
            return false;
        };
        let middle = rounds / 2;
        println!(
            "{:<42} {:>6.2} {:>7.2} {:>12.2} {:>13.2}",
            pair.name,
            proved[0],
            proved[middle],
            proved[0] / plain[0],
            proved[middle] / plain[middle]
        );
    }
    true
}
