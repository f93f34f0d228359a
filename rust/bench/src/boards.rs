//! The proved engine's distance of an arrow board (document 02, T-08): its time in nanoseconds, and
//! over that of the plain engine.

use crate::sort;
use compare::Board;
use gen::Rng;
use std::time::Instant;

const SEED: u64 = 8;
/// Inputs of a row; each round goes through all of them.
const INPUTS: usize = 256;

/// A way to a number and a distance.
type Way = fn(&Board) -> (u8, u16);

fn proved(board: &Board) -> (u8, u16) {
    let answer = wilzhoram::board_distance(board.speed, board.retardation, board.gradient);
    (answer.number, answer.distance)
}

fn plain(board: &Board) -> (u8, u16) {
    let answer = engine::board_distance(board.speed, board.retardation, board.gradient);
    (answer.number, answer.distance)
}

/// Seeded inputs in range, or others.
fn inputs(in_range: bool) -> Vec<Board> {
    let rng = &mut Rng::new(SEED);
    let all = std::iter::repeat_with(|| gen::board(rng));
    let wished = all.filter(|board| board.is_in_range() == in_range);
    wished.take(INPUTS).collect()
}

/// What one way gives for all inputs, and its time for one in nanoseconds.
fn timed(way: Way, inputs: &[Board]) -> (Vec<(u8, u16)>, f64) {
    let mut answers = vec![(0, 0); inputs.len()];
    let start = Instant::now();
    for (answer, board) in answers.iter_mut().zip(inputs) {
        *answer = way(board);
    }
    let time = start.elapsed().as_secs_f64() * 1e9;
    (answers, time / inputs.len() as f64)
}

/// The times of both engines, sorted; none if their answers differ.
fn times(inputs: &[Board], rounds: usize) -> Option<[Vec<f64>; 2]> {
    let mut times = [Vec::new(), Vec::new()];
    for _ in 0..rounds {
        let (ours, time) = timed(proved, inputs);
        times[0].push(time);
        let (theirs, time) = timed(plain, inputs);
        times[1].push(time);
        if ours != theirs {
            return None;
        }
    }
    times.iter_mut().for_each(|times| sort(times));
    Some(times)
}

/// Prints a line for inputs in range and one for others; false if the engines differ.
pub fn print(rounds: usize) -> bool {
    println!(
        "\ntime of the proved distance of an arrow board in ns, and over that of the plain one"
    );
    println!("inputs     least  median  least/plain  median/plain");
    for (name, in_range) in [("in range", true), ("refused", false)] {
        let Some([proved, plain]) = times(&inputs(in_range), rounds) else {
            println!("{name}: the answers differ");
            return false;
        };
        let middle = rounds / 2;
        println!(
            "{name:<9} {:>6.1} {:>7.1} {:>12.2} {:>13.2}",
            proved[0],
            proved[middle],
            proved[0] / plain[0],
            proved[middle] / plain[middle]
        );
    }
    true
}
