//! Plants after some traffic, each with an event that a sender may send, and the time of a call on
//! them.

use crate::sort;
use compare::second::{proved_event, proved_plant};
use engine::{number, panel_len, Plant, Site};
use gen::{event, junk_event, played, Command, Rng};
use std::time::Instant;

/// Inputs of a row; each round goes through all of them.
pub const INPUTS: usize = 32;

/// A plant, a sender and its event, as each engine takes them, the lent panel, and what was last
/// answered: number and written-off count.
#[derive(Clone)]
pub struct Moment {
    pub plant: Plant,
    pub sender: u8,
    pub event: [u8; 4],
    pub proved_plant: wilzhoram::Plant,
    pub proved_event: wilzhoram::Event,
    pub panel: Vec<u8>,
    pub answer: (u8, u32),
}

/// A call, or more, at a moment. None is inlined, so that each is called alike.
pub type Way = fn(&mut Moment);

impl Moment {
    fn new(plant: Plant, event: [u8; 4]) -> Moment {
        Moment {
            plant,
            sender: Command::rightful(event).sender,
            event,
            proved_plant: proved_plant(&plant),
            proved_event: proved_event(event),
            panel: vec![0; panel_len(plant.site.n)],
            answer: (0, 0),
        }
    }

    /// A moment at a site, with an event of the row.
    pub fn find(rng: &mut Rng, code: Option<u8>, site: impl Fn(&mut Rng) -> Site) -> Moment {
        loop {
            let site = site(rng);
            let len = rng.below(200) as usize;
            let plant = played(rng, &Plant::fresh(&site), len);
            let events = [(); 100].map(|_| match code {
                None if rng.flag() => junk_event(rng, &plant),
                _ => event(rng, &plant),
            });
            if let Some(event) = events.into_iter().find(|e| suits(&plant, *e, code)) {
                return Moment::new(plant, event);
            }
        }
    }
}

/// Whether an event is of a row: taken with its code, or refused where it has none.
fn suits(plant: &Plant, event: [u8; 4], code: Option<u8>) -> bool {
    let sender = Command::rightful(event).sender;
    let taken = engine::event(&mut plant.clone(), sender, event).0 == number::TAKEN;
    match code {
        Some(code) => taken && event[0] == code,
        None => !taken,
    }
}

/// What one way makes of all inputs, and its time for one in nanoseconds.
fn timed(way: Way, moments: &[Moment]) -> (Vec<Moment>, f64) {
    let mut outputs = moments.to_vec();
    let start = Instant::now();
    for moment in &mut outputs {
        way(moment);
    }
    let time = start.elapsed().as_secs_f64() * 1e9;
    (outputs, time / moments.len() as f64)
}

/// The times of each way, sorted; none if their outputs are not equal.
pub fn measure<const N: usize>(
    ways: [Way; N],
    moments: &[Moment],
    rounds: usize,
    equal: fn([&Moment; N]) -> bool,
) -> Option<[Vec<f64>; N]> {
    let mut times = [(); N].map(|_| Vec::with_capacity(rounds));
    for _ in 0..rounds {
        let mut outputs = ways.iter().zip(&mut times).map(|(way, times)| {
            let (outputs, time) = timed(*way, moments);
            times.push(time);
            outputs
        });
        let outputs = [(); N].map(|_| outputs.next().unwrap_or_default());
        let at = |i: usize| std::array::from_fn(|way| &outputs[way][i]);
        if !(0..moments.len()).all(|i| equal(at(i))) {
            return None;
        }
    }
    times.iter_mut().for_each(|times| sort(times));
    Some(times)
}
