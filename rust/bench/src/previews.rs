//! The proved engine's preview: its time over that of the event and a drawing of the plant it
//! gives, and over that of the plain engine's preview. Each event, its drawing and its preview are
//! those of a sender that may send it.

use crate::calls;
use crate::moments::{measure, Moment, INPUTS};
use engine::{code, number, Site};
use gen::{entry, Rng};

const SEED: u64 = 3;

/// The event, and a drawing of the plant that it gives.
#[inline(never)]
fn pressed(moment: &mut Moment) {
    let (plant, event) = (moment.proved_plant, moment.proved_event);
    let answer = wilzhoram::event(plant, moment.sender, event);
    wilzhoram::draw(answer.plant, moment.sender, &mut moment.panel);
    moment.answer = (answer.number, answer.written);
}

/// The same answers and panels; the event and drawing draws a refused event too, which is previewed
/// as nothing.
fn equal([previewed, pressed, plain]: [&Moment; 3]) -> bool {
    let drawn = previewed.answer.0 != number::TAKEN || previewed.panel == pressed.panel;
    previewed.answer == pressed.answer && drawn && calls::equal([previewed, plain])
}

/// `n` crossings of kinds 1 to 4, M 0.
fn site(rng: &mut Rng, n: u8) -> Site {
    let mut site = Site { n, ..Site::ZERO };
    site.entries[..n.into()].fill_with(|| entry(rng, true));
    site
}

const HEAD: &str = "
time of the proved preview, over the proved event and drawing, over the plain preview
              preview     event and drawing          plain preview
 n  event          ns      ns  minimum  median      ns  minimum  median";

/// Prints a row for each code taken and one for refused events, at one and at eight crossings;
/// false if the outputs differ. The times are the least ones.
pub fn print(rounds: usize) -> bool {
    println!("{HEAD}");
    let ways = [calls::proved_preview, pressed, calls::plain_preview];
    let rng = &mut Rng::new(SEED);
    let codes = (code::TICK..=code::LAMP_REPORT).map(Some).chain([None]);
    let rows = [1, 8].map(|n| codes.clone().map(move |code| (n, code)));
    for (n, code) in rows.into_iter().flatten() {
        let moment = |_| Moment::find(rng, code, |rng| site(rng, n));
        let moments: Vec<Moment> = (0..INPUTS).map(moment).collect();
        let name = code.map_or("refused".into(), |code| format!("code {code}"));
        let Some([preview, press, plain]) = measure(ways, &moments, rounds, equal) else {
            println!("{n} {name}: the outputs differ");
            return false;
        };
        print!("{n:>2}  {name:<8} {:>7.0}", preview[0]);
        for times in [press, plain] {
            let [least, median] = [0, rounds / 2].map(|at| preview[at] / times[at]);
            print!(" {:>7.0} {least:>8.2} {median:>7.2}", times[0]);
        }
        println!();
    }
    println!("every answer equal in every round, and every panel that both draw");
    true
}
