//! A piece of work once, for ci/instructions, which counts the instructions of `counted` alone.

use crate::calls::calls;
use crate::sheets::{sheets, Sheet};
use compare::engines::Plain;
use compare::second::Proved;
use compare::Engine;

/// What is counted.
#[inline(never)]
fn counted(work: &mut dyn FnMut()) {
    work();
}

/// The sheets and the calls that can be done once, by their names.
pub fn names() -> Vec<String> {
    let sheets = sheets().iter().map(Sheet::label).collect::<Vec<_>>();
    let calls = calls().into_iter().map(|call| call.name.into());
    sheets.into_iter().chain(calls).collect()
}

/// Has an engine run a sheet once, or make a call once on each of its moments; gives how many times
/// it was called, none where there is no such work or engine.
pub fn once(work: &str, engine: &str) -> Option<usize> {
    let proved = match engine {
        "proved" => true,
        "plain" => false,
        _ => return None,
    };
    if let Some(call) = calls().iter().find(|call| call.name == work) {
        let way = if proved { call.proved } else { call.plain };
        let mut moments = call.moments();
        for moment in &mut moments {
            counted(&mut || way(moment));
        }
        return Some(moments.len());
    }
    let sheet = sheets().into_iter().find(|sheet| sheet.label() == work)?;
    let engine: &dyn Engine = if proved { &Proved::default() } else { &Plain };
    let (mut plant, mut panel) = (sheet.plant, [0; 128]);
    counted(&mut || {
        engine.run(&mut plant, &sheet.bytes, &mut panel);
    });
    Some(1)
}
