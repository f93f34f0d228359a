//! Compares the plain engine with the proved one, or with a planted fault.

mod options;
mod self_test;

use compare::case::Case;
use compare::chart;
use compare::check::Pair;
use compare::engines::{Plain, Planted};
use compare::print::{files, is_fresh, text};
use compare::search::{from_fresh, reduce, search, search_fixed, Difference, Outcome};
use compare::second::Proved;
use compare::stack::Stack;
use compare::Engine;
use gen::Coverage;
use options::{Options, USAGE};
use std::process::ExitCode;
use std::thread;
use std::time::{Duration, Instant};

fn main() -> ExitCode {
    let options = match Options::read(std::env::args().skip(1)) {
        Ok(options) => options,
        Err(refusal) => {
            eprintln!("{refusal}\n{USAGE}");
            return ExitCode::from(2);
        }
    };
    match (options.fault, options.stack) {
        _ if options.self_test => self_test::self_test(&options),
        (Some(fault), _) => compare(&options, &Planted(fault)),
        (_, Some(bytes)) => compare_on_stack(options, bytes),
        _ => compare(&options, &Proved::default()),
    }
}

/// Stack for the comparison itself. It needs less than 800,000 bytes; with more, each call has
/// further to go down.
const OWN_STACK: usize = 900_000;

/// Compares on a thread, with at most so many bytes of its stack below each call of the proved
/// engine. The frame that calls counts among them; it holds the plant and the answer.
fn compare_on_stack(options: Options, bytes: usize) -> ExitCode {
    let work = move || {
        let stack = Stack::last(bytes)?;
        let proved = Proved { stack: Some(stack) };
        let code = compare(&options, &proved);
        if let Some((least, most)) = proved.stack.map(|stack| stack.left()) {
            println!("stack left for a call of the proved engine: {least} to {most} bytes");
        }
        Ok::<ExitCode, String>(code)
    };
    let thread = thread::Builder::new().name("comparison".into());
    let thread = thread.stack_size(bytes.saturating_add(OWN_STACK));
    let result = match thread.spawn(work).map(|thread| thread.join()) {
        Ok(Ok(result)) => result,
        Ok(Err(_)) => Err("the comparison panicked".into()),
        Err(error) => Err(error.to_string()),
    };
    result.unwrap_or_else(|refusal| {
        eprintln!("--stack {bytes}: {refusal}");
        ExitCode::FAILURE
    })
}

fn compare(options: &Options, second: &dyn Engine) -> ExitCode {
    println!("plain against {}, seed {}", second.name(), options.seed);
    let pair = Pair {
        first: &Plain,
        second,
    };
    let since = Instant::now();
    let mut fixed = Coverage::new();
    if options.is_whole() {
        if !chart_holds(pair) {
            return ExitCode::FAILURE;
        }
        let outcome = search_fixed(pair);
        println!("{} fixed cases", outcome.cases);
        if outcome.difference.is_some() {
            return close(options, pair, &outcome, since.elapsed());
        }
        fixed = outcome.seen;
    }
    let mut shown = 0;
    let mut outcome = search(pair, options.plan(), &mut |cases, seen| {
        let due = since.elapsed().as_secs() / 5;
        if due > shown {
            shown = due;
            let mut seen = seen.clone();
            seen.add(&fixed);
            progress(5 * due, cases, &seen);
        }
    });
    outcome.seen.add(&fixed);
    close(options, pair, &outcome, since.elapsed())
}

/// The chart rows without a star, on both engines.
fn chart_holds(pair: Pair) -> bool {
    let mut holds = true;
    for engine in [pair.first, pair.second] {
        let failing = chart::failing(engine);
        holds &= failing.is_empty();
        for row in failing {
            println!("chart, {}: {row} does not hold", engine.name());
        }
    }
    if holds {
        println!("chart rows without a star hold on both, kinds 1 to 6");
    }
    holds
}

fn progress(seconds: u64, cases: u64, seen: &Coverage) {
    let (reached, all) = seen.reached();
    let events = seen.events();
    println!("{seconds:>5} s  {cases} cases  {events} events  reached {reached} of {all}");
}

fn close(options: &Options, pair: Pair, outcome: &Outcome, time: Duration) -> ExitCode {
    let seconds = time.as_secs_f64();
    if let Some(difference) = &outcome.difference {
        println!("{} cases in {seconds:.1} s", outcome.cases);
        show(options, pair, difference);
        return ExitCode::FAILURE;
    }
    println!("{}", outcome.seen.table());
    println!("{} cases in {seconds:.1} s", outcome.cases);
    println!("no difference");
    let missing = outcome.seen.missing();
    for left in &missing {
        println!("not reached: {left}");
    }
    match options.is_whole() && !missing.is_empty() {
        true => ExitCode::FAILURE,
        false => ExitCode::SUCCESS,
    }
}

/// The smallest input found. `crossing` starts from a fresh plant: where the input does not,
/// another that does is looked for.
fn show(options: &Options, pair: Pair, difference: &Difference) {
    match (options.seed, difference.index) {
        (seed, Some(index)) => {
            println!("DIFFERENCE, again with --seed {seed} --first {index} --cases 1");
        }
        _ => println!("DIFFERENCE in a fixed case"),
    }
    let (mut case, what) = reduce(pair, difference.case.clone());
    print!("{what}\nsmallest input found: {}", text(&case));
    if !is_fresh(&case) {
        match from_fresh(pair, options.seed) {
            Some((other, what)) => {
                print!(
                    "{what}\nsmallest found from a fresh plant: {}",
                    text(&other)
                );
                case = other;
            }
            None => println!("none found from a fresh plant"),
        }
    }
    if let Some(dir) = &options.out {
        write_files(dir, &case);
    }
}

/// Writes the files that `crossing` can be run on, or the two sheets of a shift.
fn write_files(dir: &str, case: &Case) {
    for (name, bytes) in files(case) {
        let path = std::path::Path::new(dir).join(name);
        if let Err(error) = std::fs::write(&path, bytes) {
            eprintln!("{}: {error}", path.display());
        }
    }
}
