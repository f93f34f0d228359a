//! Every planted fault must be found.

use crate::options::Options;
use compare::search::{find_fault, is_in_lists, smallest, Found, Plan};
use faults::{Fault, FAULTS};
use std::process::ExitCode;
use std::time::Instant;

const CASES: u64 = 20_000;
const SESSIONS: u64 = 200;

/// How a fault was found, in words as wide as any.
fn cell(fault: &'static Fault, found: &Option<Found>) -> String {
    let Some(f) = found else {
        return format!("{:>35}", "-");
    };
    let ms = f.time.as_secs_f64() * 1e3;
    let events = smallest(fault, f);
    let among = match f.difference.index {
        Some(_) => "cases",
        None => "fixed",
    };
    format!("{:>6} {among} {ms:>6.1} ms {events:>4} events", f.cases)
}

/// One fault: found or not, over all cases and over sessions alone.
fn line(fault: &'static Fault, options: &Options) -> bool {
    let mut plan = Plan::of_cases(options.seed, options.cases.unwrap_or(CASES));
    let any = find_fault(fault, plan);
    plan.sessions = true;
    plan.cases = Some(SESSIONS);
    let fresh = match is_in_lists(fault) {
        true => find_fault(fault, plan),
        false => None,
    };
    let (a, b) = (cell(fault, &any), cell(fault, &fresh));
    println!("{:<31} {a}  |  {b}  {}", fault.name, fault.what);
    any.is_some()
}

pub fn self_test(options: &Options) -> ExitCode {
    let since = Instant::now();
    println!("{:<31} {:>35}  |  {:>35}", "fault", "all cases", "sessions");
    let found = FAULTS.iter().filter(|f| line(f, options)).count();
    let seconds = since.elapsed().as_secs_f64();
    println!("{found} of {} faults found in {seconds:.1} s", FAULTS.len());
    match found == FAULTS.len() {
        true => ExitCode::SUCCESS,
        false => ExitCode::FAILURE,
    }
}
