//! The options of the program.

use compare::search::Plan;
use faults::{Fault, FAULTS};
use std::str::FromStr;
use std::time::Duration;

pub const USAGE: &str = "compare [--seconds N] [--cases N] [--seed N] [--first N] [--sessions] \
                         [--out DIR] [--fault NAME | --stack BYTES | --self-test]";
const SECONDS: u64 = 120;

#[derive(Default)]
pub struct Options {
    seconds: Option<u64>,
    pub cases: Option<u64>,
    pub seed: u64,
    first: u64,
    pub fault: Option<&'static Fault>,
    pub stack: Option<usize>,
    pub out: Option<String>,
    sessions: bool,
    pub self_test: bool,
}

fn number<T: FromStr>(option: &str, value: Option<String>) -> Result<T, String> {
    let number = value.and_then(|value| value.parse().ok());
    number.ok_or(format!("{option}: a number is missing"))
}

fn named(name: Option<String>) -> Result<&'static Fault, String> {
    let name = name.unwrap_or_default();
    let fault = FAULTS.iter().find(|fault| fault.name == name);
    fault.ok_or(format!("--fault: no {name:?} among faults/edits"))
}

impl Options {
    pub fn read(mut args: impl Iterator<Item = String>) -> Result<Options, String> {
        let mut options = Options {
            seed: 1,
            ..Options::default()
        };
        while let Some(arg) = args.next() {
            match arg.as_str() {
                "--self-test" => options.self_test = true,
                "--sessions" => options.sessions = true,
                "--seconds" => options.seconds = Some(number(&arg, args.next())?),
                "--cases" => options.cases = Some(number(&arg, args.next())?),
                "--seed" => options.seed = number(&arg, args.next())?,
                "--first" => options.first = number(&arg, args.next())?,
                "--stack" => options.stack = Some(number(&arg, args.next())?),
                "--fault" => options.fault = Some(named(args.next())?),
                "--out" => options.out = Some(args.next().ok_or("--out: a folder is missing")?),
                _ => return Err(format!("{arg}: no such option")),
            }
        }
        let kinds = [options.fault.is_some(), options.stack.is_some()];
        let kinds = kinds.iter().chain([&options.self_test]);
        if kinds.filter(|given| **given).count() > 1 {
            return Err("--fault, --stack, --self-test: one of them at most".into());
        }
        Ok(options)
    }

    /// Two minutes, unless told otherwise.
    pub fn plan(&self) -> Plan {
        let seconds = match (self.seconds, self.cases) {
            (None, None) => Some(SECONDS),
            (seconds, _) => seconds,
        };
        Plan {
            seed: self.seed,
            first: self.first,
            cases: self.cases,
            time: seconds.map(Duration::from_secs),
            sessions: self.sessions,
        }
    }

    /// All kinds of cases from the first on: then everything must be reached.
    pub fn is_whole(&self) -> bool {
        !self.sessions && self.first == 0
    }
}
