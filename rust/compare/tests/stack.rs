//! A call gets the last bytes of a thread's stack, and no more.

use compare::stack::Stack;
use std::process::{Command, Output};
use std::thread;

#[test]
fn what_is_left_is_what_was_asked_for() {
    for room in [3_000, 20_000, 100_000] {
        let calls = move || {
            let stack = Stack::last(room).unwrap();
            let sum: usize = (0..3).map(|i| stack.call(|| i)).sum();
            (sum, stack.left())
        };
        let thread = thread::Builder::new().stack_size(room + 100_000);
        let (sum, (least, most)) = thread.spawn(calls).unwrap().join().unwrap();
        assert_eq!(sum, 3);
        assert!(room - 256 <= least && least <= most && most <= room);
    }
}

/// A few sessions with so many bytes.
fn sessions(stack: &str) -> Output {
    let mut compare = Command::new(env!("CARGO_BIN_EXE_compare"));
    compare.args(["--sessions", "--cases", "20", "--stack", stack]);
    compare.output().unwrap()
}

#[test]
fn the_engine_runs_on_enough_and_not_on_too_little() {
    let enough = sessions("20000");
    let text = String::from_utf8_lossy(&enough.stdout).into_owned();
    assert!(enough.status.success(), "{text}");
    assert!(text.contains("no difference"), "{text}");
    let little = sessions("700");
    assert!(!little.status.success());
    let text = String::from_utf8_lossy(&little.stderr).into_owned();
    assert!(text.contains("overflowed its stack"), "{text}");
}
