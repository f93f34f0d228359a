//! Calls with little stack left below them.

use std::cell::Cell;
use std::hint::black_box;
use std::mem::MaybeUninit;

/// The last bytes of a thread's stack.
pub struct Stack {
    /// The lowest address of the thread's stack.
    end: usize,
    room: usize,
    least: Cell<usize>,
    most: Cell<usize>,
}

impl Stack {
    /// The last `room` bytes of the stack of this thread, which must not be the program's first:
    /// only that one's stack grows.
    pub fn last(room: usize) -> Result<Stack, String> {
        let end = stack_end(&room as *const usize as usize)?;
        Ok(Stack {
            end,
            room,
            least: Cell::new(usize::MAX),
            most: Cell::new(0),
        })
    }

    /// Goes down the stack until no more than the last bytes are left; there it works.
    pub fn call<T>(&self, work: impl FnOnce() -> T) -> T {
        let (mut work, mut result) = (Some(work), None);
        let mut last = |left: usize| {
            self.least.set(self.least.get().min(left));
            self.most.set(self.most.get().max(left));
            result = work.take().map(|work| work());
        };
        let mut near = |_| descend::<SMALL>(self.end, self.room, &mut last);
        descend::<LARGE>(self.end, self.room + LARGE + NEAR, &mut near);
        result.expect("the work is done once")
    }

    /// The least and the most bytes that were left for a call.
    pub fn left(&self) -> (usize, usize) {
        (self.least.get(), self.most.get())
    }
}

const LARGE: usize = 1 << 14;
const SMALL: usize = 64;
/// More than a frame needs beside its pad.
const NEAR: usize = 1 << 10;

/// Goes down by frames with a pad until at most `room` bytes are left above `end`, then hands
/// over how many.
#[inline(never)]
fn descend<const PAD: usize>(end: usize, room: usize, work: &mut dyn FnMut(usize)) {
    let pad = [MaybeUninit::<u8>::uninit(); PAD];
    let left = black_box(&pad).as_ptr() as usize - end;
    match left > room {
        true => descend::<PAD>(end, room, work),
        false => work(left),
    }
    // The frame stays until the work is done.
    black_box(&pad);
}

/// The start of the mapped memory that an address is in. Below a thread's stack lies its guard
/// page, which is no part of it.
fn stack_end(address: usize) -> Result<usize, String> {
    let maps = std::fs::read_to_string("/proc/self/maps");
    let maps = maps.map_err(|error| format!("/proc/self/maps: {error}"))?;
    let ranges = maps.lines().filter_map(|line| {
        let (start, rest) = line.split_once('-')?;
        let hex = |digits| usize::from_str_radix(digits, 16).ok();
        Some(hex(start)?..hex(rest.split(' ').next()?)?)
    });
    let stack = ranges.into_iter().find(|range| range.contains(&address));
    let stack = stack.ok_or("/proc/self/maps: this thread's stack is not in it")?;
    Ok(stack.start)
}
