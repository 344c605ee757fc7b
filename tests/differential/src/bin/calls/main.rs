//! Makes one call many times, by the proved code or by the second implementation, so that its
//! instructions and its time can be told apart from a process's start.
//!
//! A call that changes a run gets a fresh copy of the run that the journal replays to. The call
//! `copy` makes that copy alone; what it takes is to be taken off `send`, `receive`, `start`, `enter`
//! and `leave`.

mod proved;
mod second_calls;

use std::hint::black_box;
use std::time::Instant;

/// One call, made once; it gives the refusal's number.
pub type Once = Box<dyn Fn() -> u32>;

/// How long a batch of calls should take at least, in nanoseconds: so short that other work on the
/// machine falls into few batches.
const BATCH: u128 = 20_000;

fn batch(once: &Once, size: u32) -> u128 {
    let start = Instant::now();
    for _ in 0..size {
        black_box(once());
    }
    start.elapsed().as_nanos()
}

/// The time of the best of so many batches, in nanoseconds a call.
fn best(once: &Once, batches: u32) -> u128 {
    let mut size = 1;
    while batch(once, size) < BATCH {
        size *= 2;
    }
    let times = (0..batches).map(|_| batch(once, size));
    times.min().unwrap_or(0) / u128::from(size)
}

fn arguments() -> Option<(Once, u32, bool)> {
    let arguments: Vec<String> = std::env::args().skip(1).collect();
    let [who, call, path, times, rest @ ..] = &arguments[..] else {
        return None;
    };
    let bytes = std::fs::read(path).ok()?;
    let once = match who.as_str() {
        "proved" => proved::call(call, bytes)?,
        "second" => second_calls::call(call, bytes)?,
        _ => return None,
    };
    let timed = match rest {
        [] => false,
        [flag] if flag == "--time" => true,
        _ => return None,
    };
    Some((once, times.parse().ok()?, timed))
}

/// Makes the call so many times and prints its answer, or with `--time` its time, the best of so many
/// batches.
fn main() {
    let Some((once, times, timed)) = arguments() else {
        eprintln!("usage: calls proved|second CALL JOURNAL-FILE TIMES [--time]");
        std::process::exit(2);
    };
    if timed {
        println!("{}", best(&once, times));
        return;
    }
    let mut answer = 0;
    for _ in 0..times {
        answer = black_box(once());
    }
    println!("{answer}");
}
