//! The peer beside the proved code.
//!
//! `speed compare` makes both do the same and compares every answer, with `--soak SECONDS` for so
//! long. `speed time ROUNDS` prints the time of each call in nanoseconds. `speed count` makes
//! each call once inside the function `speed_once`, for callgrind, and prints the calls in order;
//! tools/speed.py runs both and writes docs/performance/peer.tsv. `speed journal ring|full|gates
//! ZONES RECORDS` writes a journal that is measured to standard output.

mod compare;
mod measure;
mod proved;
mod scenes;

use speed::site::{Run, JOURNAL_BYTES};
use std::io::Write;

fn usage() -> ! {
    eprintln!("usage: speed compare [--soak SECONDS] | time ROUNDS | count | journal ring|full|gates ZONES RECORDS");
    std::process::exit(2);
}

fn number<T: std::str::FromStr>(text: &str) -> T {
    text.parse().unwrap_or_else(|_| usage())
}

fn journal(run: &Run) {
    let mut bytes = [0; JOURNAL_BYTES];
    let written = run.write(&mut bytes).written;
    let wrote = std::io::stdout().write_all(&bytes[..written]);
    wrote.expect("standard output can be written");
}

fn main() {
    assert!(
        proved::same_layout(),
        "the peer's run and zone lie in memory as those of c/cut/site.h and c/cut/zone.h"
    );
    let arguments: Vec<String> = std::env::args().skip(1).collect();
    let arguments: Vec<&str> = arguments.iter().map(String::as_str).collect();
    match arguments[..] {
        ["compare"] => compare::all(0),
        ["compare", "--soak", seconds] => compare::all(number(seconds)),
        ["time", rounds] => measure::time(number(rounds)),
        ["count"] => measure::count(),
        ["journal", "ring", zones, records] => {
            journal(&scenes::ring(number(zones), number(records)))
        }
        ["journal", "full", zones, records] => {
            journal(&scenes::full(number(zones), number(records)))
        }
        ["journal", "gates", zones, records] => {
            journal(&scenes::gates(number(zones), number(records)))
        }
        _ => usage(),
    }
}
