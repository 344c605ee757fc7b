//! Reads one journal from a file, then replays and records it a number of times.

use second::{journal, print, recording};
use std::hint::black_box;

fn main() {
    let arguments: Vec<String> = std::env::args().collect();
    if arguments.len() != 3 {
        eprintln!("usage: bench JOURNAL-FILE TIMES");
        std::process::exit(2);
    }
    let bytes = std::fs::read(&arguments[1]).expect("the journal can be read");
    let times: u32 = arguments[2].parse().expect("the times are a number");
    let mut last = (0, 0, 0, 0);
    for _ in 0..times {
        let reading = journal::read(black_box(&bytes));
        let mut lent = [0; print::MOST_BYTES];
        let (refusal, written, total) = match reading.refusal {
            0 => recording::write(&reading.run, &mut lent),
            _ => (0, 0, 0),
        };
        black_box(&lent);
        last = (reading.refusal, refusal, written, total);
    }
    println!(
        "reading {}, recording {}, bytes written {}, total {}",
        last.0, last.1, last.2, last.3
    );
}
