//! What a report says of calls, runs and bytes.

use crate::ffi::PlainRun;
use second::site::{Call, Direction, PLACES};
use std::fmt::Write;

pub fn call(call: Call) -> String {
    match call {
        Call::HandOver { from, to, cars } => format!("cut_site_send({from}, {to}, {cars})"),
        Call::Receipt { from, to } => format!("cut_site_receive({from}, {to})"),
        Call::Start { zone } => format!("cut_site_start({zone})"),
        Call::Gate {
            direction,
            zone,
            cars,
        } => match direction {
            Direction::In => format!("cut_site_enter({zone}, {cars})"),
            Direction::Out => format!("cut_site_leave({zone}, {cars})"),
        },
    }
}

/// A list of calls with their numbers, one in each line.
pub fn calls(calls: &[(Call, u32)]) -> String {
    let mut lines = String::new();
    for &(made, refusal) in calls {
        writeln!(lines, "  {} -> {refusal}", call(made)).expect("a string takes any text");
    }
    lines
}

pub fn bytes(bytes: &[u8]) -> String {
    let pairs: Vec<String> = bytes.iter().map(|byte| format!("{byte:02X}")).collect();
    pairs.join(" ")
}

/// Every field of a run; of the lines and the journal, the places that do not hold 0.
pub fn run(run: &PlainRun) -> String {
    let mut lines = format!(
        "  edition {}, count {}, records {}\n",
        run.edition, run.count, run.records
    );
    for (index, zone) in run.zones.iter().enumerate() {
        lines += &format!("  zones[{index}] {zone:?}\n");
    }
    lines += &format!("  opening {:?}\n", run.opening);
    for (place, row) in run.items.chunks(PLACES).enumerate() {
        if run.lens[place] != 0 || row.iter().any(|&word| word != 0) {
            lines += &format!("  line {place}: length {}, {row:?}\n", run.lens[place]);
        }
    }
    let last = run.journal.iter().rposition(|&word| word != 0);
    let words = &run.journal[..last.map_or(0, |last| last + 1)];
    lines + &format!("  journal {words:?}, then 0\n")
}
