//! Compares the proved code with the second implementation and counts what was met.
//!
//! Without arguments it makes one round with a fixed seed. `--seed N` takes another seed, and
//! `--soak SECONDS` makes whole rounds with the seeds that follow for so long.

use differential::count::{Counts, Failure};
use differential::{calls, conversions, journals, states, zones};
use second::random::Random;
use std::time::{Duration, Instant};

const SEED: u64 = 2_026;

type Trial = fn(&mut Counts, &mut Random, usize) -> Result<(), Failure>;

/// The kinds of trials with their numbers in one round.
const KINDS: [(&str, usize, Trial); 6] = [
    ("every zone argument and edition, and the limits", 1, every),
    ("zones", 20_000, zones::trial),
    ("lists of calls", 15_000, calls::trial),
    ("journals", 6_000, journals::trial),
    ("run states", 4_000, states::trial),
    ("conversions", 6_000, conversions::trial),
];

fn every(counts: &mut Counts, random: &mut Random, _: usize) -> Result<(), Failure> {
    zones::every(counts, random)?;
    calls::every(counts, random)?;
    journals::every(counts, random)?;
    states::every(counts, random)
}

/// A seed for each trial, mixed so that no two trials of a round or of near seeds are alike.
fn mixed(seed: u64, kind: usize, index: usize) -> u64 {
    let mut mixed = seed
        .wrapping_mul(0x9E37_79B9_7F4A_7C15)
        .wrapping_add((kind as u64) << 40)
        .wrapping_add(index as u64);
    mixed = (mixed ^ mixed >> 30).wrapping_mul(0xBF58_476D_1CE4_E5B9);
    mixed = (mixed ^ mixed >> 27).wrapping_mul(0x94D0_49BB_1331_11EB);
    mixed ^ mixed >> 31
}

/// Makes one round and gives its counts; ends the program on a difference or a missed floor.
fn round(seed: u64) -> Counts {
    let mut counts = Counts::default();
    for (kind, (name, trials, trial)) in KINDS.iter().enumerate() {
        for index in 0..*trials {
            let mut random = Random::new(mixed(seed, kind, index));
            if let Err(failure) = trial(&mut counts, &mut random, index) {
                report(seed, name, index, &failure);
                std::process::exit(1);
            }
        }
    }
    let missed = counts.missed();
    if !missed.is_empty() {
        print!("{}", counts.table());
        for floor in missed {
            println!("differential: seed {seed}, floor not reached: {floor}");
        }
        std::process::exit(1);
    }
    counts
}

fn report(seed: u64, name: &str, index: usize, failure: &Failure) {
    let difference = &failure.found.difference;
    println!("differential: a difference, seed {seed}, {name}, trial {index}");
    print!("before:\n{}", failure.before);
    println!("call: {}", failure.call);
    println!("answer of {}", failure.found.name);
    println!("expected: {}", failure.found.expected);
    println!("proved: {}", failure.found.proved);
    println!("first field that differs: {}", difference.field);
    println!("  expected {}", difference.expected);
    println!("  proved {}", difference.proved);
}

/// Gives the seed and the seconds of the soak.
fn arguments() -> Option<(u64, Option<u64>)> {
    let (mut seed, mut soak) = (SEED, None);
    let mut rest = std::env::args().skip(1);
    while let Some(name) = rest.next() {
        let value = rest.next()?.parse().ok()?;
        match name.as_str() {
            "--seed" => seed = value,
            "--soak" => soak = Some(value),
            _ => return None,
        }
    }
    Some((seed, soak))
}

fn main() {
    let Some((first, soak)) = arguments() else {
        eprintln!("usage: differential [--seed N] [--soak SECONDS]");
        std::process::exit(2);
    };
    let start = Instant::now();
    let mut comparisons = 0;
    for seed in first.. {
        println!("seed {seed}");
        let counts = round(seed);
        print!("{}", counts.table());
        comparisons += counts.comparisons;
        if start.elapsed() >= Duration::from_secs(soak.unwrap_or(0)) {
            break;
        }
    }
    println!("differential: {comparisons} comparisons, all equal");
}
