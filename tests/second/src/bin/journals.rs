//! Writes journals behind their lengths to one file and the expected texts to another, for each its
//! line, its page and then both conversions of it, and prints what stands out among them, by edition.

use second::conversion::{convert, CONVERSIONS};
use second::generate::{self, Traits};
use second::print;
use std::collections::BTreeMap;

const SEED: u64 = 2_026;

/// What stands out among the journals of one edition.
#[derive(Default)]
struct Tally {
    journals: u32,
    numbers: BTreeMap<u32, u32>,
    sites: BTreeMap<u32, u32>,
    /// By the word of the conversion and its number.
    conversions: BTreeMap<(&'static str, u32), u32>,
    traits: [u32; TRAITS.len()],
}

/// What a complete recording may have, with its name.
type Trait = (&'static str, fn(&Traits) -> bool);

const TRAITS: [Trait; 9] = [
    ("a provisional mark turned firm", |t| t.turned_firm),
    ("a provisional mark left", |t| t.left_provisional),
    ("a recorded line above 16", |t| t.above_16),
    ("1,000 records", |t| t.records == 1_000),
    ("an unmarked hand-over of 0 cars taken", |t| {
        t.took_unmarked_check
    }),
    ("a marked hand-over of 0 cars taken", |t| {
        t.took_marked_check
    }),
    ("a gate event inside", |t| t.gate_inside),
    ("a gate event outside", |t| t.gate_outside),
    ("a total above 65,535", |t| t.total > 65_535),
];

impl Tally {
    fn add(&mut self, journal: &[u8]) {
        let traits = &generate::traits(journal);
        self.journals += 1;
        *self.numbers.entry(traits.refusal).or_insert(0) += 1;
        if traits.refusal == 0 {
            *self.sites.entry(traits.zones).or_insert(0) += 1;
        }
        for (times, (_, has)) in self.traits.iter_mut().zip(TRAITS) {
            *times += u32::from(has(traits));
        }
        for conversion in CONVERSIONS {
            let answer = convert(conversion, journal, &mut vec![0; journal.len()]);
            let counted = (conversion.word(), answer.refusal);
            *self.conversions.entry(counted).or_insert(0) += 1;
        }
    }

    fn show(&self, edition: u32) {
        println!("edition {edition} in the header: {}", self.journals);
        for (refusal, times) in &self.numbers {
            match refusal {
                0 => println!("  complete recordings: {times}"),
                _ => println!("  refused {refusal}: {times}"),
            }
        }
        for ((word, refusal), times) in &self.conversions {
            match refusal {
                0 => println!("  {word}: {times}"),
                _ => println!("  {word} refused {refusal}: {times}"),
            }
        }
        if self.sites.is_empty() {
            return;
        }
        for (times, (name, _)) in self.traits.iter().zip(TRAITS) {
            println!("  complete, with {name}: {times}");
        }
        for (zones, times) in &self.sites {
            println!("  complete, with {zones} zones: {times}");
        }
    }
}

fn main() {
    let arguments: Vec<String> = std::env::args().collect();
    if arguments.len() < 3 {
        eprintln!("usage: journals JOURNALS-FILE TEXTS-FILE [NUMBER]");
        std::process::exit(2);
    }
    let number = arguments.get(3).map_or(generate::STORED, |text| {
        text.parse().expect("the number of journals is a number")
    });
    let journals = generate::journals(SEED, number);
    let mut bytes = Vec::new();
    let mut texts = String::new();
    let mut tallies: BTreeMap<u32, Tally> = BTreeMap::new();
    for journal in &journals {
        let length = u16::try_from(journal.len()).expect("a length fits 16 bits");
        bytes.extend(length.to_be_bytes());
        bytes.extend(journal);
        texts += &print::all(journal);
        let tally = tallies.entry(generate::edition_of(journal)).or_default();
        tally.add(journal);
    }
    std::fs::write(&arguments[1], &bytes).expect("the journals can be written");
    std::fs::write(&arguments[2], &texts).expect("the texts can be written");
    let longest = journals.iter().map(Vec::len).max().unwrap_or(0);
    println!("journals {}, bytes {}", journals.len(), bytes.len());
    println!("bytes of the longest: {longest}");
    for (edition, tally) in tallies {
        tally.show(edition);
    }
}
