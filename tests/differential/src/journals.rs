//! Random and damaged journals: reading, the recording and the page of what was read, and the
//! conversions.

use crate::conversions;
use crate::count::{Counts, Failure, Found};
use crate::expect::{self, Made, Writings};
use crate::pair;
use crate::text;
use second::edition::EDITIONS;
use second::generate::{bytes_of, journal_of, KINDS};
use second::journal::{self, words_of, Reading};
use second::limits::{self, high};
use second::random::{cars, edition, Random};

/// The journals of runs at the limits of what a journal, a recording or a page holds.
pub fn every(counts: &mut Counts, random: &mut Random) -> Result<(), Failure> {
    let mut runs = EDITIONS.map(limits::widest).to_vec();
    runs.extend([
        limits::longest(),
        limits::gates(),
        limits::doubled(),
        limits::heaviest(),
    ]);
    for run in &runs {
        check(counts, random, &bytes_of(run))?;
    }
    Ok(())
}

/// A generated journal, then the same with more and more damage.
pub fn trial(counts: &mut Counts, random: &mut Random, index: usize) -> Result<(), Failure> {
    let edition = edition(random);
    let mut bytes = journal_of(random, edition, index % KINDS);
    check(counts, random, &bytes)?;
    if let Some(gated) = with_gate(random, &bytes) {
        check(counts, random, &gated)?;
    }
    for _ in 0..random.within(1, 4) {
        spoil(random, &mut bytes);
        check(counts, random, &bytes)?;
    }
    if random.chance(10) {
        let bytes = noise(random);
        check(counts, random, &bytes)?;
    }
    if random.chance(5) {
        let bytes = bytes_of(&high(random));
        check(counts, random, &bytes)?;
    }
    Ok(())
}

/// Compares all that is made of a journal.
pub fn check(counts: &mut Counts, random: &mut Random, bytes: &[u8]) -> Result<(), Failure> {
    let call = || format!("the reader on the journal {}", text::bytes(bytes));
    let compared = read(counts, random, bytes);
    compared.map_err(|found| Failure::new(String::new(), call(), found))
}

fn read(counts: &mut Counts, random: &mut Random, bytes: &[u8]) -> Result<(), Found> {
    let (edition, reading) = (expect::edition(bytes), journal::read(bytes));
    let proved = pair::read(counts, edition, bytes, &expect::reading(&reading))?;
    if let Some((word, before)) = refused_record(bytes, &reading) {
        counts.gate_record(edition, word, reading.refusal);
        counts.refused_reading(journal::read(&before).remaining);
    }
    let writings = Writings {
        recording: expect::of_reading(&reading, expect::recording),
        page: expect::of_reading(&reading, expect::page),
        // What is accepted is written back as the same bytes.
        journal: Made {
            refusal: 0,
            position: 0,
            bytes: bytes.to_vec(),
            total: 0,
        },
    };
    pair::journal_writers(counts, random, bytes, &writings)?;
    conversions::both(counts, random, bytes, &reading)?;
    if reading.refusal == 0 {
        pair::writers(counts, random, &proved.run, &writings)?;
    }
    Ok(())
}

/// The record that made a reading end, with 18 or 19, and the journal of those before it.
fn refused_record(bytes: &[u8], reading: &Reading) -> Option<(u16, Vec<u8>)> {
    if !matches!(reading.refusal, 18 | 19) {
        return None;
    }
    let (first, _) = records(bytes)?;
    let (before, rest) = bytes.split_at(first + 2 * reading.position);
    let mut before = before.to_vec();
    set_number(&mut before, reading.position);
    Some((*words_of(rest).first()?, before))
}

/// The journal with one record more, of a gate in any direction, that any byte may be wrong in. Nothing
/// where header and length do not agree or there is no room.
fn with_gate(random: &mut Random, bytes: &[u8]) -> Option<Vec<u8>> {
    let (first, number) = records(bytes).filter(|&(_, number)| number < 1_000)?;
    let zones = (first as u32 - 2) / 2;
    let zone = match random.below(8) {
        0 => random.within(0, 7),
        _ => random.within(0, zones - 1),
    };
    let way = match random.below(4) {
        0 => random.within(0, 1),
        _ => random.within(2, 7),
    };
    let word = (3 << 14 | zone << 11 | way << 8) as u16 | u16::from(cars(random));
    let place = match random.below(2) {
        0 => first,
        _ => first + 2 * random.below(number + 1),
    };
    let mut gated = bytes.to_vec();
    gated.splice(place..place, word.to_be_bytes());
    set_number(&mut gated, number + 1);
    Some(gated)
}

/// Puts a number of records into the header.
fn set_number(bytes: &mut [u8], number: usize) {
    bytes[0] = bytes[0] & 0xFC | (number >> 8) as u8;
    bytes[1] = number as u8;
}

/// Bytes without any order, some behind a header and a length that fit.
fn noise(random: &mut Random) -> Vec<u8> {
    let zones = random.within(1, 8);
    let records = random.within(0, 40);
    let mut length = 2 + 2 * (zones + records) as usize;
    if random.chance(30) {
        length = random.below(2_100);
    }
    let mut bytes: Vec<u8> = (0..length).map(|_| random.within(0, 255) as u8).collect();
    if length >= 2 && random.chance(80) {
        let header = journal::header(edition(random), zones, records as usize);
        bytes[..2].copy_from_slice(&header.to_be_bytes());
    }
    for zone in 0..zones as usize {
        // Stocks below 8,192 keep the sum in its bounds.
        if random.chance(90) && 2 + 2 * zone < length {
            bytes[2 + 2 * zone] %= 32;
        }
    }
    bytes
}

/// Where the records of a journal begin, and their number, where header and length agree.
fn records(bytes: &[u8]) -> Option<(usize, usize)> {
    let header = *words_of(bytes.get(..2)?).first()?;
    let first = 4 + 2 * usize::from(header >> 10 & 7);
    let number = usize::from(header & 1_023);
    (number > 0 && bytes.len() == first + 2 * number).then_some((first, number))
}

/// Damages a journal once: in a single byte, in its length or among its records.
fn spoil(random: &mut Random, bytes: &mut Vec<u8>) {
    let kind = random.below(8);
    if kind < 4 || records(bytes).is_none() {
        spoil_bytes(random, bytes, kind);
    } else {
        spoil_records(random, bytes, kind);
    }
}

fn spoil_bytes(random: &mut Random, bytes: &mut Vec<u8>, kind: usize) {
    if bytes.is_empty() {
        bytes.push(random.within(0, 255) as u8);
        return;
    }
    let any = random.below(bytes.len());
    match kind {
        0 => bytes.truncate(any),
        1 => bytes.extend((0..random.within(1, 4)).map(|k| k as u8)),
        2 => bytes[any % 2] = random.within(0, 255) as u8,
        3 => bytes[any] = random.within(0, 255) as u8,
        _ => bytes[any] ^= 1 << random.below(8),
    }
}

/// Damages the records alone, so that header and length still agree.
fn spoil_records(random: &mut Random, bytes: &mut Vec<u8>, kind: usize) {
    let Some((first, number)) = records(bytes) else {
        return;
    };
    let here = first + 2 * random.below(number);
    let there = first + 2 * random.below(number);
    let mut words = number;
    match kind {
        4 => {
            // Two records change places.
            bytes.swap(here, there);
            bytes.swap(here + 1, there + 1);
        }
        5 => {
            bytes.drain(here..here + 2);
            words -= 1;
        }
        6 if number < 1_000 => {
            // A record stands once more in another place.
            let word = [bytes[here], bytes[here + 1]];
            bytes.splice(there..there, word);
            words += 1;
        }
        _ => bytes[here..here + 2].fill(random.within(0, 255) as u8),
    }
    set_number(bytes, words);
}
