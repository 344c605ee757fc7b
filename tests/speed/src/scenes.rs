//! What is measured: runs with nearly empty and with full lines, made by the peer's calls.

use second::generate::{with_edition, CASE_A};
use second::random::Random;
use speed::site::Run;

/// Makes a call that must be accepted.
fn must(refusal: u8) {
    assert_eq!(refusal, 0, "a call of a scene is accepted");
}

fn opened(edition: u8, zones: u8, stock: u16) -> Run {
    let mut run = Run::REFUSED;
    must(run.open(edition, zones, &[stock; 8][..usize::from(zones)]));
    run
}

fn hand_over(run: &mut Run, from: u8, to: u8, cars: u8) {
    must(run.send(from, to, cars));
    take(run, from, to);
}

fn take(run: &mut Run, from: u8, to: u8) {
    must(run.receive(from, to).refusal);
}

fn room(run: &Run, records: usize) -> usize {
    records.saturating_sub(usize::from(run.records))
}

/// Case A of docs/RULES.md.
pub fn case_a() -> Run {
    case_a_in(1)
}

/// The same in another edition.
pub fn case_a_in(edition: u8) -> Run {
    let mut run = Run::REFUSED;
    must(run.read(&with_edition(edition.into(), &CASE_A)).refusal);
    run
}

/// Receives the items of the first line that holds a request, up to the request; false without one.
fn take_request(run: &mut Run) -> bool {
    let asked = (0..64).find(|&line| {
        let items = &run.items[line][..usize::from(run.lens[line])];
        items.iter().any(|&item| item >= 512)
    });
    let Some(line) = asked else {
        return false;
    };
    take(run, line as u8 / 8 + 1, line as u8 % 8 + 1);
    true
}

/// Traffic round a ring, each hand-over received at once, then a start by zone 1 and the receipts of
/// its requests: the recorded lines are empty. With few records zone 1 hears nobody and sends no
/// request.
pub fn ring(zones: u8, records: usize) -> Run {
    ring_in(1, zones, records)
}

/// The same in another edition.
pub fn ring_in(edition: u8, zones: u8, records: usize) -> Run {
    let mut run = opened(edition, zones, 1_000);
    let is_whole = records >= 3 * usize::from(zones);
    let (round, last) = if is_whole {
        (zones, usize::from(zones))
    } else {
        (zones - 1, 1)
    };
    let mut from = 0;
    while room(&run, records) >= last + 2 {
        hand_over(&mut run, from + 1, (from + 1) % zones + 1, 1);
        from = (from + 1) % round;
    }
    must(run.start(1));
    while take_request(&mut run) {}
    while room(&run, records) > 0 {
        must(run.send(1, 2, 1));
    }
    run
}

/// The same traffic in edition 3, and with each hand-over 2 cars drive in at its sender before it and 1 out
/// at its receiver behind it, so that half of the records are of gates.
pub fn gates(zones: u8, records: usize) -> Run {
    let mut run = opened(3, zones, 1_000);
    let last = usize::from(zones);
    let mut from = 0;
    while room(&run, records) >= last + 4 {
        let to = (from + 1) % zones;
        must(run.enter(from + 1, 2));
        hand_over(&mut run, from + 1, to + 1, 1);
        must(run.leave(to + 1, 1));
        from = to;
    }
    must(run.start(1));
    while take_request(&mut run) {}
    while room(&run, records) > 0 {
        must(run.enter(1, 1));
    }
    run
}

/// Traffic that keeps the lines full, but for those from zone 1, which has heard all others, then a
/// start by zone 1 and the receipts of its requests: nearly all that is on lines is recorded. With few
/// records zone 1 hears zone 2 alone and nobody else receives.
pub fn full(zones: u8, records: usize) -> Run {
    full_in(1, zones, records, 0)
}

/// The same in another edition, with so many cars at least in each hand-over.
pub fn full_in(edition: u8, zones: u8, records: usize, fewest: u32) -> Run {
    let mut random = Random::new(u64::from(zones) * 10_000 + records as u64);
    let mut run = opened(edition, zones, 8_000);
    let is_whole = records >= 3 * usize::from(zones) + 4;
    let heard = if is_whole { zones - 1 } else { 1 };
    for from in 2..2 + heard {
        hand_over(&mut run, from, 1, 3);
    }
    let last = 1 + usize::from(heard);
    while room(&run, records) > last {
        fill(&mut random, &mut run, is_whole, fewest);
    }
    must(run.start(1));
    while take_request(&mut run) {}
    assert_eq!(room(&run, records), 0, "the run has its records");
    run
}

/// A hand-over on a line with room, or a receipt on one that is nearly full.
fn fill(random: &mut Random, run: &mut Run, receives: bool, fewest: u32) {
    let zones = u32::from(run.count);
    let (from, to) = (random.within(2, zones) as u8, random.within(1, zones) as u8);
    if from == to {
        return;
    }
    let length = run.lens[8 * usize::from(from - 1) + usize::from(to - 1)];
    if length < 14 || length < 16 && random.chance(50) {
        must(run.send(from, to, random.within(fewest, 20) as u8));
    } else if receives {
        take(run, from, to);
    }
}

/// A ring whose last record is a hand-over of 0 cars.
pub fn emptied(edition: u8, zones: u8, records: usize) -> Run {
    let mut run = ring_in(edition, zones, records - 1);
    must(run.send(1, 2, 0));
    run
}

/// A run of 99 records with one item on the line from 1 to 2, of so many cars, and empty lines else.
fn one_item(edition: u8, zones: u8, cars: u8) -> Run {
    let mut run = opened(edition, zones, 8_000);
    for pair in 0..49 {
        hand_over(&mut run, pair % zones + 1, (pair + 1) % zones + 1, 1);
    }
    must(run.send(1, 2, cars));
    run
}

/// Such a run of edition 1, and the item is traffic.
pub fn calm(zones: u8) -> Run {
    one_item(1, zones, 3)
}

/// Such a run of edition 2, and the item is a line check.
pub fn checked(zones: u8) -> Run {
    one_item(2, zones, 0)
}

/// Such a run of edition 3, and the item is traffic.
pub fn gated(zones: u8) -> Run {
    one_item(3, zones, 3)
}

/// A run whose lines have 16 items each, those from zone 1 have 8; zone 1 has heard all others.
pub fn crowded(edition: u8, zones: u8) -> Run {
    let mut run = opened(edition, zones, 8_000);
    for from in 2..=zones {
        hand_over(&mut run, from, 1, 3);
    }
    for from in 1..=zones {
        for to in (1..=zones).filter(|&to| to != from) {
            for cars in 0..if from == 1 { 8 } else { 16 } {
                must(run.send(from, to, cars));
            }
        }
    }
    run
}

/// A run in which a request stands first on the line from 1 to 2, and zone 2 sends it on to all others.
pub fn asked(zones: u8) -> Run {
    let mut run = opened(1, zones, 8_000);
    hand_over(&mut run, 2, 1, 3);
    for from in 3..=zones {
        hand_over(&mut run, from, 2, 3);
    }
    must(run.start(1));
    run
}
