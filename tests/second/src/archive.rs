//! Journals for the converter: true ones of many shapes that convert, and the same with a hand-over
//! of 0 cars or a gate record, which it refuses, at the first, the last or any place.

use crate::conversion::{
    calls,
    Conversion::{self, Downgrade, Upgrade},
};
use crate::edition::has_gates;
use crate::generate::{accepted, bytes_of, with_edition, SHAPES};
use crate::journal::{self, encode};
use crate::random::{direction, finish, Random};
use crate::site::{sum, Call, Run, MOST_RECORDS};

/// The worked journals of docs/RULES.md that a conversion refuses: with the number, and the position
/// of the record.
pub const REFUSED: [(Conversion, &[u8], u32, usize); 10] = [
    // Editions 2 and 1, where edition 1 and edition 3 are asked for.
    (Upgrade, &[0x44, 1, 0, 5, 0, 7, 0x80, 0], 15, 0),
    (Downgrade, &[0x24, 1, 0, 5, 0, 7, 0x80, 0], 15, 0),
    // Edition 1 has no gates: what reading asks comes before 22.
    (Upgrade, &[0x24, 2, 0, 5, 0, 7, 0x01, 0, 0xC0, 1], 18, 1),
    // A hand-over of 0 cars that is received, and one that is not.
    (Upgrade, &[0x24, 2, 0, 5, 0, 7, 0x01, 0, 0x41, 0], 22, 0),
    (Upgrade, &[0x24, 2, 0, 5, 0, 7, 0x80, 0, 0x08, 0], 22, 0),
    (Downgrade, &[0x64, 1, 0, 5, 0, 7, 0x01, 0], 22, 0),
    // 22 before 23, whichever record comes first.
    (Downgrade, &[0x64, 2, 0, 5, 0, 7, 0xC0, 0, 0x01, 0], 22, 0),
    (Downgrade, &[0x64, 2, 0, 5, 0, 7, 0x01, 0, 0xC0, 2], 22, 0),
    // A gate, and one of 0 cars, which is no hand-over.
    (Downgrade, &[0x64, 2, 0, 5, 0, 7, 0xC0, 2, 0x80, 0], 23, 0),
    (Downgrade, &[0x64, 2, 0, 5, 0, 7, 0x80, 0, 0xC1, 0], 23, 0),
];

/// The run of these calls from an opening on; those that are refused are left out.
fn played(edition: u32, stocks: &[u16], calls: &[Call]) -> Run {
    let (_, mut run) = Run::open(edition, stocks.len() as u32, stocks);
    for &call in calls {
        run.call(call);
    }
    run
}

/// A run in which every hand-over has cars and none go through a gate, of one of the shapes of
/// `generate`, complete where that is.
fn laden(random: &mut Random, edition: u32, shape: usize) -> Run {
    // Edition 2 has no gates, and there its shapes send cars where a zone is to be heard.
    let model = journal::read(&accepted(random, 2, shape)).run;
    let with_cars = |call| match call {
        Call::HandOver { from, to, cars } => {
            let cars = cars.max(1);
            Call::HandOver { from, to, cars }
        }
        call => call,
    };
    let calls: Vec<Call> = calls(&model).into_iter().map(with_cars).collect();
    let mut stocks = model.opening[..model.size()].to_vec();
    if sum(&stocks) <= 50_000 && random.chance(80) {
        // More cars, so that hardly a hand-over is refused.
        let more = random.within(100, 1_000) as u16;
        stocks.iter_mut().for_each(|stock| *stock += more);
    }
    let mut run = played(edition, &stocks, &calls);
    if model.started() && !model.holds_request() {
        finish(random, &mut run);
    }
    run
}

/// A place among the records.
#[derive(Clone, Copy)]
enum Place {
    First,
    Last,
    Any,
}

const PLACES: [Place; 3] = [Place::First, Place::Last, Place::Any];

/// Puts a call at a place of a list.
fn put(random: &mut Random, calls: &mut Vec<Call>, place: Place, call: Call) {
    let index = match place {
        Place::First => 0,
        Place::Last => calls.len(),
        Place::Any => random.below(calls.len() + 1),
    };
    calls.insert(index, call);
}

/// A hand-over of 0 cars.
fn empty(random: &mut Random, zones: u32) -> Call {
    let from = random.within(1, zones);
    let to = (from + random.within(0, zones - 2)) % zones + 1;
    Call::HandOver { from, to, cars: 0 }
}

/// A gate call, half of them of 0 cars.
fn gate(random: &mut Random, zones: u32) -> Call {
    Call::Gate {
        direction: direction(random),
        zone: random.within(1, zones),
        cars: random.within(0, 1) as u8 * random.within(1, 9) as u8,
    }
}

/// The journal of a run, cut off where it is long, with a hand-over of 0 cars at one place and a gate
/// record at another. With a gate it is one of edition 3, whatever its header then says.
fn beside(
    random: &mut Random,
    run: &Run,
    empty_at: Option<Place>,
    gate_at: Option<Place>,
) -> Vec<u8> {
    let mut calls = calls(run);
    calls.truncate(MOST_RECORDS - 2);
    if let Some(place) = empty_at {
        let call = empty(random, run.count);
        put(random, &mut calls, place, call);
    }
    if let Some(place) = gate_at {
        let call = gate(random, run.count);
        put(random, &mut calls, place, call);
    }
    let edition = if gate_at.is_some() { 3 } else { run.edition };
    let holding = played(edition, &run.opening[..run.size()], &calls);
    with_edition(run.edition, &bytes_of(&holding))
}

/// A run's journal, cut off where it is long, with a record behind it that is refused: with another
/// direction, a receipt with cars, a start with a second field, or a receipt from the zone itself.
fn spoiled(random: &mut Random, run: &Run) -> Vec<u8> {
    let itself = encode(Call::Receipt { from: 1, to: 1 });
    let refused = [0xC700, itself | 1, 0x8100, itself];
    let mut records = run.records.clone();
    records.truncate(MOST_RECORDS - 1);
    records.push(refused[random.below(refused.len())]);
    let mut words = vec![journal::header(run.edition, run.count, records.len())];
    words.extend(&run.opening[..run.size()]);
    words.extend(records);
    journal::bytes_of(&words)
}

/// How many kinds of journals for the converter there are.
pub const KINDS: usize = 20;

/// A journal of one kind with this edition, 1 or 3, in its header.
pub fn journal_of(random: &mut Random, edition: u32, kind: usize) -> Vec<u8> {
    let shape = match kind {
        // Many incomplete ones, and some with 1,000 records.
        0 => 5 + random.below(4),
        1 => 12 + random.below(3),
        _ => random.below(SHAPES),
    };
    let run = laden(random, edition, shape);
    match kind {
        // What converts: half of all.
        0..=9 => bytes_of(&run),
        // A hand-over of 0 cars alone, and a gate record alone.
        10..=12 => beside(random, &run, Some(PLACES[kind - 10]), None),
        13..=15 => beside(random, &run, None, Some(PLACES[kind - 13])),
        // Both, in either order.
        16 => beside(random, &run, Some(Place::First), Some(Place::Last)),
        17 => beside(random, &run, Some(Place::Last), Some(Place::First)),
        // A record that is refused, alone and behind what a conversion refuses.
        18 => spoiled(random, &run),
        _ => {
            let gate_at = has_gates(edition).then_some(Place::Any);
            let holding = beside(random, &run, Some(Place::Any), gate_at);
            spoiled(random, &journal::read(&holding).run)
        }
    }
}
