//! Journals for comparing two implementations: true ones of many shapes, and damaged ones.

use crate::archive;
use crate::demand3;
use crate::edition::{fewest, has_gates};
use crate::journal::{self, encode};
use crate::limits;
use crate::print;
use crate::random::{cars, direction, finish, stocks_from, Habits, Random};
use crate::site::{Call, Direction, Item, Run, MOST_RECORDS, PLACES};
use crate::zone::Mark;

/// Case A of docs/RULES.md.
pub const CASE_A: [u8; 26] = [
    0x28, 0x09, 0x00, 0x0A, 0x00, 0x14, 0x00, 0x1E, 0x01, 0x04, 0x41, 0x00, 0x11, 0x05, 0x02, 0x02,
    0x88, 0x00, 0x0A, 0x07, 0x4A, 0x00, 0x42, 0x00, 0x48, 0x00,
];

/// The worked journals of docs/RULES.md for line checks, without their editions.
pub const CHECKED: [&[u8]; 4] = [
    // A check is taken before the start.
    &[4, 3, 0, 5, 0, 7, 0x01, 0, 0x41, 0, 0x88, 0],
    // A check is on its line at the start.
    &[4, 2, 0, 5, 0, 7, 0x01, 0, 0x80, 0],
    // A marked check is taken by a zone that has no mark.
    &[
        8, 9, 0, 10, 0, 20, 0, 30, 0x08, 4, 0x48, 0, 0x80, 0, 0x02, 0, 0x42, 0, 0x11, 5, 0x51, 0,
        0x41, 0, 0x4A, 0,
    ],
    // 17 checks on one line.
    &[
        4, 17, 0, 5, 0, 7, 1, 0, 1, 0, 1, 0, 1, 0, 1, 0, 1, 0, 1, 0, 1, 0, 1, 0, 1, 0, 1, 0, 1, 0,
        1, 0, 1, 0, 1, 0, 1, 0, 1, 0,
    ],
];

/// The worked journals of docs/RULES.md for gates.
pub const GATED: [&[u8]; 3] = [
    // An exit of a zone that is not recorded and an entry of the starter: the total is 65,790.
    &[
        0x64, 3, 0xFF, 0xFF, 0, 0, 0xC1, 0xFF, 0xC8, 0xFF, 0x88, 0x00,
    ],
    // Gates before and after the marks of two zones, and of a third that has none.
    &[
        0x68, 9, 0, 10, 0, 20, 0, 30, 0xC0, 3, 0x01, 4, 0x41, 0, 0xC9, 9, 0x88, 0, 0xC8, 50, 0xC1,
        1, 0x48, 0, 0xC0, 7,
    ],
    // Gates of 0 cars are own events, a hand-over of 0 cars is a line check.
    &[0x64, 4, 0, 5, 0, 7, 0xC0, 0, 0xC1, 0, 0x01, 0, 0x80, 0],
];

/// Those that are refused: with the number, and the position of the record.
pub const GATES_REFUSED: [(&[u8], u32, usize); 8] = [
    // 21: the cars on the line count.
    (&[0x64, 2, 0xFF, 0xFF, 0, 0, 0x01, 0xFF, 0xC0, 1], 19, 1),
    // Another direction, with a zone of the site and with a wrong one.
    (&[0x64, 1, 0, 5, 0, 7, 0xC2, 0], 18, 0),
    (&[0x64, 1, 0, 5, 0, 7, 0xD2, 0], 18, 0),
    // A wrong zone alone.
    (&[0x64, 1, 0, 5, 0, 7, 0xD0, 0], 19, 0),
    // An exit beyond the stock.
    (&[0x64, 1, 0, 5, 0, 7, 0xC1, 6], 19, 0),
    // Gates in editions that have none, with a wrong zone too.
    (&[0x44, 1, 0, 5, 0, 7, 0xC0, 1], 18, 0),
    (&[0x24, 1, 0, 5, 0, 7, 0xC0, 1], 18, 0),
    (&[0x44, 1, 0, 5, 0, 7, 0xD0, 0], 18, 0),
];

/// The worked journals for how many items remain, without their editions, each with the number of its
/// last receipt.
pub const WAITING: [(&[u8], usize); 3] = [
    // One of three hand-overs is taken.
    (&[4, 4, 0, 9, 0, 9, 0x01, 1, 0x01, 2, 0x01, 3, 0x41, 0], 2),
    // One remains at the receipt, and one more comes behind it.
    (
        &[
            4, 5, 0, 9, 0, 9, 0x01, 1, 0x01, 2, 0x41, 0, 0x01, 3, 0x08, 1,
        ],
        1,
    ),
    // A request remains.
    (
        &[
            4, 5, 0, 9, 0, 9, 0x08, 1, 0x48, 0, 0x01, 1, 0x80, 0, 0x41, 0,
        ],
        1,
    ),
];

/// One that is refused with 18 at position 3, behind a receipt that left an item.
pub const WAITING_REFUSED: [u8; 14] = [4, 4, 0, 9, 0, 9, 0x01, 1, 0x01, 1, 0x41, 0, 0x41, 1];

/// A journal with this edition in its header.
pub fn with_edition(edition: u32, journal: &[u8]) -> Vec<u8> {
    let mut bytes = journal.to_vec();
    bytes[0] = bytes[0] & 0x1F | (edition as u8) << 5;
    bytes
}

/// The edition in the header of a journal, 0 where it has no byte.
pub fn edition_of(bytes: &[u8]) -> u32 {
    bytes.first().map_or(0, |&first| u32::from(first >> 5))
}

/// Case B of docs/RULES.md.
pub fn case_b() -> Run {
    let (_, mut run) = Run::open(1, 3, &[10, 10, 10]);
    run.hand_over(3, 2, 1);
    run.receipt(3, 2);
    run.hand_over(2, 1, 1);
    run.receipt(2, 1);
    run.start(1);
    run.hand_over(1, 3, 2);
    run.receipt(1, 3);
    run.receipt(1, 2);
    run.receipt(2, 3);
    run
}

/// The journal of a run that calls have made.
pub fn bytes_of(run: &Run) -> Vec<u8> {
    let mut lent = [0; 2 + 2 * 8 + 2 * MOST_RECORDS];
    let (refusal, written) = journal::write(run, &mut lent);
    assert_eq!(refusal, 0, "a run that calls have made has a journal");
    lent[..written].to_vec()
}

fn opened(random: &mut Random, edition: u32, zones: u32) -> Run {
    opened_for(random, edition, zones, 0)
}

/// An opened run in which each zone can hand over traffic so many times, up to 1,000. In edition 1
/// any stocks will do.
fn opened_for(random: &mut Random, edition: u32, zones: u32, times: u32) -> Run {
    let least = times * u32::from(fewest(edition));
    Run::open(edition, zones, &stocks_from(random, zones, least)).1
}

/// Hands over the fewest cars that are traffic and takes them, so that the receiver hears the sender.
fn hear(run: &mut Run, from: u32, to: u32) {
    run.hand_over(from, to, fewest(run.edition));
    run.receipt(from, to);
}

/// Drawn habits without wrong calls, with gate calls where the edition has gates.
fn habits(random: &mut Random, edition: u32, zones: u32) -> Habits {
    Habits::draw(random, zones).tame().gates_of(random, edition)
}

/// In so many of 100 cases some cars go through a gate, where the run has gates.
fn street(random: &mut Random, run: &mut Run, percent: u32) {
    if has_gates(run.edition) && random.chance(percent) {
        run.call(Call::Gate {
            direction: direction(random),
            zone: random.within(1, run.count),
            cars: cars(random),
        });
    }
}

/// Makes random calls until the run has so many records, or for long enough.
fn traffic(random: &mut Random, run: &mut Run, habits: &Habits, records: usize) {
    for _ in 0..20_000 {
        if run.records.len() >= records {
            return;
        }
        let call = habits.call(random);
        run.call(call);
    }
}

/// A run with so many records before and after the start. A start that is refused with 10 is
/// tried again after more traffic.
fn started(random: &mut Random, edition: u32, zones: u32, before: usize, after: usize) -> Run {
    let mut run = opened(random, edition, zones);
    let habits = habits(random, edition, zones).starting(0);
    traffic(random, &mut run, &habits, before);
    while run.records.len() < 900 && run.start(random.within(1, zones)) != 0 {
        let next = run.records.len() + 1;
        traffic(random, &mut run, &habits, next);
    }
    let records = run.records.len() + after;
    traffic(random, &mut run, &habits, records);
    run
}

/// A complete run with traffic up to a number of records, which may be 1,000.
fn filled(random: &mut Random, edition: u32, zones: u32, records: usize) -> Run {
    let before = random.below(records / 2);
    let after = random.below(records / 4);
    let mut run = started(random, edition, zones, before, after);
    finish(random, &mut run);
    let habits = habits(random, edition, zones).starting(0);
    traffic(random, &mut run, &habits, records);
    run
}

/// A complete run whose starter takes many hand-overs of a zone that still waits for the
/// request: all of them are recorded on the line.
fn long_line(random: &mut Random, edition: u32, zones: u32) -> Run {
    let mut run = opened_for(random, edition, zones, 450);
    let sender = random.within(1, zones);
    let starter = sender % zones + 1;
    hear(&mut run, sender, starter);
    run.start(starter);
    let wanted = random.within(17, 450);
    let mut sent = 0;
    while sent < wanted && run.records.len() < 960 {
        let cars = cars(random);
        if random.chance(60) {
            sent += u32::from(run.hand_over(sender, starter, cars) == 0);
        } else {
            run.receipt(sender, starter);
        }
        street(random, &mut run, 10);
        if random.chance(10) {
            let other = random.within(1, zones);
            if other != sender {
                run.hand_over(starter, other, cars);
                run.receipt(starter, other);
            }
        }
    }
    finish(random, &mut run);
    run
}

/// A complete run in which requests wait behind hand-overs on nearly full lines.
fn queued(random: &mut Random, edition: u32, zones: u32) -> Run {
    let mut run = opened_for(random, edition, zones, 60);
    for zone in 1..=zones {
        let other = zone % zones + 1;
        hear(&mut run, other, zone);
        for _ in 0..random.below(PLACES) {
            let cars = cars(random);
            run.hand_over(zone, other, cars);
        }
    }
    run.start(random.within(1, zones));
    let records = run.records.len() + random.below(40);
    let habits = habits(random, edition, zones);
    traffic(random, &mut run, &habits, records);
    finish(random, &mut run);
    run
}

/// A complete run like case B, with more zones in the chain: the last zone of the chain has a
/// provisional mark long before the request reaches it.
fn turned(random: &mut Random, edition: u32, zones: u32) -> Run {
    let mut run = opened_for(random, edition, zones, 10);
    for zone in (1..zones).rev() {
        let cars = cars(random);
        run.hand_over(zone + 1, zone, cars);
        hear(&mut run, zone + 1, zone);
        run.receipt(zone + 1, zone);
        street(random, &mut run, 50);
    }
    run.start(1);
    for zone in 2..=zones {
        street(random, &mut run, 50);
        if random.chance(70) {
            let cars = cars(random);
            run.hand_over(1, zone, cars);
            run.hand_over(1, zone, fewest(edition));
        }
    }
    for _ in 0..random.below(60) {
        // Everything is received but the requests, which wait.
        let habits = habits(random, edition, zones);
        match habits.call(random) {
            Call::Receipt { from, to } if from == to + 1 || to == from + 1 => (),
            call => {
                run.call(call);
            }
        }
    }
    for zone in 2..=zones {
        run.receipt(1, zone);
    }
    finish(random, &mut run);
    run
}

/// A run whose stocks and cars on lines are 65,535 together, some of it by entries where the edition
/// has gates.
fn brimful(random: &mut Random, edition: u32, zones: u32) -> Run {
    let mut stocks: Vec<u16> = (0..zones)
        .map(|_| random.within(50, 3_000) as u16)
        .collect();
    let rest: u32 = stocks[1..].iter().map(|&stock| u32::from(stock)).sum();
    let mut room = random.within(1, 1_500) * u32::from(has_gates(edition));
    stocks[0] = (65_535 - rest - room) as u16;
    let (_, mut run) = Run::open(edition, zones, &stocks);
    while room > 0 {
        let from = random.within(1, zones);
        let cars = cars(random);
        run.hand_over(from, from % zones + 1, cars);
        let entering = room.min(random.within(0, 255));
        room -= entering;
        run.enter(random.within(1, zones), entering as u8);
    }
    run.hand_over(zones, 1, random.within(1, 50) as u8);
    run
}

/// A complete run in which a zone is emptied by exits, the last of them of just its stock.
fn emptied(random: &mut Random, edition: u32, zones: u32) -> Run {
    let stocks: Vec<u16> = (0..zones).map(|_| random.within(0, 800) as u16).collect();
    let (_, mut run) = Run::open(edition, zones, &stocks);
    let zone = random.within(1, zones);
    let other = zone % zones + 1;
    if random.chance(50) {
        hear(&mut run, other, zone);
    }
    if random.chance(30) {
        run.start(zone);
    }
    while has_gates(edition) && run.zones[zone as usize - 1].stock != 0 {
        let stock = run.zones[zone as usize - 1].stock;
        run.leave(zone, stock.min(255) as u8);
    }
    run.leave(zone, 0);
    run.start(random.within(1, zones));
    finish(random, &mut run);
    run
}

/// A complete run of a full site: a zone that is not recorded lets cars out, and the starter as many
/// in. The exits are outside the recording, so its total is above 65,535.
fn above(random: &mut Random, edition: u32, zones: u32) -> Run {
    let mut stocks: Vec<u16> = (0..zones).map(|_| random.within(20, 90) as u16).collect();
    let rest: u32 = stocks[1..].iter().map(|&stock| u32::from(stock)).sum();
    stocks[0] = (65_535 - rest) as u16;
    let (_, mut run) = Run::open(edition, zones, &stocks);
    let starter = random.within(2, zones);
    for zone in 2..=zones {
        if zone != starter && random.chance(50) {
            hear(&mut run, zone, starter);
        }
    }
    for _ in 0..random.within(1, 40) {
        let cars = random.within(1, 255) as u8;
        run.leave(1, cars);
        run.enter(starter, cars);
    }
    run.start(starter);
    street(random, &mut run, 50);
    finish(random, &mut run);
    run
}

/// A complete run with gates before the mark of the starter, between it and the mark of a heard
/// zone, and after both. The heard zone may have a provisional mark before its firm one.
fn around(random: &mut Random, edition: u32, zones: u32) -> Run {
    let mut run = opened_for(random, edition, zones, 20);
    let starter = random.within(1, zones);
    let heard = starter % zones + 1;
    let both = |random: &mut Random, run: &mut Run| {
        for zone in [starter, heard] {
            for _ in 0..random.below(4) {
                run.call(Call::Gate {
                    direction: direction(random),
                    zone,
                    cars: cars(random),
                });
            }
        }
    };
    both(random, &mut run);
    hear(&mut run, heard, starter);
    both(random, &mut run);
    run.start(starter);
    both(random, &mut run);
    if zones > 2 && random.chance(50) {
        // The mark comes to the heard zone by way of a third one.
        let third = heard % zones + 1;
        hear(&mut run, starter, third);
        both(random, &mut run);
        hear(&mut run, third, heard);
        both(random, &mut run);
    }
    run.receipt(starter, heard);
    both(random, &mut run);
    finish(random, &mut run);
    both(random, &mut run);
    run
}

/// A complete run of hundreds of own events in each zone, most of them gate events.
fn busy_gates(random: &mut Random, edition: u32) -> Run {
    let zones = random.within(2, 3);
    let mut run = opened(random, edition, zones);
    let gates = 95 * u32::from(has_gates(edition));
    let habits = Habits::draw(random, zones).tame().starting(0).gates(gates);
    let records = random.within(800, 960) as usize;
    traffic(random, &mut run, &habits, records);
    run.start(random.within(1, zones));
    finish(random, &mut run);
    traffic(random, &mut run, &habits, MOST_RECORDS);
    run
}

/// A small run of any kind, as bytes, to be damaged.
fn base(random: &mut Random, edition: u32) -> Vec<u8> {
    let zones = random.within(2, 8);
    let (before, after) = (random.below(30), random.below(30));
    let mut run = started(random, edition, zones, before, after);
    if random.chance(50) {
        finish(random, &mut run);
    }
    bytes_of(&run)
}

/// The number of zones in the header of a journal.
fn zones_of(bytes: &[u8]) -> u32 {
    u32::from(bytes[0] >> 2 & 7) + 1
}

fn records_of(bytes: &[u8]) -> usize {
    usize::from(bytes[0] & 3) * 256 + usize::from(bytes[1])
}

fn set_header(bytes: &mut [u8], edition: u32, zones: u32, records: usize) {
    let word = journal::header(edition, zones, records);
    bytes[..2].copy_from_slice(&word.to_be_bytes());
}

/// An edition that is not defined.
fn unknown(random: &mut Random) -> u32 {
    [0, 4, 5, 6, 7][random.below(5)]
}

/// Puts a record word at a random position of a journal.
fn insert(random: &mut Random, bytes: &mut Vec<u8>, word: u16) {
    let position = random.below(records_of(bytes) + 1);
    insert_at(bytes, position, word);
}

fn insert_at(bytes: &mut Vec<u8>, position: usize, word: u16) {
    let (edition, zones, records) = (edition_of(bytes), zones_of(bytes), records_of(bytes));
    let place = 2 + 2 * zones as usize + 2 * position;
    bytes.splice(place..place, word.to_be_bytes());
    set_header(bytes, edition, zones, records + 1);
}

/// A zone number from 1 to 8 that the site lacks.
fn off_site(random: &mut Random, zones: u32) -> u32 {
    random.within(zones + 1, 8)
}

/// A small run of 2 to 7 zones and that number.
fn small(random: &mut Random, edition: u32) -> (u32, Run) {
    let zones = random.within(2, 7);
    let after = random.below(20);
    (zones, started(random, edition, zones, 5, after))
}

/// A word of kind 3 that is not well formed: any one without gates, and with them one of another
/// direction.
fn no_gate(random: &mut Random, edition: u32, word: u16) -> u16 {
    if has_gates(edition) {
        word & !0x0700 | (random.within(2, 7) as u16) << 8
    } else {
        word
    }
}

/// A run with one more record word behind it, whatever that word is, and then a few others.
fn appended(random: &mut Random, run: &Run, word: u16) -> Vec<u8> {
    let mut bytes = bytes_of(run);
    let mut position = run.records.len();
    insert_at(&mut bytes, position, word);
    for _ in 0..random.below(3) {
        position += 1;
        let cars = cars(random);
        let call = Call::HandOver {
            from: 1,
            to: 2,
            cars,
        };
        insert_at(&mut bytes, position, encode(call));
    }
    bytes
}

/// How many kinds of damage without gates there are.
const PLAIN_DAMAGES: usize = 37;

/// How many kinds of damage there are; the last ones are those with gates.
pub const DAMAGES: usize = PLAIN_DAMAGES + 5;

/// A damaged journal of one kind, made of one of this edition.
pub fn damaged(random: &mut Random, edition: u32, kind: usize) -> Vec<u8> {
    let mut bytes = base(random, edition);
    let zones = zones_of(&bytes);
    let records = records_of(&bytes);
    let pair = |from: u32, to: u32| encode(Call::Receipt { from, to });
    let word = |from: u32, to: u32, cars: u8| encode(Call::HandOver { from, to, cars });
    match kind {
        // The header: empty, one byte, wrong edition, wrong zones or record number.
        0 => bytes.clear(),
        1 => bytes.truncate(1),
        2 => {
            let edition = unknown(random);
            set_header(&mut bytes, edition, zones, records);
        }
        3 => {
            // One zone, with the length that would fit it.
            set_header(&mut bytes, edition, 1, records);
            bytes.truncate(4 + 2 * records);
        }
        4 => {
            let number = random.within(1_001, 1_023) as usize;
            set_header(&mut bytes, edition, zones, number);
            bytes.resize(2 + 2 * zones as usize + 2 * number, 0);
        }
        5 => {
            // A wrong edition comes before wrong zones and a wrong number.
            set_header(&mut bytes, unknown(random), 1, 1_023);
        }
        // The length: truncated, overlong, odd, or another number in the header.
        6 => bytes.truncate(bytes.len() - 1),
        7 => bytes.truncate(bytes.len() - 2),
        8 => bytes.truncate(2),
        9 => bytes.push(random.within(0, 255) as u8),
        10 => bytes.extend(word(1, 2, 0).to_be_bytes()),
        11 => bytes.resize(bytes.len() + random.within(2_000, 3_000) as usize, 0),
        12 => set_header(&mut bytes, edition, zones, records + 1),
        13 => set_header(&mut bytes, edition, zones % 7 + 2, records),
        // The sum of the stocks, also together with a bad record.
        14 | 15 => {
            for zone in 0..zones as usize {
                bytes[2 + 2 * zone..4 + 2 * zone].copy_from_slice(&[0, 0]);
            }
            bytes[2..4].copy_from_slice(&[255, 255]);
            let last = 2 * zones as usize;
            let high = if random.chance(50) { 0 } else { 255 };
            bytes[last..last + 2].copy_from_slice(&[high, 1]);
            if kind == 15 {
                insert(random, &mut bytes, 0xFFFF);
            }
        }
        // Records that are not well formed, with right zones or wrong ones.
        16 => {
            let kind3 = random.within(49_152, 65_535) as u16;
            let kind3 = no_gate(random, edition, kind3);
            insert(random, &mut bytes, kind3);
        }
        17 => {
            let cars = random.within(1, 255) as u16;
            insert(random, &mut bytes, pair(1, 2) | cars);
        }
        18 => {
            let cars = random.within(1, 255) as u16;
            insert(random, &mut bytes, pair(zones, zones) | cars);
        }
        19 => {
            let second = random.within(1, 7) as u16;
            insert(
                random,
                &mut bytes,
                encode(Call::Start { zone: 1 }) | second << 8,
            );
        }
        20 => {
            let cars = random.within(1, 255) as u16;
            insert(random, &mut bytes, encode(Call::Start { zone: 8 }) | cars);
        }
        21 => {
            // A kind of 3 in the bits of a record that stood there, and another direction if need be.
            if records > 0 {
                let record = random.below(records);
                bytes[2 + 2 * (zones as usize + record)] |=
                    if has_gates(edition) { 0xC2 } else { 0xC0 };
            }
        }
        // Records with wrong zones alone.
        22 => {
            let zone = random.within(1, zones);
            insert(random, &mut bytes, word(zone, zone, 0));
        }
        23 => {
            let (zones, run) = small(random, edition);
            let off = off_site(random, zones);
            let bad = if random.chance(50) {
                word(off, 1, 0)
            } else {
                word(1, off, 0)
            };
            bytes = appended(random, &run, bad);
        }
        24 => {
            let (zones, run) = small(random, edition);
            let off = off_site(random, zones);
            let bad = [pair(off, 1), pair(1, off), pair(2, 2), pair(8, 8)][random.below(4)];
            bytes = appended(random, &run, bad);
        }
        25 => {
            let zones = random.within(2, 7);
            let mut run = opened(random, edition, zones);
            let habits = habits(random, edition, zones).starting(0);
            traffic(random, &mut run, &habits, 12);
            let zone = off_site(random, zones);
            bytes = appended(random, &run, encode(Call::Start { zone }));
        }
        // Records whose calls are refused: 7, 8, 9, 11, and 10 at a start and at a receipt.
        26 => {
            let stocks = vec![random.within(0, 254) as u16; zones as usize];
            let (_, mut run) = Run::open(edition, zones, &stocks);
            while run.zones[0].stock > 9 {
                run.hand_over(1, 2, 9);
                run.receipt(1, 2);
            }
            let cars = run.zones[0].stock as u8 + 1;
            bytes = appended(random, &run, word(1, 2, cars));
        }
        27 => {
            let mut run = opened(random, edition, zones);
            for _ in 0..PLACES {
                run.hand_over(zones, 1, 0);
            }
            bytes = appended(random, &run, word(zones, 1, 0));
        }
        28 => {
            let (zones, mut run) = small(random, edition);
            while run.receipt(1, zones) == 0 {}
            bytes = appended(random, &run, pair(1, zones));
        }
        29 => {
            let (zones, run) = small(random, edition);
            let zone = random.within(1, zones);
            bytes = appended(random, &run, encode(Call::Start { zone }));
        }
        30 => {
            let mut run = opened_for(random, edition, zones, 1);
            hear(&mut run, 2, 1);
            for _ in 0..PLACES {
                run.hand_over(1, 2, 0);
            }
            bytes = appended(random, &run, encode(Call::Start { zone: 1 }));
        }
        31 => {
            let zones = zones.max(3);
            let mut run = opened_for(random, edition, zones, 1);
            hear(&mut run, 3, 2);
            hear(&mut run, 2, 1);
            for _ in 0..PLACES {
                run.hand_over(2, 3, 0);
            }
            run.start(1);
            bytes = appended(random, &run, pair(1, 2));
        }
        // Two bad records: the first one gives the number.
        32 => {
            let position = random.below(records + 1);
            insert_at(&mut bytes, position, pair(1, 1));
            insert_at(&mut bytes, position + 1, no_gate(random, edition, 0xC000));
        }
        33 => {
            let position = random.below(records + 1);
            insert_at(&mut bytes, position, no_gate(random, edition, 0xC000));
            insert_at(&mut bytes, position + 1, pair(1, 1));
        }
        // Any damage: one bit turned, bytes without any order behind a good header, and the same
        // records in another edition.
        34 => {
            let place = random.below(bytes.len());
            bytes[place] ^= 1 << random.below(8);
        }
        35 => {
            let keep = 2 + 2 * zones as usize;
            for byte in &mut bytes[keep..] {
                *byte = random.within(0, 255) as u8;
            }
        }
        36 => {
            let other = match edition {
                1 => 2,
                2 => 1,
                _ => random.within(1, 2),
            };
            set_header(&mut bytes, other, zones, records);
        }
        // Gates, which editions 1 and 2 refuse with 18 each time. Another direction with a wrong zone,
        // and a wrong zone alone.
        37 => {
            let (zones, run) = small(random, edition);
            let direction = random.within(2, 7) as u16;
            let bad = gate(Direction::In, off_site(random, zones), cars(random)) | direction << 8;
            bytes = appended(random, &run, bad);
        }
        38 => {
            let (zones, run) = small(random, edition);
            let bad = gate(direction(random), off_site(random, zones), cars(random));
            bytes = appended(random, &run, bad);
        }
        // Calls that are refused: 21, with cars on lines, and 7.
        39 => {
            let run = brimful(random, edition, zones);
            let cars = [1, 1, 255][random.below(3)];
            let bad = gate(Direction::In, random.within(1, zones), cars);
            bytes = appended(random, &run, bad);
        }
        40 => {
            let stocks = vec![random.within(0, 254) as u16; zones as usize];
            let (_, mut run) = Run::open(edition, zones, &stocks);
            for _ in 0..random.below(4) {
                run.leave(1, random.within(0, 60) as u8);
            }
            let stock = run.zones[0].stock as u8;
            bytes = appended(random, &run, gate(Direction::Out, 1, stock + 1));
        }
        // Gates of a true run of edition 3, in an edition without.
        _ => {
            let (_, mut run) = Run::open(3, zones, &vec![100; zones as usize]);
            for _ in 0..random.below(4) {
                hear(&mut run, 1, 2);
            }
            for _ in 0..random.within(1, 5) {
                let cars = random.within(0, 9) as u8;
                let zone = random.within(1, zones);
                let direction = direction(random);
                run.call(Call::Gate {
                    direction,
                    zone,
                    cars,
                });
            }
            run.start(1);
            let other = if has_gates(edition) {
                random.within(1, 2)
            } else {
                edition
            };
            bytes = with_edition(other, &bytes_of(&run));
        }
    }
    bytes
}

/// The record word of a gate call.
fn gate(direction: Direction, zone: u32, cars: u8) -> u16 {
    encode(Call::Gate {
        direction,
        zone,
        cars,
    })
}

/// How many kinds of true runs there are that any edition has.
const PLAIN_SHAPES: usize = 44;

/// How many kinds of true runs there are; the last ones have gates if the edition has them.
pub const SHAPES: usize = PLAIN_SHAPES + 5;

/// A journal of an edition that is accepted, of one kind.
pub fn accepted(random: &mut Random, edition: u32, kind: usize) -> Vec<u8> {
    let zones = random.within(2, 8);
    let run = match kind {
        // Unstarted ones, also without any record.
        0 => opened(random, edition, zones),
        1..=4 => {
            let mut run = opened(random, edition, zones);
            let habits = habits(random, edition, zones).starting(0);
            let records = random.below(120);
            traffic(random, &mut run, &habits, records);
            run
        }
        // Started ones as traffic left them: many are incomplete.
        5..=11 => {
            let before = random.below(100);
            let after = random.below(if kind < 9 { 6 } else { 60 });
            started(random, edition, zones, before, after)
        }
        // Complete ones with 1,000 records.
        12..=14 => filled(random, edition, zones, MOST_RECORDS),
        // A start that sends no request and is complete by itself.
        15 => {
            let mut run = opened(random, edition, zones);
            let zone = random.within(1, zones);
            for _ in 0..random.below(6) {
                let cars = cars(random);
                run.hand_over(zone, zone % zones + 1, cars);
            }
            run.start(zone);
            let habits = habits(random, edition, zones);
            let records = random.below(60);
            traffic(random, &mut run, &habits, records);
            run
        }
        16..=20 => long_line(random, edition, zones),
        21..=25 => queued(random, edition, zones),
        26..=31 => turned(random, edition, zones.max(3)),
        // Complete ones of any length, with much or little traffic before the start.
        32..=43 => {
            let (before, after) = match random.below(3) {
                0 => (random.below(8), random.below(60)),
                1 => (random.below(60), random.below(120)),
                _ => (random.below(200), random.below(60)),
            };
            let mut run = started(random, edition, zones, before, after);
            finish(random, &mut run);
            let habits = habits(random, edition, zones);
            let records = run.records.len() + random.below(30);
            traffic(random, &mut run, &habits, records);
            run
        }
        // Gates up to their limits, and on both sides of a mark.
        44 => {
            let mut run = brimful(random, edition, zones);
            run.start(random.within(1, zones));
            let habits = habits(random, edition, zones);
            let records = run.records.len() + random.below(20);
            traffic(random, &mut run, &habits, records);
            finish(random, &mut run);
            run
        }
        45 => emptied(random, edition, zones),
        46 => above(random, edition, zones),
        47 => around(random, edition, zones),
        _ => busy_gates(random, edition),
    };
    bytes_of(&run)
}

/// How many kinds of journals there are.
pub const KINDS: usize = DAMAGES + SHAPES;

/// A journal of an edition, damaged or accepted, of one kind.
pub fn journal_of(random: &mut Random, edition: u32, kind: usize) -> Vec<u8> {
    match kind.checked_sub(DAMAGES) {
        Some(shape) => accepted(random, edition, shape),
        None => damaged(random, edition, kind),
    }
}

/// How many journals there are for crates/cases.
pub const STORED: usize = BEFORE_CONVERSIONS + 132;

/// How many of them there were before gates, and before conversions.
const BEFORE_GATES: usize = 400;
const BEFORE_CONVERSIONS: usize = 720;

/// Gives a number of journals that depends on the seed alone: those that there were before gates, of
/// editions 1 and 2, behind them those with edition 3, and then those for the converter.
pub fn journals(seed: u64, number: usize) -> Vec<Vec<u8>> {
    let mut random = Random::new(seed);
    let mut journals = before_gates(&mut random);
    journals.extend(worked_with_gates());
    let turns = turns();
    for index in 0..BEFORE_CONVERSIONS - journals.len() {
        let (edition, kind) = turns[index % turns.len()];
        journals.push(journal_of(&mut random, edition, kind));
    }
    journals.extend(archive::REFUSED.map(|(_, journal, ..)| journal.to_vec()));
    let longest = bytes_of(&limits::longest());
    journals.extend([1, 3].map(|edition| with_edition(edition, &longest)));
    for index in 0..number.saturating_sub(journals.len()) {
        let (round, kind) = (index / archive::KINDS, index % archive::KINDS);
        // Each time round every kind has the other edition.
        let edition = [1, 3][(round + kind) % 2];
        journals.push(archive::journal_of(&mut random, edition, kind));
    }
    journals.truncate(number);
    journals
}

/// The journals of editions 1 and 2, the worked ones first, those with line checks in both editions.
/// The kinds take turns, and each time round every kind has the other edition.
fn before_gates(random: &mut Random) -> Vec<Vec<u8>> {
    let mut journals = vec![CASE_A.to_vec(), bytes_of(&case_b())];
    for journal in CHECKED {
        journals.extend([1, 2].map(|edition| with_edition(edition, journal)));
    }
    let shapes = DAMAGES..DAMAGES + PLAIN_SHAPES;
    let kinds: Vec<usize> = (0..PLAIN_DAMAGES).chain(shapes).collect();
    for index in journals.len()..BEFORE_GATES {
        let (round, turn) = (index / kinds.len(), index % kinds.len());
        let edition = 1 + (round + turn) as u32 % 2;
        journals.push(journal_of(random, edition, kinds[turn]));
    }
    journals
}

/// The worked journals with gates, and the others in edition 3.
fn worked_with_gates() -> Vec<Vec<u8>> {
    let mut worked: Vec<Vec<u8>> = GATED.iter().map(|journal| journal.to_vec()).collect();
    worked.extend(GATES_REFUSED.iter().map(|(journal, ..)| journal.to_vec()));
    worked.push(with_edition(3, &CASE_A));
    worked.push(with_edition(3, &bytes_of(&case_b())));
    worked.extend(CHECKED.iter().map(|journal| with_edition(3, journal)));
    worked
}

/// The editions and kinds that take turns behind these: every kind in edition 3, and the damage with
/// gates in editions 1 and 2.
fn turns() -> Vec<(u32, usize)> {
    let mut turns: Vec<(u32, usize)> = (0..KINDS).map(|kind| (3, kind)).collect();
    for edition in [1, 2] {
        turns.extend((PLAIN_DAMAGES..DAMAGES).map(|kind| (edition, kind)));
    }
    turns
}

/// What stands out in a journal.
pub struct Traits {
    /// The number that the program prints, or 0 for a recording.
    pub refusal: u32,
    pub turned_firm: bool,
    pub left_provisional: bool,
    pub above_16: bool,
    /// A hand-over of 0 cars was taken with marked bit 0, and with 1.
    pub took_unmarked_check: bool,
    pub took_marked_check: bool,
    /// Cars went through a gate inside the recording, and outside.
    pub gate_inside: bool,
    pub gate_outside: bool,
    /// The recorded total.
    pub total: u64,
    pub edition: u32,
    pub zones: u32,
    pub records: usize,
}

/// The marked bit of the hand-over of 0 cars that a call takes.
fn taken_check(run: &Run, call: Call) -> Option<bool> {
    let Call::Receipt { from, to } = call else {
        return None;
    };
    match run.lines[from as usize - 1][to as usize - 1].front() {
        Some(&Item::HandOver { cars: 0, marked }) => Some(marked),
        _ => None,
    }
}

/// Works out what stands out in a journal.
pub fn traits(bytes: &[u8]) -> Traits {
    let line = print::line(bytes);
    let refusal = match line.strip_prefix("refused ") {
        Some(number) => number.trim().parse().expect("a refusal is a number"),
        None => 0,
    };
    let mut traits = Traits {
        refusal,
        turned_firm: false,
        left_provisional: false,
        above_16: false,
        took_unmarked_check: false,
        took_marked_check: false,
        gate_inside: false,
        gate_outside: false,
        total: 0,
        edition: 0,
        zones: 0,
        records: 0,
    };
    if refusal != 0 {
        return traits;
    }
    let run = journal::read(bytes).run;
    traits.edition = run.edition;
    traits.zones = run.count;
    traits.records = run.records.len();
    traits.left_provisional = run.zones[..run.size()]
        .iter()
        .any(|zone| matches!(zone.mark, Mark::Provisional(_)));

    // A provisional mark turns firm where a receipt changes one into the other.
    let mut gates = Vec::new();
    let (_, mut replay) = Run::open(run.edition, run.count, &run.opening[..run.size()]);
    for &word in &run.records {
        let before = replay.zones;
        let call = journal::decode(run.edition, word).expect("an accepted journal is well formed");
        if let Some(marked) = taken_check(&replay, call) {
            traits.took_marked_check |= marked;
            traits.took_unmarked_check |= !marked;
        }
        replay.call(call);
        if let Call::Gate { zone, .. } = call {
            let index = zone as usize - 1;
            gates.push((index, replay.zones[index].events));
        }
        traits.turned_firm |= (0..run.size()).any(|zone| {
            matches!(before[zone].mark, Mark::Provisional(_)) && replay.zones[zone].is_firm()
        });
    }

    let pairs = line.split_whitespace();
    let shown: Vec<u8> = pairs
        .map(|pair| u8::from_str_radix(pair, 16).expect("the line has hexadecimal digits"))
        .collect();
    let recorded =
        demand3::parse(run.edition, run.size(), &shown).expect("the line is a recording");
    traits.above_16 = recorded.lines.iter().flatten().any(|line| line.len() > 16);
    for (index, count) in gates {
        let inside = count <= recorded.events[index];
        traits.gate_inside |= inside;
        traits.gate_outside |= !inside;
    }
    traits.total = recorded.total();
    traits
}

#[cfg(test)]
mod tests {
    use super::*;
    use crate::edition::EDITIONS;

    /// Each kind of damage meets the question it was made for; for 19, the call's own too. Without
    /// gates, those of gates meet 18.
    #[test]
    fn every_kind_of_damage_meets_its_question() {
        let numbers: [(std::ops::RangeInclusive<usize>, u32, u32); 19] = [
            (0..=2, 15, 0),
            (3..=4, 16, 0),
            (5..=5, 15, 0),
            (6..=13, 17, 0),
            (14..=15, 4, 0),
            (16..=21, 18, 0),
            (22..=25, 19, 5),
            (26..=26, 19, 7),
            (27..=27, 19, 8),
            (28..=28, 19, 9),
            (29..=29, 19, 11),
            (30..=31, 19, 10),
            (32..=32, 19, 5),
            (33..=33, 18, 0),
            (37..=37, 18, 0),
            (38..=38, 19, 5),
            (39..=39, 19, 21),
            (40..=40, 19, 7),
            (41..=41, 18, 0),
        ];
        let mut random = Random::new(10);
        for (kinds, number, call_number) in numbers {
            for kind in kinds {
                for turn in 0..40 {
                    let edition = EDITIONS[turn % EDITIONS.len()];
                    let number = match kind {
                        PLAIN_DAMAGES.. if !has_gates(edition) => 18,
                        _ => number,
                    };
                    let bytes = damaged(&mut random, edition, kind);
                    let reading = journal::read(&bytes);
                    assert_eq!(reading.refusal, number, "kind {kind}");
                    if number == 19 {
                        assert_eq!(refused_call(&bytes, reading.position), call_number);
                    }
                }
            }
        }
    }

    /// Makes the calls of a journal up to a position and gives the number of the one there.
    fn refused_call(bytes: &[u8], position: usize) -> u32 {
        let zones = zones_of(bytes) as usize;
        let words = journal::words_of(&bytes[2..]);
        let edition = edition_of(bytes);
        let (_, mut run) = Run::open(edition, zones as u32, &words[..zones]);
        for &word in &words[zones..zones + position] {
            assert_eq!(run.call(journal::decode(edition, word).unwrap()), 0);
        }
        run.call(journal::decode(edition, words[zones + position]).unwrap())
    }
}
