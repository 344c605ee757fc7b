//! Random lists of calls from random openings, in several shapes of traffic.

use crate::count::{Counts, Failure};
use crate::pair::{self, Pair};
use second::edition::EDITIONS;
use second::generate;
use second::journal::{self, decode};
use second::random::{any_edition, cars, direction, drive, edition, stocks, Habits, Random};
use second::site::{Call, MOST_RECORDS, PLACES};

type Shape = fn(&mut Counts, &mut Random) -> Result<(), Failure>;

/// The shapes take turns; one that stands here more than once comes so much more often.
const SHAPES: [Shape; 19] = [
    drawn,
    drawn,
    replayed,
    replayed,
    replayed,
    turned,
    turned,
    turned,
    ring,
    crowded,
    wide,
    blocked_start,
    blocked_receipt,
    poor,
    restarted,
    strayed,
    full,
    gated,
    brimming,
];

pub fn trial(counts: &mut Counts, random: &mut Random, index: usize) -> Result<(), Failure> {
    openings(counts, random)?;
    SHAPES[index % SHAPES.len()](counts, random)
}

/// Openings with every edition.
pub fn every(counts: &mut Counts, random: &mut Random) -> Result<(), Failure> {
    for edition in 0..=255 {
        for _ in 0..8 {
            opening(counts, random, edition)?;
        }
    }
    Ok(())
}

/// An opening with any arguments.
fn openings(counts: &mut Counts, random: &mut Random) -> Result<(), Failure> {
    let edition = any_edition(random);
    opening(counts, random, edition)
}

/// An opening with any other arguments, most of them near what is refused.
fn opening(counts: &mut Counts, random: &mut Random, edition: u8) -> Result<(), Failure> {
    let count = match random.below(4) {
        0 => random.within(0, 255),
        _ => random.within(0, 10),
    };
    let length = match random.below(8) {
        0 | 1 => random.within(0, 12),
        2 => 0,
        _ => count.min(40),
    };
    let zeros = random.chance(if length == count { 10 } else { 60 });
    let most = if zeros { 0 } else { 65_535 / length.max(1) };
    let mut stocks: Vec<u16> = (0..length).map(|_| random.within(0, most) as u16).collect();
    if length > 0 && !zeros && random.chance(50) {
        // The sum is brought to the largest that is accepted, or one above.
        let rest: u32 = stocks[1..].iter().map(|&stock| u32::from(stock)).sum();
        stocks[0] = (65_535 - rest) as u16;
        let last = stocks.len() - 1;
        stocks[last] = stocks[last].saturating_add(random.below(2) as u16);
    }
    pair::open(counts, edition, count as u8, &stocks)?;
    Ok(())
}

fn opened<'a>(
    counts: &'a mut Counts,
    random: &mut Random,
    zones: u32,
) -> Result<Pair<'a>, Failure> {
    let (edition, stocks) = (edition(random), stocks(random, zones));
    Pair::open(counts, random, edition, &stocks)
}

/// Two different zones of a site.
fn two(random: &mut Random, zones: u32) -> (u32, u32) {
    let from = random.within(1, zones);
    let to = (from - 1 + random.within(1, zones - 1)) % zones + 1;
    (from, to)
}

/// The call with its zones cut to one byte, so that both implementations can take it.
fn narrow(call: Call) -> Call {
    match call {
        Call::HandOver { from, to, cars } => Call::HandOver {
            from: from % 256,
            to: to % 256,
            cars,
        },
        Call::Receipt { from, to } => Call::Receipt {
            from: from % 256,
            to: to % 256,
        },
        Call::Start { zone } => Call::Start { zone: zone % 256 },
        Call::Gate {
            direction,
            zone,
            cars,
        } => Call::Gate {
            direction,
            zone: zone % 256,
            cars,
        },
    }
}

/// A call with any zones: 0, those just off the site, any byte, or two that are equal.
pub fn stray(random: &mut Random, zones: u32) -> Call {
    let mut zone = || match random.below(6) {
        0 => 0,
        1 => zones + 1,
        2 => random.within(9, 255),
        _ => random.within(1, zones.max(1)),
    };
    let (from, to) = (zone(), zone());
    match random.below(4) {
        0 => Call::HandOver {
            from,
            to,
            cars: cars(random),
        },
        1 => Call::Receipt { from, to },
        2 => Call::Start { zone: from },
        _ => Call::Gate {
            direction: direction(random),
            zone: from,
            cars: cars(random),
        },
    }
}

/// Calls drawn as the second implementation's own tests draw them.
fn drawn(counts: &mut Counts, random: &mut Random) -> Result<(), Failure> {
    let zones = random.within(2, 8);
    let length = [20, 60, 120, 400][random.below(4)];
    let mut pair = opened(counts, random, zones)?;
    let mut failure = None;
    drive(random, pair.run.edition, zones, length, &mut |call| {
        if failure.is_some() {
            return 0;
        }
        let answer = pair.call(narrow(call));
        answer.unwrap_or_else(|found| {
            failure = Some(found);
            0
        })
    });
    match failure {
        Some(failure) => Err(failure),
        None => pair.end(),
    }
}

/// The calls of a generated journal; in some lists stray calls stand between them.
fn replay(counts: &mut Counts, random: &mut Random, kind: usize) -> Result<(), Failure> {
    let edition = edition(random);
    let run = journal::read(&generate::accepted(random, edition, kind)).run;
    let strays = if random.chance(40) {
        random.within(1, 8)
    } else {
        0
    };
    let mut pair = Pair::open(counts, random, edition, &run.opening[..run.size()])?;
    for &word in &run.records {
        if random.chance(strays) {
            pair.call(stray(random, run.count))?;
        }
        let call = decode(edition, word);
        pair.call(call.expect("a record of a run is well formed"))?;
    }
    pair.end()
}

/// A generated journal of any kind, except those with 1,000 records, which take long.
fn replayed(counts: &mut Counts, random: &mut Random) -> Result<(), Failure> {
    let kind = match random.below(generate::SHAPES) {
        12..=14 => 16,
        kind => kind,
    };
    replay(counts, random, kind)
}

/// A generated journal of the kind in which a provisional mark turns firm.
fn turned(counts: &mut Counts, random: &mut Random) -> Result<(), Failure> {
    replay(counts, random, 26)
}

/// A hot ring: each zone sends to the next, and the lines are received nearly as fast.
fn ring(counts: &mut Counts, random: &mut Random) -> Result<(), Failure> {
    let zones = random.within(2, 8);
    let mut pair = opened(counts, random, zones)?;
    let steps = random.within(20, 200);
    let start = random.within(0, steps);
    for step in 0..steps {
        let from = step % zones + 1;
        let to = from % zones + 1;
        if random.chance(90) {
            pair.send(from, to, cars(random))?;
        }
        if random.chance(85) {
            pair.receive(from, to)?;
        }
        if random.chance(10) {
            pair.send(to, from, 0)?;
            pair.receive(to, from)?;
        }
        if step == start {
            pair.start(random.within(1, zones))?;
        }
    }
    pair.finish(random)?;
    pair.end()
}

/// One line is driven to 16 items and further, a request among or behind its hand-overs.
fn crowded(counts: &mut Counts, random: &mut Random) -> Result<(), Failure> {
    let zones = random.within(2, 8);
    let (from, to) = two(random, zones);
    let mut pair = opened(counts, random, zones)?;
    if random.chance(70) {
        // The sender hears the receiver, so that its request goes over the crowded line.
        pair.send(to, from, cars(random))?;
        pair.receive(to, from)?;
    }
    for _ in 0..random.within(8, 19) {
        pair.send(from, to, cars(random))?;
    }
    pair.start(from)?;
    for _ in 0..random.within(1, 9) {
        pair.send(from, to, 0)?;
    }
    for _ in 0..random.within(0, 18) {
        pair.receive(from, to)?;
    }
    for _ in 0..random.within(1, 19) {
        pair.send(from, to, cars(random))?;
    }
    pair.finish(random)?;
    pair.end()
}

/// Every line at once: after a start all zones fill their lines before a request is received, so
/// that the recording has up to hundreds of items. Each zone has heard the next.
fn wide(counts: &mut Counts, random: &mut Random) -> Result<(), Failure> {
    let zones = random.within(2, 8);
    let mut pair = opened(counts, random, zones)?;
    for zone in 1..=zones {
        let next = zone % zones + 1;
        pair.hear(next, zone)?;
    }
    pair.start(random.within(1, zones))?;
    for _ in 0..random.within(1, 14) {
        for from in 1..=zones {
            for to in (1..=zones).filter(|&to| to != from) {
                let few = if random.chance(30) { 0 } else { cars(random) };
                pair.send(from, to, few)?;
            }
        }
    }
    pair.finish(random)?;
    pair.end()
}

/// A start that must send over a full line, refused with 10 until a place is free.
fn blocked_start(counts: &mut Counts, random: &mut Random) -> Result<(), Failure> {
    let zones = random.within(2, 8);
    let mut pair = opened(counts, random, zones)?;
    let starter = random.within(1, zones);
    for _ in 0..random.within(1, 3) {
        let other = (starter - 1 + random.within(1, zones - 1)) % zones + 1;
        pair.send(other, starter, cars(random))?;
        pair.hear(other, starter)?;
        for _ in 0..PLACES {
            pair.send(starter, other, random.below(2) as u8)?;
            pair.send(starter, other, 0)?;
        }
    }
    pair.start(starter)?;
    for other in (1..=zones).filter(|&other| other != starter) {
        pair.receive(starter, other)?;
        pair.start(starter)?;
    }
    pair.finish(random)?;
    pair.end()
}

/// A receipt of a request that must be passed on over a full line, refused with 10 until a place
/// is free.
fn blocked_receipt(counts: &mut Counts, random: &mut Random) -> Result<(), Failure> {
    let zones = random.within(3, 8);
    let mut pair = opened(counts, random, zones)?;
    let (first, second) = two(random, zones);
    let others: Vec<u32> = (1..=zones)
        .filter(|&zone| zone != first && zone != second)
        .collect();
    let third = others[random.below(others.len())];
    pair.hear(third, second)?;
    pair.hear(second, first)?;
    for _ in 0..PLACES {
        pair.send(second, third, random.below(2) as u8)?;
        pair.send(second, third, 0)?;
    }
    pair.start(first)?;
    if random.chance(50) {
        // A marked hand-over gives the second zone a provisional mark before its request.
        pair.hear(first, third)?;
        pair.hear(third, second)?;
    }
    pair.receive(first, second)?;
    pair.receive(second, third)?;
    pair.receive(first, second)?;
    pair.finish(random)?;
    pair.end()
}

/// Stocks that run down, with numbers of cars just covered, just not covered, 0 and 255.
fn poor(counts: &mut Counts, random: &mut Random) -> Result<(), Failure> {
    let zones = random.within(2, 8);
    let most = [3, 40, 300][random.below(3)];
    let stocks: Vec<u16> = (0..zones).map(|_| random.within(0, most) as u16).collect();
    let edition = edition(random);
    let mut pair = Pair::open(counts, random, edition, &stocks)?;
    for _ in 0..random.within(10, 120) {
        let (from, to) = two(random, zones);
        let stock = pair.run.zones[from as usize - 1].stock;
        let cars = match random.below(4) {
            0 => 255,
            1 => (stock + 1).min(255),
            2 => stock.min(255),
            _ => 0,
        };
        if random.chance(80) {
            pair.send(from, to, cars as u8)?;
        } else {
            pair.leave(from, cars as u8)?;
        }
        if random.chance(60) {
            let (from, to) = two(random, zones);
            pair.receive(from, to)?;
        }
        if random.chance(2) {
            pair.start(from)?;
        }
    }
    pair.finish(random)?;
    pair.end()
}

/// Starts before all traffic, in its midst, after it, and each time again.
fn restarted(counts: &mut Counts, random: &mut Random) -> Result<(), Failure> {
    let zones = random.within(2, 8);
    let mut pair = opened(counts, random, zones)?;
    let habits = Habits::draw(random, zones).tame().starting(100);
    let habits = habits.gates_of(random, pair.run.edition);
    let early = random.chance(30);
    for step in 0..random.within(1, 80) {
        if step == 0 && early {
            pair.start(random.within(1, zones))?;
        }
        pair.call(habits.call(random))?;
    }
    pair.start(random.within(1, zones))?;
    pair.finish(random)?;
    pair.start(random.within(1, zones))?;
    pair.end()
}

/// Half of the calls name wrong zones.
fn strayed(counts: &mut Counts, random: &mut Random) -> Result<(), Failure> {
    let zones = random.within(2, 8);
    let mut pair = opened(counts, random, zones)?;
    let habits = Habits::draw(random, zones).tame();
    let habits = habits.gates_of(random, pair.run.edition);
    for _ in 0..random.within(1, 80) {
        let call = if random.chance(50) {
            stray(random, zones)
        } else {
            habits.call(random)
        };
        pair.call(call)?;
    }
    pair.finish(random)?;
    pair.end()
}

/// A run driven to 1,000 records, and then every kind of call: all of them meet 6, or 15 or 5 before.
fn full(counts: &mut Counts, random: &mut Random) -> Result<(), Failure> {
    let zones = random.within(2, 8);
    let mut pair = opened(counts, random, zones)?;
    let habits = Habits::draw(random, zones).tame().starting(3);
    let habits = habits.gates_of(random, pair.run.edition);
    for _ in 0..random.within(200, 2_000) {
        pair.call(habits.call(random))?;
    }
    if random.chance(80) {
        pair.finish(random)?;
    }
    let (from, to) = two(random, zones);
    while pair.run.records.len() < MOST_RECORDS {
        let records = pair.run.records.len();
        pair.send(from, to, 0)?;
        pair.receive(from, to)?;
        if records == pair.run.records.len() {
            // A request that cannot be passed on holds up the line, so another zone drains.
            let (from, to) = two(random, zones);
            pair.receive(from, to)?;
        }
    }
    for _ in 0..4 {
        let (from, to) = two(random, zones);
        pair.send(from, to, cars(random))?;
        pair.receive(from, to)?;
        pair.start(from)?;
        pair.enter(from, cars(random))?;
        pair.leave(from, cars(random))?;
        pair.call(stray(random, zones))?;
    }
    pair.end()
}

/// Gates beside traffic, before a start and after it, at every zone or at a few.
fn gated(counts: &mut Counts, random: &mut Random) -> Result<(), Failure> {
    let zones = random.within(2, 8);
    let mut pair = opened(counts, random, zones)?;
    let last = random.within(1, zones);
    let steps = random.within(10, 120);
    let start = random.within(0, steps);
    for step in 0..steps {
        let zone = random.within(1, last);
        pair.gate(direction(random), zone, cars(random))?;
        let (from, to) = two(random, zones);
        if random.chance(60) {
            pair.send(from, to, cars(random))?;
        }
        if random.chance(60) {
            pair.receive(from, to)?;
        }
        if step == start {
            pair.start(random.within(1, zones))?;
        }
    }
    pair.finish(random)?;
    pair.end()
}

/// A site with its most cars, or nearly so, in stocks and on lines. Entries just fit or are refused with
/// 21, also where the stocks alone would allow them; exits make room. In some lists one zone takes
/// all entries, hears nobody and starts, so that its recording has the entries and not the exits.
fn brimming(counts: &mut Counts, random: &mut Random) -> Result<(), Failure> {
    let zones = random.within(2, 8);
    let mut stocks: Vec<u16> = (0..zones).map(|_| random.within(0, 8_000) as u16).collect();
    let others: u32 = stocks[1..].iter().map(|&stock| u32::from(stock)).sum();
    let most = [0, 3, 300][random.below(3)];
    stocks[0] = (65_535 - others - random.within(0, most)) as u16;
    let edition = match random.below(4) {
        0 => edition(random),
        _ => EDITIONS[EDITIONS.len() - 1],
    };
    let mut pair = Pair::open(counts, random, edition, &stocks)?;
    let entrance = random.chance(50).then(|| random.within(1, zones));
    for _ in 0..random.within(5, 80) {
        let (from, to) = two(random, zones);
        let rest = 65_535 - pair.run.total() as u32;
        let some = match random.below(4) {
            0 => rest,
            1 => rest + 1,
            2 => random.within(0, 255),
            _ => random.within(0, 3),
        };
        let some = some.min(255) as u8;
        match random.below(5) {
            0 | 1 => pair.enter(entrance.unwrap_or(from), some)?,
            2 if entrance != Some(from) => pair.leave(from, random.within(0, 255) as u8)?,
            3 if entrance != Some(to) => pair.receive(from, to)?,
            _ => pair.send(from, to, random.within(0, 255) as u8)?,
        };
        if entrance.is_none() && random.chance(4) {
            pair.start(from)?;
        }
    }
    pair.start(entrance.unwrap_or(1))?;
    pair.finish(random)?;
    pair.end()
}
