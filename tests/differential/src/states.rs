//! Run states that no calls have made: unsound ones, and sound ones that no journal replays to.

use crate::calls::stray;
use crate::count::{Counts, Failure, Found};
use crate::expect::{self, Writings};
use crate::ffi::{PlainLocal, PlainRun, PlainSaved};
use crate::pair;
use crate::plain::{self, place};
use crate::text;
use second::generate::{accepted, SHAPES};
use second::journal;
use second::random::{direction, edition, Random};
use second::site::{Call, PLACES};

/// How many states are made of one reachable run, whose making takes long.
const STATES: usize = 8;

/// A sound state, with every byte as its edition.
pub fn every(counts: &mut Counts, random: &mut Random) -> Result<(), Failure> {
    for edition in 0..=255 {
        let mut p = sound(random);
        p.edition = edition;
        check(counts, random, &p)?;
    }
    Ok(())
}

pub fn trial(counts: &mut Counts, random: &mut Random, index: usize) -> Result<(), Failure> {
    let reachable = reachable(random, index);
    for _ in 0..STATES {
        let mut p = reachable;
        for _ in 0..random.within(1, 3) {
            damage(random, &mut p);
        }
        check(counts, random, &p)?;
    }
    let mut p = sound(random);
    check(counts, random, &p)?;
    damage(random, &mut p);
    check(counts, random, &p)?;
    if random.chance(20) {
        let p = garbage(random);
        check(counts, random, &p)?;
    }
    Ok(())
}

/// A run of a generated journal; of the three kinds with 1,000 records, which take long, one.
fn reachable(random: &mut Random, index: usize) -> PlainRun {
    let kind = match index % SHAPES {
        13 | 14 => 0,
        kind => kind,
    };
    let edition = edition(random);
    let bytes = accepted(random, edition, kind);
    plain::plain_run(&journal::read(&bytes).run)
}

/// Each call on one state, then a list of calls from there on.
fn check(counts: &mut Counts, random: &mut Random, p: &PlainRun) -> Result<(), Failure> {
    let failed = |p: &PlainRun, call: String, found: Found| Failure::new(text::run(p), call, found);
    writers(counts, random, p).map_err(|found| failed(p, "the writers".to_string(), found))?;
    let mut next = *p;
    for step in 0..KINDS * 3 {
        let made = likely(random, &next, step);
        let expected = expect::answer(&next, made);
        let answer = pair::call(counts, &next, made, &expected)
            .map_err(|found| failed(&next, text::call(made), found))?;
        if answer.refusal == 1 && step + 1 >= KINDS {
            // An unsound state stays as it is, so one call of each kind is enough.
            return Ok(());
        }
        next = answer.run;
    }
    if random.chance(20) {
        let written = writers(counts, random, &next);
        written.map_err(|found| failed(&next, "the writers".to_string(), found))?;
    }
    Ok(())
}

fn writers(counts: &mut Counts, random: &mut Random, p: &PlainRun) -> Result<(), Found> {
    let run = plain::run_of(p);
    pair::writers(counts, random, p, &Writings::of(run.as_ref()))
}

/// How many kinds of calls take turns.
const KINDS: usize = 4;

/// A call that is mostly asked about more than its zones: the kinds take turns.
fn likely(random: &mut Random, p: &PlainRun, step: usize) -> Call {
    let zones = u32::from(p.count.clamp(2, 8));
    if random.chance(8) {
        return stray(random, zones);
    }
    let from = random.within(1, zones);
    let to = (from - 1 + random.within(1, zones - 1)) % zones + 1;
    let cars = if random.chance(50) {
        random.within(0, 3) as u8
    } else {
        random.within(0, 255) as u8
    };
    match step % KINDS {
        0 => Call::HandOver { from, to, cars },
        1 => Call::Receipt { from, to },
        2 => Call::Start { zone: from },
        _ => Call::Gate {
            direction: direction(random),
            zone: from,
            cars,
        },
    }
}

fn word(random: &mut Random) -> u16 {
    random.within(0, 65_535) as u16
}

fn byte(random: &mut Random) -> u8 {
    random.within(0, 255) as u8
}

/// The set of all zones of a site, for a count of at most 8.
fn everybody(count: u8) -> u8 {
    ((1_u16 << count) - 1) as u8
}

/// A zone with any values.
fn any_zone(random: &mut Random) -> PlainLocal {
    PlainLocal {
        stock: word(random),
        events: word(random),
        deps: byte(random),
        mark: byte(random),
        saved: PlainSaved {
            stock: word(random),
            events: word(random),
        },
    }
}

/// A struct with any values.
fn garbage(random: &mut Random) -> PlainRun {
    let mut p = plain::ZEROS;
    p.count = byte(random);
    p.edition = byte(random);
    p.records = word(random);
    p.zones = std::array::from_fn(|_| any_zone(random));
    p.opening = std::array::from_fn(|_| word(random));
    p.items = std::array::from_fn(|_| word(random));
    p.lens = std::array::from_fn(|_| byte(random));
    p.journal = std::array::from_fn(|_| word(random));
    p
}

/// A sound state that hardly any calls could make, with any values in storage that the site lacks,
/// behind the last item of each line and behind the last record.
fn sound(random: &mut Random) -> PlainRun {
    let mut p = garbage(random);
    p.edition = edition(random) as u8;
    p.count = random.within(2, 8) as u8;
    p.records = match random.below(8) {
        0 => [0, 1][random.below(2)],
        1 => [999, 1_000][random.below(2)],
        _ => random.below(1_000) as u16,
    };
    let marks = random.within(0, 2);
    for index in 0..8 {
        let zone = &mut p.zones[index];
        zone.mark = random.within(0, marks) as u8;
        if index < usize::from(p.count) {
            zone.events = random.within(0, u32::from(p.records)) as u16;
            zone.deps &= everybody(p.count);
            zone.stock = 0;
        }
    }
    let most = if random.chance(40) {
        PLACES as u32
    } else {
        random.within(0, 16)
    };
    for (a, b) in pairs(&p) {
        p.lens[place(a, b)] = match random.below(2) {
            0 => most as u8,
            _ => random.within(0, most) as u8,
        };
        for index in 0..usize::from(p.lens[place(a, b)]) {
            p.items[PLACES * place(a, b) + index] = item(random, p.count);
        }
    }
    share_out(random, &mut p);
    p
}

/// An item that is sound on a site: at most 60 cars, so that full lines keep within the sum, and
/// quite often 0.
fn item(random: &mut Random, count: u8) -> u16 {
    let cars = match random.below(5) {
        0 => 0,
        _ => random.within(0, 60) as u16,
    };
    match random.below(4) {
        0 => 512 + u16::from(byte(random) & everybody(count)),
        1 => 256 + cars,
        _ => cars,
    }
}

/// The index pairs of the lines of a site.
fn pairs(p: &PlainRun) -> Vec<(usize, usize)> {
    let size = usize::from(p.count.min(8));
    (0..size)
        .flat_map(|a| (0..size).map(move |b| (a, b)))
        .filter(|(a, b)| a != b)
        .collect()
}

/// The cars on the lines of a site, where its lengths are sound.
fn cars_on_lines(p: &PlainRun) -> u32 {
    let mut cars = 0;
    for (a, b) in pairs(p) {
        let length = usize::from(p.lens[place(a, b)]).min(PLACES);
        for index in 0..length {
            let word = p.items[PLACES * place(a, b) + index];
            if word < 512 {
                cars += u32::from(word % 256);
            }
        }
    }
    cars
}

/// Gives the zones stocks that keep within the sum, quite often just so.
fn share_out(random: &mut Random, p: &mut PlainRun) {
    let mut rest = 65_535_u32.saturating_sub(cars_on_lines(p));
    let most = [0, 5, 300, 65_535][random.below(4)];
    for zone in &mut p.zones[..usize::from(p.count)] {
        zone.stock = random.within(0, rest.min(most)) as u16;
        rest -= u32::from(zone.stock);
    }
    if random.chance(30) {
        p.zones[0].stock += rest as u16;
    }
}

/// Sets a stock so that stocks plus cars on lines are 65,535 or one more.
fn to_the_brim(random: &mut Random, p: &mut PlainRun) {
    let zones = usize::from(p.count.min(8)).max(1);
    let index = random.below(zones);
    p.zones[index].stock = 0;
    let stocks = p.zones[..zones].iter().map(|zone| u32::from(zone.stock));
    let others = stocks.sum::<u32>() + cars_on_lines(p);
    let total = 65_535 + random.within(0, 1);
    p.zones[index].stock = total.saturating_sub(others).min(65_535) as u16;
}

/// Damages one field of a run.
fn damage(random: &mut Random, p: &mut PlainRun) {
    match random.below(21) {
        0 => p.count = [0, 1, 2, 3, 7, 8, 9, byte(random)][random.below(8)],
        1 => p.records = [0, 1, 999, 1_000, 1_001, word(random)][random.below(6)],
        2 => p.records = p.records.wrapping_add([1, 65_535][random.below(2)]),
        3 => p.opening[random.below(8)] = word(random),
        4 => p.opening[random.below(8)] ^= 1,
        5 => to_the_brim(random, p),
        6..=12 => damage_zone(random, p),
        13..=17 => damage_line(random, p),
        18 => p.edition = [0, 1, 2, 3, 4, 7, byte(random)][random.below(7)],
        _ => damage_journal(random, p),
    }
}

fn damage_zone(random: &mut Random, p: &mut PlainRun) {
    let records = p.records;
    let zone = &mut p.zones[random.below(8)];
    match random.below(10) {
        0 => zone.stock = word(random),
        1 => zone.stock = zone.stock.wrapping_add([1, 65_535][random.below(2)]),
        2 => zone.events = [0, records, records.wrapping_add(1), word(random)][random.below(4)],
        3 => zone.events = zone.events.wrapping_add([1, 65_535][random.below(2)]),
        4 => zone.deps = byte(random),
        5 => zone.deps ^= 1 << random.below(8),
        6 => zone.mark = byte(random),
        7 | 8 => zone.mark = random.within(0, 3) as u8,
        _ => {
            let saved = &mut zone.saved;
            saved.stock = saved.stock.wrapping_add(random.within(0, 1) as u16);
            saved.events = saved.events.wrapping_add(random.within(0, 1) as u16);
        }
    }
}

fn damage_line(random: &mut Random, p: &mut PlainRun) {
    let size = usize::from(p.count.clamp(1, 8));
    let line = if random.chance(70) {
        place(random.below(size), random.below(size))
    } else {
        random.below(64)
    };
    let length = usize::from(p.lens[line]);
    let first = PLACES * line;
    match random.below(7) {
        0 => p.lens[line] = [0, 1, 15, 16, 17, byte(random)][random.below(6)],
        1 => p.lens[line] = p.lens[line].wrapping_add([1, 255][random.below(2)]),
        2 => p.items[first + random.below(PLACES)] = word(random),
        3 => p.items[first + random.below(length.clamp(1, PLACES))] ^= 1 << random.below(11),
        4 => {
            p.items[first + random.below(length.clamp(1, PLACES))] = 760 + byte(random) as u16 % 16
        }
        5 if length < PLACES => {
            // One more item on the line.
            p.items[first + length] = item(random, p.count.min(8));
            p.lens[line] += 1;
        }
        _ => {
            // A full line.
            p.lens[line] = PLACES as u8;
            for index in 0..PLACES {
                p.items[first + index] = item(random, p.count.min(8));
            }
        }
    }
}

fn damage_journal(random: &mut Random, p: &mut PlainRun) {
    let records = usize::from(p.records).clamp(1, 1_000);
    match random.below(4) {
        0 => p.journal[random.below(1_000)] = word(random),
        1 => p.journal[random.below(records)] = word(random),
        2 => p.journal[random.below(records)] ^= 1 << random.below(16),
        _ => p.journal.swap(random.below(records), random.below(records)),
    }
}
