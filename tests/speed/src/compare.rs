//! Makes the peer and the proved code do the same on random and hostile inputs and compares the
//! answers, every field and every lent byte.
//!
//! In two places c/cut/site.h says more than the rules, by which the peer is written: a mark above 2 at
//! an index that the site lacks makes a run unsound (there the peer is not asked), and an accepted
//! call writes what an unmarked zone has saved as 0 (there these values are not compared).

use crate::proved::{self, Numbers, Told};
use second::archive;
use second::generate::{self, accepted, journal_of, SHAPES};
use second::random::{any_edition, direction, drive, edition, stocks, Random};
use second::site::{Call, Direction};
use speed::conversion;
use speed::site::{self, Local, Received, Run, Written, MOST_RECORDS, PLACES, RECORDING_BYTES};
use speed::zone::{Answer, Saved, Zone};
use std::array::from_fn;
use std::fmt::Debug;
use std::time::{Duration, Instant};

/// A difference, as text.
type Outcome<T> = Result<T, String>;

/// The calls with the numbers that they answer: the refusals, and behind them how many items remain after
/// an accepted receipt and at the last one of an accepted reading, where more are met seldom.
const CALLS: [(&str, &[u8]); 23] = [
    ("open", &[0, 2, 3, 4, 15]),
    ("send", &[0, 1, 5, 6, 7, 8]),
    ("receive", &[0, 1, 5, 6, 9, 10]),
    ("start", &[0, 1, 5, 6, 10, 11]),
    ("enter", &[0, 1, 5, 6, 15, 21]),
    ("leave", &[0, 1, 5, 6, 7, 15]),
    ("record", &[0, 1, 12, 13, 14]),
    ("page", &[0, 1, 12, 13, 14]),
    ("write", &[0, 1, 14]),
    ("read", &[0, 4, 15, 16, 17, 18, 19]),
    ("read-record", &[0, 4, 12, 13, 14, 15, 16, 17, 18, 19]),
    ("read-page", &[0, 4, 12, 13, 14, 15, 16, 17, 18, 19]),
    ("upgrade", &[0, 4, 14, 15, 16, 17, 18, 19, 22]),
    ("downgrade", &[0, 4, 14, 15, 16, 17, 18, 19, 22, 23]),
    ("zone-open", &[0, 2, 5, 15]),
    ("zone-send", &[0, 1, 5, 6, 7]),
    ("zone-receive", &[0, 1, 5, 6, 20]),
    ("zone-request", &[0, 1, 5]),
    ("zone-start", &[0, 1, 11]),
    ("zone-enter", &[0, 1, 6, 15, 20]),
    ("zone-leave", &[0, 1, 6, 7, 15]),
    (
        "receive leaves",
        &[0, 1, 2, 3, 4, 5, 6, 7, 8, 9, 10, 11, 12, 13, 14, 15],
    ),
    ("read leaves", &[0, 1, 2]),
];

/// The texts of two answers from shortly before the first difference on.
fn apart<A: Debug>(proved: &A, peer: &A) -> String {
    let (proved, peer) = (format!("{proved:?}"), format!("{peer:?}"));
    let same = proved.bytes().zip(peer.bytes());
    let from = same.take_while(|(a, b)| a == b).count().saturating_sub(120);
    let cut = |text: &str| -> String { text.chars().skip(from).take(240).collect() };
    format!("proved ..{}, peer ..{}", cut(&proved), cut(&peer))
}

/// How often each number of each call must be met in a round.
const LEAST: u64 = 20;

#[derive(Default)]
struct Counts {
    /// By call, then by number.
    times: [[u64; 24]; CALLS.len()],
    comparisons: u64,
}

impl Counts {
    /// Compares what both answer, and counts the number.
    fn same<A: Debug + PartialEq>(
        &mut self,
        name: &str,
        refusal: u8,
        proved: &A,
        peer: &A,
    ) -> Outcome<()> {
        if proved != peer {
            return Err(format!("{name}: {}", apart(proved, peer)));
        }
        self.comparisons += 1;
        self.count(name, refusal)
    }

    /// Counts a number of a call.
    fn count(&mut self, name: &str, number: u8) -> Outcome<()> {
        let place = CALLS.iter().position(|call| call.0 == name);
        let times = place.map(|place| &mut self.times[place]);
        let count = times.and_then(|times| times.get_mut(usize::from(number)));
        *count.ok_or(format!("{name} answers {number}"))? += 1;
        Ok(())
    }

    /// The numbers that were met too seldom.
    fn missed(&self) -> Vec<String> {
        let mut missed = Vec::new();
        for (times, (name, numbers)) in self.times.iter().zip(CALLS) {
            for &number in numbers {
                let met = times[usize::from(number)];
                if met < LEAST {
                    missed.push(format!("{name} answering {number}: {met} times"));
                }
            }
        }
        missed
    }
}

type Trial = fn(&mut Counts, &mut Random, usize) -> Outcome<()>;

/// The kinds of trials with their numbers in one round.
const KINDS: [(&str, usize, Trial); 6] = [
    ("zones", 20_000, zones),
    ("openings", 10_000, openings),
    ("lists of calls", 1_000, lists),
    ("run states", 3_500, states),
    ("journals", 2_500, journals),
    ("conversions", 1_000, conversions),
];

/// Makes rounds for so many seconds, at least one.
pub fn all(seconds: u64) {
    let start = Instant::now();
    let mut comparisons = 0;
    for seed in 1.. {
        let mut counts = Counts::default();
        for (kind, (name, trials, trial)) in KINDS.iter().enumerate() {
            for index in 0..*trials {
                let mut random = Random::new((seed << 40) + ((kind as u64) << 32) + index as u64);
                if let Err(text) = trial(&mut counts, &mut random, index) {
                    println!("speed: a difference, round {seed}, {name}, trial {index}: {text}");
                    std::process::exit(1);
                }
            }
        }
        let missed = counts.missed();
        if !missed.is_empty() {
            println!("speed: round {seed}, met too seldom: {}", missed.join("; "));
            std::process::exit(1);
        }
        comparisons += counts.comparisons;
        if start.elapsed() >= Duration::from_secs(seconds) {
            break;
        }
    }
    println!("speed: the peer and the proved code, {comparisons} comparisons, all equal");
}

fn byte(random: &mut Random) -> u8 {
    random.within(0, 255) as u8
}

fn word(random: &mut Random) -> u16 {
    random.within(0, 65_535) as u16
}

/// A zone number that is mostly on a site or just off it.
fn near(random: &mut Random) -> u8 {
    match random.below(8) {
        0 => byte(random),
        _ => random.within(0, 9) as u8,
    }
}

/// A number near 0, near a limit, or any.
fn edged(random: &mut Random, limit: u16) -> u16 {
    match random.below(4) {
        0 => word(random),
        1 => random.within(0, 3) as u16,
        2 => limit
            .wrapping_add(random.within(0, 4) as u16)
            .wrapping_sub(2),
        _ => limit.saturating_sub(byte(random).into()),
    }
}

/// A zone of any values, most of them sound or nearly so.
fn any_zone(random: &mut Random) -> Zone {
    let mut zone = Zone {
        number: near(random),
        count: near(random),
        deps: byte(random),
        edition: any_edition(random),
        stock: edged(random, 65_535),
        events: edged(random, 1_000),
        saved: Saved {
            stock: word(random),
            events: word(random),
        },
        mark: u32::from(byte(random) % 4),
    };
    if random.chance(90) {
        zone.count = random.within(2, 8) as u8;
        zone.number = random.within(1, zone.count.into()) as u8;
        zone.mark %= 3;
    }
    if random.chance(90) {
        zone.deps &= ((1_u32 << zone.count.min(8)) - 1) as u8;
    }
    if random.chance(10) {
        zone.mark = u32::from(byte(random)) << random.within(0, 24);
    }
    zone
}

/// What both must have in common of a zone after a step.
fn seen(mut zone: Zone, refusal: u8) -> Zone {
    if refusal == 0 && zone.mark == 0 {
        zone.saved = Saved::default();
    }
    zone
}

fn zones(counts: &mut Counts, random: &mut Random, _: usize) -> Outcome<()> {
    let zone = any_zone(random);
    let cars = if random.chance(20) { 0 } else { byte(random) };
    let (a, b, flag) = (near(random), byte(random), byte(random) % 3);
    let set = if random.chance(50) { b } else { b & zone.deps };
    type Proved<'a> = &'a dyn Fn(&mut Zone, &mut Told) -> u8;
    type Peer<'a> = &'a dyn Fn(&mut Zone) -> Answer;
    let steps: [(&str, Proved, Peer); 6] = [
        (
            "zone-send",
            &|zone, told| proved::zone_send(zone, told, a, cars),
            &|zone| zone.send(a, cars),
        ),
        (
            "zone-receive",
            &|zone, told| proved::zone_receive(zone, told, a, cars, flag),
            &|zone| zone.receive(a, cars, flag != 0),
        ),
        (
            "zone-request",
            &|zone, told| proved::zone_request(zone, told, set),
            &|zone| zone.request(set),
        ),
        (
            "zone-start",
            &|zone, told| proved::zone_start(zone, told),
            &|zone| zone.start(),
        ),
        (
            "zone-enter",
            &|zone, told| proved::zone_enter(zone, told, cars),
            &|zone| zone.enter(cars),
        ),
        (
            "zone-leave",
            &|zone, told| proved::zone_leave(zone, told, cars),
            &|zone| zone.leave(cars),
        ),
    ];
    for (name, proved, peer) in steps {
        let (mut mine, mut theirs, mut told) = (zone, zone, Told::default());
        let refusal = proved(&mut theirs, &mut told);
        let theirs = (told.with(refusal), seen(theirs, refusal));
        let answer = peer(&mut mine);
        let mine = (answer, seen(mine, answer.refusal));
        counts.same(name, refusal, &theirs, &mine)?;
    }
    let (mut mine, mut theirs) = (zone, zone);
    let refusal = proved::zone_open(&mut theirs, zone.edition, zone.count, a, zone.stock);
    let answer = mine.open(zone.edition, zone.count, a, zone.stock);
    counts.same("zone-open", refusal, &(refusal, theirs), &(answer, mine))
}

fn openings(counts: &mut Counts, random: &mut Random, _: usize) -> Outcome<()> {
    let (edition, count) = (any_edition(random), near(random));
    let length = match random.below(10) {
        0 => 0,
        1 | 2 => near(random) % 13,
        _ => count.min(12),
    };
    let most = 65_535 / u32::from(length).max(1);
    let mut stocks: Vec<u16> = (0..length).map(|_| random.within(0, most) as u16).collect();
    if let [first, rest @ ..] = &mut stocks[..] {
        if random.chance(50) {
            // The sum is the largest that is accepted, or one more.
            let others: u32 = rest.iter().map(|&stock| u32::from(stock)).sum();
            *first = (65_535 - others + random.within(0, 1)).min(65_535) as u16;
        } else if random.chance(20) {
            *first = word(random);
        }
    }
    let (mut theirs, mut mine) = (garbage(random), garbage(random));
    let refusal = proved::open_any(&mut theirs, edition, count, &stocks);
    let answer = mine.open(edition, count, &stocks);
    counts.same("open", refusal, &(refusal, theirs), &(answer, mine))
}

/// Whether a zone that the site lacks has a mark that is none.
fn strays(run: &Run) -> bool {
    let off = run.zones.iter().skip(usize::from(run.count));
    off.into_iter().any(|zone| zone.mark > 2)
}

/// What both must have in common of a run after a call.
fn agreed(mut run: Run, refusal: u8) -> Run {
    if refusal == 0 {
        for zone in run.zones.iter_mut().filter(|zone| zone.mark == 0) {
            zone.saved = Saved::default();
        }
    }
    run
}

fn narrow(zone: u32) -> u8 {
    (zone % 256) as u8
}

/// Makes a call by the proved code and by the peer, each on a run of its own, and gives its name and both
/// answers. No call but a receipt has items that remain.
fn made(theirs: &mut Run, mine: &mut Run, call: Call) -> (&'static str, Received, Received) {
    let (name, refusal, answer) = match call {
        Call::HandOver { from, to, cars } => {
            let (from, to) = (narrow(from), narrow(to));
            let refusal = proved::send(theirs, from, to, cars);
            ("send", refusal, mine.send(from, to, cars))
        }
        Call::Receipt { from, to } => {
            let (from, to) = (narrow(from), narrow(to));
            let received = proved::receive(theirs, from, to);
            return ("receive", received, mine.receive(from, to));
        }
        Call::Start { zone } => {
            let refusal = proved::start(theirs, narrow(zone));
            ("start", refusal, mine.start(narrow(zone)))
        }
        Call::Gate {
            direction,
            zone,
            cars,
        } => match direction {
            Direction::In => {
                let refusal = proved::enter(theirs, narrow(zone), cars);
                ("enter", refusal, mine.enter(narrow(zone), cars))
            }
            Direction::Out => {
                let refusal = proved::leave(theirs, narrow(zone), cars);
                ("leave", refusal, mine.leave(narrow(zone), cars))
            }
        },
    };
    (name, without(refusal), without(answer))
}

/// The answer of a call after which nothing remains.
fn without(refusal: u8) -> Received {
    Received {
        refusal,
        remaining: 0,
    }
}

/// Makes a call on a copy of a run and gives the proved code's next run.
fn call(counts: &mut Counts, run: &Run, call: Call) -> Outcome<(u8, Run)> {
    let (mut theirs, mut mine) = (*run, *run);
    let (name, told, answer) = made(&mut theirs, &mut mine, call);
    let refusal = told.refusal;
    if (refusal != 0 && theirs != *run) || (answer.refusal != 0 && mine != *run) {
        return Err(format!("{name}: a refused call changes the run"));
    }
    if strays(run) {
        counts.same(name, refusal, &told, &without(1))?;
    } else {
        let both = (
            (told, agreed(theirs, refusal)),
            (answer, agreed(mine, answer.refusal)),
        );
        counts.same(name, refusal, &both.0, &both.1)?;
        if refusal == 0 && matches!(call, Call::Receipt { .. }) {
            counts.count("receive leaves", told.remaining)?;
        }
    }
    Ok((refusal, theirs))
}

/// Bytes behind the lent ones, which no call may touch.
const GUARD: usize = 32;

/// What a call that writes answers, and all bytes after it.
fn written(random: &Lent, call: impl FnOnce(&mut [u8]) -> Written) -> (Written, Vec<u8>) {
    let length = random.size + GUARD;
    let mut bytes: Vec<u8> = (0..length)
        .map(|place| random.fill.wrapping_add(97 * place as u8))
        .collect();
    let answer = call(&mut bytes[..random.size]);
    (answer, bytes)
}

/// How many bytes are lent, and what they hold.
struct Lent {
    size: usize,
    fill: u8,
}

/// Lent bytes of several lengths about the number that is needed.
fn lents(random: &mut Random, needed: usize) -> [Lent; 4] {
    let any = random.below(RECORDING_BYTES);
    [needed.saturating_sub(1), needed, needed + 3, any].map(|size| Lent {
        size,
        fill: byte(random),
    })
}

/// A call that writes what it makes of a run or a journal: its name, by the proved code and by the
/// peer.
type Writer<T> = (
    &'static str,
    fn(&T, &mut [u8], &mut Numbers) -> u8,
    fn(&T, &mut [u8]) -> Written,
);

/// Compares a call that writes; a peer that is not asked has refused with 1.
fn write<T: ?Sized>(
    counts: &mut Counts,
    random: &mut Random,
    (name, proved, peer): Writer<T>,
    on: &T,
    asks_peer: bool,
) -> Outcome<()> {
    let proved = |out: &mut [u8]| {
        let mut numbers = Numbers::default();
        let refusal = proved(on, out, &mut numbers);
        numbers.with(refusal)
    };
    let needed = proved(&mut [0; RECORDING_BYTES]).written;
    for lent in lents(random, needed) {
        let theirs = written(&lent, proved);
        let mine = if asks_peer {
            written(&lent, |out| peer(on, out))
        } else {
            let refused = Written {
                refusal: 1,
                ..Written::default()
            };
            written(&lent, |_| refused)
        };
        counts.same(name, theirs.0.refusal, &theirs, &mine)?;
        if theirs.0.refusal != 0 && needed == 0 {
            // Refused for another reason than the lent bytes: one trial is enough.
            break;
        }
    }
    Ok(())
}

fn writers(counts: &mut Counts, random: &mut Random, run: &Run) -> Outcome<()> {
    let writers: [Writer<Run>; 3] = [
        ("record", proved::record, Run::record),
        ("page", proved::page, Run::page),
        ("write", proved::write, Run::write),
    ];
    for writer in writers {
        write(counts, random, writer, run, !strays(run))?;
    }
    Ok(())
}

/// Random lists of calls from random openings.
fn lists(counts: &mut Counts, random: &mut Random, index: usize) -> Outcome<()> {
    let (edition, zones) = (edition(random), random.within(2, 8));
    let mut run = Run::REFUSED;
    run.open(edition as u8, zones as u8, &stocks(random, zones));
    let length = if index % 100 == 0 { 2_500 } else { 80 };
    let mut outcome = Ok(());
    drive(random, edition, zones, length, &mut |made| {
        if outcome.is_err() {
            return 0;
        }
        match call(counts, &run, made) {
            Ok((refusal, next)) => {
                run = next;
                u32::from(refusal)
            }
            Err(text) => {
                outcome = Err(text);
                0
            }
        }
    });
    outcome?;
    writers(counts, random, &run)
}

/// Bytes of any values as a run.
fn garbage(random: &mut Random) -> Run {
    Run {
        count: byte(random),
        edition: byte(random),
        records: word(random),
        zones: from_fn(|_| any_local(random)),
        opening: from_fn(|_| word(random)),
        items: from_fn(|_| from_fn(|_| word(random))),
        lens: from_fn(|_| byte(random)),
        journal: from_fn(|_| word(random)),
    }
}

fn any_local(random: &mut Random) -> Local {
    Local {
        stock: word(random),
        events: word(random),
        deps: byte(random),
        mark: byte(random),
        saved: Saved {
            stock: word(random),
            events: word(random),
        },
    }
}

/// The lines of a site.
fn lines(run: &Run) -> Vec<usize> {
    let size = usize::from(run.count.min(8));
    let pairs = (0..size).flat_map(|a| (0..size).map(move |b| (a, b)));
    pairs
        .filter(|(a, b)| a != b)
        .map(|(a, b)| 8 * a + b)
        .collect()
}

/// An item that is sound on most sites.
fn item(random: &mut Random, count: u8) -> u16 {
    let cars = match random.below(5) {
        0 => 0,
        _ => random.within(0, 60) as u16,
    };
    match random.below(4) {
        0 => 512 + u16::from(byte(random) & ((1_u32 << count.min(8)) - 1) as u8),
        1 => 256 + cars,
        _ => cars,
    }
}

/// A sound run that hardly any calls could make, with any values where nobody looks.
fn sound(random: &mut Random) -> Run {
    let mut run = garbage(random);
    run.edition = edition(random) as u8;
    run.count = random.within(2, 8) as u8;
    run.records = match random.below(6) {
        0 => 0,
        1 => 1_000,
        2 => 999,
        _ => random.below(1_000) as u16,
    };
    let marks = random.within(1, 3);
    for zone in &mut run.zones {
        zone.mark = random.below(marks as usize) as u8;
        zone.events = random.within(0, run.records.into()) as u16;
        zone.deps &= ((1_u32 << run.count) - 1) as u8;
        zone.stock = random.within(0, 300) as u16;
    }
    let most = random.within(0, 16);
    for line in lines(&run) {
        run.lens[line] = if random.chance(50) {
            most
        } else {
            random.within(0, most)
        } as u8;
        for place in 0..usize::from(run.lens[line]) {
            run.items[line][place] = item(random, run.count);
        }
    }
    if random.chance(30) {
        brim(random, &mut run);
    }
    run
}

/// Sets a stock so that stocks and cars on lines are 65,535 together, or one more.
fn brim(random: &mut Random, run: &mut Run) {
    let size = usize::from(run.count.clamp(1, 8));
    let zone = random.below(size);
    run.zones[zone].stock = 0;
    let stocks = run.zones[..size].iter().map(|zone| u32::from(zone.stock));
    let mut sum: u32 = stocks.sum();
    for line in lines(run) {
        let length = usize::from(run.lens[line]).min(PLACES);
        let items = run.items[line][..length].iter();
        sum += items
            .filter(|&&item| item < 512)
            .map(|item| u32::from(item % 256))
            .sum::<u32>();
    }
    let rest = (65_535 + random.within(0, 1)).saturating_sub(sum);
    run.zones[zone].stock = rest.min(65_535) as u16;
}

/// Damages one field of a run.
fn damage(random: &mut Random, run: &mut Run) {
    let records = run.records;
    let record = random.below(usize::from(records).clamp(1, MOST_RECORDS));
    let line = match lines(run) {
        lines if lines.is_empty() || random.chance(20) => random.below(64),
        lines => lines[random.below(lines.len())],
    };
    let place = random.below(usize::from(run.lens[line]).clamp(1, PLACES));
    let one = [1, 65_535][random.below(2)];
    let zone = &mut run.zones[random.below(8)];
    match random.below(24) {
        0 => run.count = near(random),
        1 => run.records = edged(random, 1_000),
        2 => run.records = records.wrapping_add(one),
        3 => run.opening[random.below(8)] ^= 1,
        4 => run.opening[random.below(8)] = word(random),
        5 => brim(random, run),
        6 => zone.stock = zone.stock.wrapping_add(one),
        7 => zone.stock = word(random),
        8 => zone.events = zone.events.wrapping_add(one),
        9 => zone.events = records.wrapping_add(random.within(0, 1) as u16),
        10 => zone.deps ^= 1 << random.below(8),
        11 => zone.mark = random.within(0, 2) as u8,
        12 => zone.mark = byte(random),
        13 => zone.saved.stock = zone.saved.stock.wrapping_add(one),
        14 => zone.saved.events = zone.saved.events.wrapping_add(one),
        15 => run.lens[line] = [0, 1, 15, 16, 17, byte(random)][random.below(6)],
        16 => run.lens[line] = run.lens[line].wrapping_add(one as u8),
        17 => run.items[line][place] ^= 1 << random.below(16),
        18 => run.items[line] = from_fn(|_| item(random, run.count)),
        19 => {
            run.items[line] = from_fn(|_| item(random, run.count));
            run.lens[line] = PLACES as u8;
        }
        20 => run.journal[record] ^= 1 << random.below(16),
        21 => {
            // A zone had more cars from the opening on; its journal may still replay to this.
            let (index, more) = (random.below(8), word(random));
            run.opening[index] = run.opening[index].wrapping_add(more);
            run.zones[index].stock = run.zones[index].stock.wrapping_add(more);
        }
        22 => run.edition = any_edition(random),
        _ => run.journal.swap(record, random.below(MOST_RECORDS)),
    }
}

/// A call that is mostly on the site; the kinds take turns.
fn likely(random: &mut Random, run: &Run, step: usize) -> Call {
    let zones = u32::from(run.count.clamp(2, 8));
    let (mut from, mut to) = (random.within(1, zones), random.within(1, zones));
    if random.chance(5) {
        (from, to) = (near(random).into(), near(random).into());
    }
    let cars = match random.below(8) {
        0 => 0,
        1..=3 => 1,
        _ => byte(random),
    };
    match step % 4 {
        0 => Call::HandOver { from, to, cars },
        1 => Call::Receipt { from, to },
        2 => Call::Start { zone: from },
        _ => Call::Gate {
            direction: direction(random),
            zone: from,
            cars,
        },
    }
}

fn check(counts: &mut Counts, random: &mut Random, run: &Run) -> Outcome<()> {
    writers(counts, random, run)?;
    let mut run = *run;
    for step in 0..12 {
        let made = likely(random, &run, step);
        run = call(counts, &run, made)?.1;
    }
    // Every request that stands first on a line.
    for line in lines(&run) {
        if run.lens[line] != 0 && run.items[line][0] >= 512 {
            let (from, to) = (line as u32 / 8 + 1, line as u32 % 8 + 1);
            call(counts, &run, Call::Receipt { from, to })?;
        }
    }
    Ok(())
}

/// Runs of journals, damaged ones, and states that no calls have made.
fn states(counts: &mut Counts, random: &mut Random, index: usize) -> Outcome<()> {
    if index % 4 != 0 {
        let mut run = sound(random);
        check(counts, random, &run)?;
        damage(random, &mut run);
        check(counts, random, &run)?;
        let run = garbage(random);
        return check(counts, random, &run);
    }
    let mut reached = Run::REFUSED;
    let edition = edition(random);
    reached.read(&accepted(random, edition, index / 4 % SHAPES));
    check(counts, random, &reached)?;
    for _ in 0..8 {
        let mut run = reached;
        for _ in 0..random.within(1, 2) {
            damage(random, &mut run);
        }
        check(counts, random, &run)?;
    }
    Ok(())
}

/// Damages a journal in a byte, in its length or by a swap of two words.
fn spoil(random: &mut Random, bytes: &mut Vec<u8>) {
    let length = bytes.len();
    let (here, there) = (random.below(length.max(1)), random.below(length.max(1)));
    match random.below(6) {
        0 => bytes.truncate(here),
        1 => bytes.push(byte(random)),
        2 if here < length => bytes[here] = byte(random),
        3 if here < length => bytes[here] ^= 1 << random.below(8),
        4 if here + 1 < length && there + 1 < length => {
            bytes.swap(here & !1, there & !1);
            bytes.swap(here | 1, there | 1);
        }
        _ => bytes[here.min(length)..].fill_with(|| byte(random)),
    }
}

fn journals(counts: &mut Counts, random: &mut Random, index: usize) -> Outcome<()> {
    let edition = edition(random);
    let mut bytes = journal_of(random, edition, index % generate::KINDS);
    for _ in 0..random.within(2, 5) {
        let (mut theirs, mut mine) = (garbage(random), garbage(random));
        let answer = proved::read(&mut theirs, &bytes);
        let theirs = (answer, theirs);
        let mine = (mine.read(&bytes), mine);
        counts.same("read", answer.refusal, &theirs, &mine)?;
        if answer.refusal == 0 {
            counts.count("read leaves", answer.remaining)?;
        }
        let writers: [Writer<[u8]>; 2] = [
            ("read-record", proved::read_record, site::read_record),
            ("read-page", proved::read_page, site::read_page),
        ];
        for writer in writers {
            write(counts, random, writer, &bytes[..], true)?;
        }
        convert(counts, random, &bytes)?;
        spoil(random, &mut bytes);
    }
    Ok(())
}

/// Compares both conversions of a journal, lent about as many bytes as it has.
fn convert(counts: &mut Counts, random: &mut Random, journal: &[u8]) -> Outcome<()> {
    let writers: [Writer<[u8]>; 2] = [
        ("upgrade", proved::upgrade, conversion::upgrade),
        ("downgrade", proved::downgrade, conversion::downgrade),
    ];
    for (name, proved, peer) in writers {
        for lent in lents(random, journal.len()) {
            let theirs = written(&lent, |out| {
                let mut numbers = Numbers::default();
                let refusal = proved(journal, out, &mut numbers);
                numbers.with(refusal)
            });
            let mine = written(&lent, |out| peer(journal, out));
            counts.same(name, theirs.0.refusal, &theirs, &mine)?;
        }
    }
    Ok(())
}

/// Journals for the converter, then with a damage.
fn conversions(counts: &mut Counts, random: &mut Random, index: usize) -> Outcome<()> {
    let edition = [1, 3][index % 2];
    let mut bytes = archive::journal_of(random, edition, index / 2 % archive::KINDS);
    convert(counts, random, &bytes)?;
    spoil(random, &mut bytes);
    convert(counts, random, &bytes)
}
