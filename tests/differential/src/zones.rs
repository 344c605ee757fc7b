//! The zone part: zones with any values, and lists of calls on one zone.

use crate::compare::Answer;
use crate::count::{Check, Counts, Entry, Failure, Found, Gate};
use crate::expect::number;
use crate::ffi::{self, PlainOpening, PlainSaved, PlainStep, PlainZone};
use crate::plain;
use second::random::{any_edition, edition, Random};
use second::zone::{self, Zone};

/// A step of the zone part with its arguments.
#[derive(Clone, Copy, Debug)]
enum Step {
    Send { to: u8, cars: u8 },
    Receive { from: u8, cars: u8, flag: u8 },
    Request { set: u8 },
    Start,
    Enter { cars: u8 },
    Leave { cars: u8 },
}

impl Step {
    fn entry(self) -> Entry {
        match self {
            Step::Send { .. } => Entry::ZoneSend,
            Step::Receive { .. } => Entry::ZoneReceive,
            Step::Request { .. } => Entry::ZoneRequest,
            Step::Start => Entry::ZoneStart,
            Step::Enter { .. } => Entry::ZoneEnter,
            Step::Leave { .. } => Entry::ZoneLeave,
        }
    }

    fn proved(self, p: PlainZone) -> PlainStep {
        match self {
            Step::Send { to, cars } => ffi::cut_zone_send(p, to, cars),
            Step::Receive { from, cars, flag } => ffi::cut_zone_receive(p, from, cars, flag),
            Step::Request { set } => ffi::cut_zone_request(p, set),
            Step::Start => ffi::cut_zone_start(p),
            Step::Enter { cars } => ffi::cut_zone_enter(p, cars),
            Step::Leave { cars } => ffi::cut_zone_leave(p, cars),
        }
    }

    fn second(self, zone: Zone) -> (Zone, zone::Answer) {
        match self {
            Step::Send { to, cars } => zone.send(u32::from(to), cars),
            Step::Receive { from, cars, flag } => {
                zone.take_hand_over(u32::from(from), cars, flag != 0)
            }
            Step::Request { set } => zone.take_request(set),
            Step::Start => zone.start(),
            Step::Enter { cars } => zone.enter(cars),
            Step::Leave { cars } => zone.leave(cars),
        }
    }

    /// The answer that must come; refused, the struct comes back as it came.
    fn expected(self, p: PlainZone) -> PlainStep {
        let Some(zone) = plain::zone_of(&p) else {
            return PlainStep {
                zone: p,
                refusal: 1,
                flag: 0,
                to: 0,
                carried: 0,
            };
        };
        let (next, answer) = self.second(zone);
        PlainStep {
            zone: if answer.refusal == 0 {
                plain::plain_zone(&next)
            } else {
                p
            },
            refusal: number(answer.refusal),
            flag: u8::from(answer.marked),
            to: answer.requests.to,
            carried: answer.requests.carried,
        }
    }
}

/// Compares an opening and gives its zone.
fn open(
    counts: &mut Counts,
    edition: u8,
    count: u8,
    own: u8,
    stock: u16,
) -> Result<PlainZone, Failure> {
    let named = u32::from(edition);
    let (refusal, zone) = Zone::open(named, u32::from(own), u32::from(count), stock);
    let expected = PlainOpening {
        zone: plain::plain_zone(&zone),
        refusal: number(refusal),
    };
    let proved = ffi::cut_zone_open(edition, count, own, stock);
    let compared = counts.same(Entry::ZoneOpen, named, &expected, &proved);
    let call = || format!("cut_zone_open({edition}, {count}, {own}, {stock})");
    compared.map_err(|found| Failure::new(String::new(), call(), found))?;
    Ok(proved.zone)
}

/// Compares a step and gives the zone of its answer.
fn step(counts: &mut Counts, p: PlainZone, step: Step) -> Result<PlainZone, Found> {
    let proved = step.proved(p);
    let edition = u32::from(p.edition);
    counts.same(step.entry(), edition, &step.expected(p), &proved)?;
    if proved.refusal == 0 {
        count(counts, p, step);
    }
    sets(counts, proved.to)?;
    Ok(proved.zone)
}

/// Counts what an accepted step was about.
fn count(counts: &mut Counts, p: PlainZone, step: Step) {
    let marked = p.mark != 0;
    let gate = |cars: u8, out: bool| Gate {
        alone: true,
        out,
        empty: cars == 0,
        marked,
    };
    match step {
        Step::Receive { cars: 0, flag, .. } => counts.check(Check {
            edition: u32::from(p.edition),
            alone: true,
            flag: flag != 0,
            marked,
        }),
        Step::Enter { cars } => counts.gate(gate(cars, false)),
        Step::Leave { cars } => counts.gate(gate(cars, true)),
        _ => (),
    }
}

/// Compares the number of a set's zones and its lowest zone, which need no second implementation
/// and have no edition.
fn sets(counts: &mut Counts, set: u8) -> Result<(), Found> {
    let zones: Vec<u32> = (1..=8)
        .filter(|zone| set & zone::only(*zone) != 0)
        .collect();
    let size = zones.len() as u32;
    same(
        counts,
        Entry::ZoneRequests,
        size,
        ffi::cut_zone_requests(set),
    )?;
    let lowest = zones.first().copied().unwrap_or(0);
    let next = u32::from(ffi::cut_zone_next(set));
    same(counts, Entry::ZoneNext, lowest, next)
}

fn same<A: Answer>(counts: &mut Counts, entry: Entry, expected: A, proved: A) -> Result<(), Found> {
    counts.same(entry, 0, &expected, &proved)
}

fn byte(random: &mut Random) -> u8 {
    random.within(0, 255) as u8
}

/// A zone number that is mostly on a site or just off it.
fn near(random: &mut Random) -> u8 {
    match random.below(8) {
        0 => byte(random),
        _ => random.within(0, 9) as u8,
    }
}

/// A number with its edges: the values next to 0, to a limit and to the largest word.
fn edged(random: &mut Random, limit: u16) -> u16 {
    let near = limit.saturating_sub(random.within(0, 255) as u16);
    let any = random.within(0, 65_535) as u16;
    let edges = [0, 1, limit.wrapping_sub(1), limit, limit.wrapping_add(1)];
    match random.below(4) {
        0 => any,
        1 => near,
        _ => edges[random.below(edges.len())],
    }
}

/// A zone of any values, most of them sound or nearly so.
fn any_zone(random: &mut Random) -> PlainZone {
    let count = match random.below(10) {
        0 => near(random),
        _ => random.within(2, 8) as u8,
    };
    let number = match random.below(10) {
        0 => near(random),
        _ => random.within(1, u32::from(count).max(1)) as u8,
    };
    let everybody = ((1_u32 << count.min(8)) - 1) as u8;
    PlainZone {
        number,
        count,
        deps: match random.below(10) {
            0 => byte(random),
            _ => byte(random) & everybody,
        },
        edition: any_edition(random),
        stock: edged(random, 65_535),
        events: match random.below(3) {
            0 => edged(random, 1_000),
            _ => random.within(0, 1_000) as u16,
        },
        saved: PlainSaved {
            stock: random.within(0, 65_535) as u16,
            events: random.within(0, 65_535) as u16,
        },
        mark: match random.below(10) {
            0 => any_mark(random),
            _ => random.within(0, 2),
        },
    }
}

/// Any number in the place of a mark kind; some are a kind but for one of their upper bytes.
fn any_mark(random: &mut Random) -> u32 {
    let low = u32::from(byte(random));
    match random.below(3) {
        0 => low,
        1 => low % 3 + (1 << random.within(8, 31)),
        _ => low << random.within(0, 24),
    }
}

/// Any number of cars, quite often 0.
fn cars(random: &mut Random) -> u8 {
    match random.below(5) {
        0 => 0,
        _ => byte(random),
    }
}

/// A zone number that is mostly another zone of the site.
fn other(random: &mut Random, p: &PlainZone) -> u8 {
    if random.chance(30) || !(2..=8).contains(&p.count) {
        return near(random);
    }
    let step = random.within(0, u32::from(p.count) - 2) as u8;
    (p.number % p.count + step) % p.count + 1
}

fn any_step(random: &mut Random, p: &PlainZone) -> Step {
    let everybody = ((1_u32 << p.count.min(8)) - 1) as u8;
    match random.below(10) {
        0..=2 => Step::Send {
            to: other(random, p),
            cars: cars(random),
        },
        3..=5 => Step::Receive {
            from: other(random, p),
            cars: cars(random),
            flag: [0, 1, byte(random)][random.below(3)],
        },
        6 => Step::Request {
            set: match random.below(4) {
                0 => byte(random),
                _ => byte(random) & everybody,
            },
        },
        7 => Step::Enter { cars: cars(random) },
        8 => Step::Leave { cars: cars(random) },
        _ => Step::Start,
    }
}

/// A zone of any values with one step of any kind.
fn single(counts: &mut Counts, p: PlainZone, made: Step) -> Result<(), Failure> {
    let stepped = step(counts, p, made);
    stepped.map_err(|found| Failure::new(format!("  {p:?}\n"), format!("{made:?}"), found))?;
    Ok(())
}

/// A list of steps on one zone from its opening on; the long ones pass 1,000 own events.
fn list(counts: &mut Counts, random: &mut Random, length: usize) -> Result<(), Failure> {
    let count = random.within(2, 8) as u8;
    let own = random.within(1, u32::from(count)) as u8;
    let edition = edition(random) as u8;
    let opened = open(counts, edition, count, own, edged(random, 65_535))?;
    let (mut p, mut steps) = (opened, Vec::new());
    for _ in 0..length {
        let made = any_step(random, &p);
        let stepped = step(counts, p, made);
        p = stepped.map_err(|found| {
            let before = format!("  {opened:?}\n  {steps:?}\n");
            Failure::new(before, format!("{made:?}"), found)
        })?;
        steps.push(made);
    }
    Ok(())
}

/// Zones of any values, each with one step, an opening with any values and a list of steps.
pub fn trial(counts: &mut Counts, random: &mut Random, index: usize) -> Result<(), Failure> {
    for _ in 0..40 {
        let p = any_zone(random);
        single(counts, p, any_step(random, &p))?;
    }
    let (edition, stock) = (any_edition(random), edged(random, 65_535));
    open(counts, edition, near(random), near(random), stock)?;
    let length = match index % 100 {
        0 => 2_500,
        _ => 40,
    };
    list(counts, random, length)
}

/// Every count with every number, every edition with every count and with every number, every set,
/// and every mark kind and every edition with every flag byte and every number of cars at a gate.
pub fn every(counts: &mut Counts, random: &mut Random) -> Result<(), Failure> {
    for first in 0..=255 {
        let counted = sets(counts, first);
        counted.map_err(|found| Failure::new(String::new(), format!("the set {first}"), found))?;
        for second in 0..=255 {
            let stock = edged(random, 65_535);
            open(counts, any_edition(random), first, second, stock)?;
            open(counts, first, second, near(random), stock)?;
            open(counts, first, near(random), second, stock)?;
            let (mut p, mut q) = (any_zone(random), any_zone(random));
            p.mark = u32::from(first);
            q.edition = first;
            for p in [p, q] {
                let made = Step::Receive {
                    from: other(random, &p),
                    cars: cars(random),
                    flag: second,
                };
                single(counts, p, made)?;
                single(counts, p, any_step(random, &p))?;
                single(counts, p, Step::Enter { cars: second })?;
                single(counts, p, Step::Leave { cars: second })?;
            }
        }
    }
    Ok(())
}
