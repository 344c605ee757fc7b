//! A small random number generator and lists of calls drawn with it.

use crate::edition::{fewest, has_gates, EDITIONS};
use crate::site::{is_request, Call, Direction, Run, DIRECTIONS};

/// The xorshift generator of 64 bits, with a multiplied answer.
pub struct Random(u64);

impl Random {
    pub fn new(seed: u64) -> Random {
        Random(seed.wrapping_mul(2).wrapping_add(0x9E37_79B9_7F4A_7C15) | 1)
    }

    fn next(&mut self) -> u64 {
        self.0 ^= self.0 >> 12;
        self.0 ^= self.0 << 25;
        self.0 ^= self.0 >> 27;
        self.0.wrapping_mul(0x2545_F491_4F6C_DD1D) >> 32
    }

    /// A number from the first to the last, both included.
    pub fn within(&mut self, first: u32, last: u32) -> u32 {
        let width = u64::from(last) - u64::from(first) + 1;
        (u64::from(first) + self.next() % width) as u32
    }

    /// An index below a length that is not 0.
    pub fn below(&mut self, length: usize) -> usize {
        self.next() as usize % length
    }

    /// True in so many of 100 draws.
    pub fn chance(&mut self, percent: u32) -> bool {
        self.within(1, 100) <= percent
    }
}

/// A defined edition.
pub fn edition(random: &mut Random) -> u32 {
    EDITIONS[random.below(EDITIONS.len())]
}

/// An edition that is mostly defined, and else near the defined ones or any byte.
pub fn any_edition(random: &mut Random) -> u8 {
    match random.below(12) {
        0 => random.within(0, 255) as u8,
        1 => random.within(0, 7) as u8,
        _ => edition(random) as u8,
    }
}

/// Opening stocks for 2 to 8 zones whose sum is accepted.
pub fn stocks(random: &mut Random, zones: u32) -> Vec<u16> {
    stocks_from(random, zones, 0)
}

/// The same with at least so many cars, up to 1,000, in each zone.
pub fn stocks_from(random: &mut Random, zones: u32, least: u32) -> Vec<u16> {
    let most = match random.below(8) {
        0 => 0,
        1 | 2 => 3,
        3..=5 => 40,
        _ => 8_000,
    };
    let mut stocks: Vec<u16> = (0..zones)
        .map(|_| random.within(least, most.max(least)) as u16)
        .collect();
    if random.chance(10) {
        // Fill one zone up to the largest sum.
        let rest: u32 = stocks[1..].iter().map(|&stock| u32::from(stock)).sum();
        stocks[0] = (65_535 - rest) as u16;
    }
    stocks
}

/// A number of cars, quite often 0 and mostly small.
pub fn cars(random: &mut Random) -> u8 {
    match random.below(10) {
        0 | 1 => 0,
        2 => random.within(0, 255) as u8,
        _ => random.within(1, 6) as u8,
    }
}

/// A direction of a gate call.
pub fn direction(random: &mut Random) -> Direction {
    DIRECTIONS[random.below(DIRECTIONS.len())]
}

/// A call with any arguments, wrong ones included.
fn any_call(random: &mut Random) -> Call {
    let mut zone = || match random.below(8) {
        0 => random.within(0, u32::MAX),
        _ => random.within(0, 9),
    };
    let (from, to) = (zone(), zone());
    let cars = random.within(0, 255) as u8;
    match random.below(4) {
        0 => Call::HandOver { from, to, cars },
        1 => Call::Receipt { from, to },
        2 => Call::Start { zone: from },
        _ => Call::Gate {
            direction: direction(random),
            zone: from,
            cars,
        },
    }
}

/// The chance of a receipt on a line: some lines are slow, so that marked hand-overs of others
/// come before their requests.
fn receipts(random: &mut Random) -> u32 {
    if random.chance(40) {
        random.within(1, 6)
    } else {
        random.within(30, 100)
    }
}

/// The habits of one list: which lines are busy and how often each is received, and how often cars
/// go through the gates.
pub struct Habits {
    zones: u32,
    /// Sender, receiver, the chance of a hand-over and the chance of a receipt.
    lines: Vec<(u32, u32, u32, u32)>,
    /// How many starts are tried among 1,000 calls.
    starts: u32,
    /// How many calls in 100 have any arguments.
    wild: u32,
    /// How many of the other calls in 100 are gate calls.
    gates: u32,
}

impl Habits {
    pub fn draw(random: &mut Random, zones: u32) -> Habits {
        let mut lines = Vec::new();
        for _ in 0..random.within(2, 3 * zones) {
            let from = random.within(1, zones);
            let to = random.within(1, zones);
            if from != to {
                lines.push((from, to, random.within(20, 100), receipts(random)));
                // The request for a heard zone comes back on the reverse line.
                lines.push((to, from, random.within(0, 60), receipts(random)));
            }
        }
        if lines.is_empty() {
            lines.push((1, 2, 50, 50));
            lines.push((2, 1, 50, 50));
        }
        Habits {
            zones,
            lines,
            starts: match random.below(4) {
                0 => random.within(20, 120),
                _ => random.within(2, 20),
            },
            wild: random.within(0, 8),
            gates: 0,
        }
    }

    pub fn tame(mut self) -> Habits {
        self.wild = 0;
        self
    }

    pub fn starting(mut self, starts: u32) -> Habits {
        self.starts = starts;
        self
    }

    /// The same with so many gate calls in 100; drawn habits have none.
    pub fn gates(mut self, gates: u32) -> Habits {
        self.gates = gates;
        self
    }

    /// The same with gate calls as an edition has them: in some lists many, and without gates none.
    pub fn gates_of(self, random: &mut Random, edition: u32) -> Habits {
        if !has_gates(edition) {
            return self;
        }
        let gates = match random.below(4) {
            0 => random.within(30, 70),
            _ => random.within(2, 20),
        };
        self.gates(gates)
    }

    /// The next call, drawn without a look at the run.
    pub fn call(&self, random: &mut Random) -> Call {
        if random.chance(self.wild) {
            return any_call(random);
        }
        if random.within(1, 1_000) <= self.starts {
            return Call::Start {
                zone: random.within(1, self.zones),
            };
        }
        if self.gates != 0 && random.chance(self.gates) {
            return Call::Gate {
                direction: direction(random),
                zone: random.within(1, self.zones),
                cars: cars(random),
            };
        }
        loop {
            let (from, to, sends, receipts) = self.lines[random.below(self.lines.len())];
            if random.chance(50) {
                if random.chance(sends) {
                    let cars = cars(random);
                    return Call::HandOver { from, to, cars };
                }
            } else if random.chance(receipts) {
                return Call::Receipt { from, to };
            }
        }
    }
}

/// Calls that let each zone of a random chain hear the next one, and a start by the first. The
/// lines of the chain, which carry the requests, then lie idle among the habits.
fn chain(random: &mut Random, edition: u32, habits: &mut Habits) -> Vec<Call> {
    let mut rest: Vec<u32> = (1..=habits.zones).collect();
    let mut order = Vec::new();
    for _ in 0..random.within(2, habits.zones) {
        order.push(rest.swap_remove(random.below(rest.len())));
    }
    let mut calls = Vec::new();
    for pair in order.windows(2).rev() {
        let (to, from) = (pair[0], pair[1]);
        let cars = if random.chance(50) {
            fewest(edition)
        } else {
            cars(random)
        };
        calls.push(Call::HandOver { from, to, cars });
        calls.push(Call::Receipt { from, to });
        habits
            .lines
            .retain(|line| (line.0, line.1) != (pair[0], pair[1]));
    }
    calls.push(Call::Start { zone: order[0] });
    habits.lines.push((order[1], order[0], 50, 50));
    for &to in &order[2..] {
        habits.lines.push((order[0], to, 50, 100));
    }
    calls
}

/// Makes a random list of calls on an engine and gives them with their numbers. Some lists begin
/// with a chain. In edition 3 all have gate calls, in the others some, which are refused. Most end with rounds of receipts on every line, so that many recordings become
/// complete.
pub fn drive(
    random: &mut Random,
    edition: u32,
    zones: u32,
    length: usize,
    engine: &mut dyn FnMut(Call) -> u32,
) -> Vec<(Call, u32)> {
    let mut habits = Habits::draw(random, zones).gates_of(random, edition);
    if !has_gates(edition) && random.chance(30) {
        // Some gate calls are tried all the same, and refused.
        habits = habits.gates(2);
    }
    let mut calls = Vec::new();
    if random.chance(30) {
        for call in chain(random, edition, &mut habits) {
            calls.push((call, engine(call)));
        }
    }
    for _ in 0..length {
        let call = habits.call(random);
        calls.push((call, engine(call)));
    }
    for _ in 0..random.below(24) {
        for from in 1..=zones {
            for to in 1..=zones {
                let call = Call::Receipt { from, to };
                if from != to {
                    calls.push((call, engine(call)));
                }
            }
        }
        // Some traffic goes on between the rounds.
        for _ in 0..random.below(4) {
            let call = habits.call(random);
            calls.push((call, engine(call)));
        }
    }
    calls
}

/// Receives until no line holds a request, or no receipt is accepted. Lines with a request come
/// first, and any other line only when those are held up by a full one.
pub fn finish(random: &mut Random, run: &mut Run) {
    while run.holds_request() {
        let (mut first, mut rest): (Vec<_>, Vec<_>) = run
            .pairs()
            .into_iter()
            .partition(|&(a, b)| run.lines[a][b].iter().any(is_request));
        let mut accepted = false;
        while !accepted {
            let lines = if first.is_empty() {
                &mut rest
            } else {
                &mut first
            };
            if lines.is_empty() {
                return;
            }
            let (a, b) = lines.swap_remove(random.below(lines.len()));
            accepted = run.receipt(a as u32 + 1, b as u32 + 1) == 0;
        }
    }
}
