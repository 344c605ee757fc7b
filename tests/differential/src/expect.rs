//! What each call must answer: the second implementation's answer in the form of the plain structs.

use crate::compare::Output;
use crate::ffi::{self, PlainAnswer, PlainReading, PlainReceived, PlainRun, PlainWritten};
use crate::header::{self, Calls};
use crate::plain;
use second::conversion::{convert, Conversion};
use second::generate::edition_of;
use second::print::MOST_BYTES;
use second::random::Random;
use second::site::{Call, Direction, Run};
use second::{journal, page, recording};

/// Narrows a refusal number, or how many items remain.
pub fn number(number: impl TryInto<u8>) -> u8 {
    let narrowed = number.try_into().ok();
    narrowed.expect("a number of an answer fits 8 bits")
}

fn zone(zone: u32) -> u8 {
    u8::try_from(zone).expect("calls are drawn with zones of one byte")
}

/// Makes a call on the proved code.
pub fn proved(p: &PlainRun, call: Call) -> PlainAnswer {
    let mut run = *p;
    let PlainReceived { refusal, remaining } = match call {
        Call::HandOver { from, to, cars } => {
            ffi::cut_site_send(&mut run, zone(from), zone(to), cars)
        }
        Call::Receipt { from, to } => ffi::cut_site_receive(&mut run, zone(from), zone(to)),
        Call::Start { zone: starter } => ffi::cut_site_start(&mut run, zone(starter)),
        Call::Gate {
            direction,
            zone: at,
            cars,
        } => match direction {
            Direction::In => ffi::cut_site_enter(&mut run, zone(at), cars),
            Direction::Out => ffi::cut_site_leave(&mut run, zone(at), cars),
        },
    };
    PlainAnswer {
        refusal,
        remaining,
        run,
    }
}

/// Makes a call on a run as C has it; that of a receipt alone tells how many items remain.
pub fn by_header(calls: &Calls, p: &PlainRun, call: Call) -> PlainAnswer {
    let (mut run, mut remaining) = (*p, 0);
    let refusal = match call {
        Call::HandOver { from, to, cars } => calls.send(&mut run, zone(from), zone(to), cars),
        Call::Receipt { from, to } => {
            let received = calls.receive(&mut run, zone(from), zone(to));
            remaining = received.remaining;
            received.refusal
        }
        Call::Start { zone: starter } => calls.start(&mut run, zone(starter)),
        Call::Gate {
            direction,
            zone: at,
            cars,
        } => match direction {
            Direction::In => calls.enter(&mut run, zone(at), cars),
            Direction::Out => calls.leave(&mut run, zone(at), cars),
        },
    };
    PlainAnswer {
        refusal,
        remaining,
        run,
    }
}

/// The line that loses an item when a call is accepted.
fn popped(call: Call) -> Option<(usize, usize)> {
    match call {
        Call::Receipt { from, to } => Some((from as usize - 1, to as usize - 1)),
        _ => None,
    }
}

/// The answer to a call on a struct with any bytes; refused, the struct comes back as it came.
pub fn answer(p: &PlainRun, call: Call) -> PlainAnswer {
    let refused = |refusal: u32| PlainAnswer {
        refusal: number(refusal),
        remaining: 0,
        run: *p,
    };
    let Some(mut run) = plain::run_of(p) else {
        return refused(1);
    };
    let answer = run.answer(call);
    match answer.refusal {
        0 => PlainAnswer {
            refusal: 0,
            remaining: number(answer.remaining),
            run: plain::after(p, &run, popped(call)),
        },
        refusal => refused(refusal),
    }
}

/// What a writer makes of a run when it is lent enough bytes.
#[derive(Clone, Debug)]
pub struct Made {
    pub refusal: u32,
    pub position: usize,
    pub bytes: Vec<u8>,
    /// The recorded total, which a recording alone tells; else 0.
    pub total: u32,
}

/// What a writer of the second implementation makes; it gives the refusal, the number of bytes and
/// the total.
fn made(run: Option<&Run>, write: impl Fn(&Run, &mut [u8]) -> (u32, usize, u32)) -> Made {
    let mut lent = [0; MOST_BYTES];
    let (refusal, written, total) = run.map_or((1, 0, 0), |run| write(run, &mut lent));
    Made {
        refusal,
        position: 0,
        bytes: lent[..written].to_vec(),
        total,
    }
}

/// The same of a writer that tells no total.
fn made_alone(run: Option<&Run>, write: fn(&Run, &mut [u8]) -> (u32, usize)) -> Made {
    made(run, |run, lent| {
        let (refusal, written) = write(run, lent);
        (refusal, written, 0)
    })
}

pub fn recording(run: Option<&Run>) -> Made {
    made(run, recording::write)
}

pub fn page(run: Option<&Run>) -> Made {
    made_alone(run, page::write)
}

pub fn journal(run: Option<&Run>) -> Made {
    made_alone(run, journal::write)
}

/// What each writer makes of a run.
#[derive(Clone, Debug)]
pub struct Writings {
    pub recording: Made,
    pub page: Made,
    pub journal: Made,
}

impl Writings {
    pub fn of(run: Option<&Run>) -> Writings {
        Writings {
            recording: recording(run),
            page: page(run),
            journal: journal(run),
        }
    }
}

/// The edition of a journal's header; 0, which is none, where it has no header.
pub fn edition(bytes: &[u8]) -> u32 {
    bytes.get(..2).map_or(0, edition_of)
}

/// What a call on a journal makes of its reading, where it makes this of a run.
pub fn of_reading(reading: &journal::Reading, make: fn(Option<&Run>) -> Made) -> Made {
    match reading.refusal {
        0 => make(Some(&reading.run)),
        refusal => Made {
            refusal,
            position: reading.position,
            bytes: Vec::new(),
            total: 0,
        },
    }
}

/// What a conversion makes of a journal.
pub fn conversion(conversion: Conversion, journal: &[u8]) -> Made {
    let mut lent = vec![0; journal.len()];
    let answer = convert(conversion, journal, &mut lent);
    lent.truncate(answer.written);
    Made {
        refusal: answer.refusal,
        position: answer.position,
        bytes: lent,
        total: 0,
    }
}

pub fn reading(reading: &journal::Reading) -> PlainReading {
    PlainReading {
        refusal: number(reading.refusal),
        position: reading.position,
        remaining: number(reading.remaining),
        run: plain::plain_run(&reading.run),
    }
}

impl Made {
    /// The answer and the lent bytes after a call that was lent these ones.
    pub fn output(&self, lent: &[u8]) -> Output {
        let mut bytes = lent.to_vec();
        let (refusal, written) = match self.refusal {
            0 => journal::lend(&self.bytes, &mut bytes),
            refusal => (refusal, 0),
        };
        let answer = PlainWritten {
            refusal: number(refusal),
            total: if refusal == 0 { self.total } else { 0 },
            position: self.position,
            written,
        };
        bytes.extend(GUARD);
        Output { answer, bytes }
    }

    /// Bytes to be lent for what is written.
    pub fn lents(&self, random: &mut Random) -> [Vec<u8>; 4] {
        lents(random, self.bytes.len())
    }

    /// The same for a page, and none, five more, and as many as are enough for any.
    pub fn page_lents(&self, random: &mut Random) -> Vec<Vec<u8>> {
        let mut lents = self.lents(random).to_vec();
        let lengths = [0, self.bytes.len() + 5, header::page_bytes()];
        lents.extend(lengths.map(|length| pattern(random, length)));
        lents
    }
}

/// Bytes to be lent, filled with a pattern: too few by one, just enough, more, and any number up to
/// those.
pub fn lents(random: &mut Random, enough: usize) -> [Vec<u8>; 4] {
    let most = if random.chance(10) { 3_000 } else { 60 };
    let more = enough + random.within(1, most) as usize;
    let any = random.below(enough + 1);
    [enough.saturating_sub(1), enough, more, any].map(|length| pattern(random, length))
}

/// Bytes without a regular repeat of 0, so that a write of any value is seen.
fn pattern(random: &mut Random, length: usize) -> Vec<u8> {
    let (first, step) = (random.within(0, 255), 2 * random.within(0, 127) + 1);
    (0..length)
        .map(|index| (first + step * index as u32) as u8)
        .collect()
}

/// Bytes behind the lent ones, which no call may touch.
const GUARD: [u8; 32] = [0xA5; 32];

/// Makes a call that writes on the proved code.
pub fn written(lent: &[u8], write: impl FnOnce(&mut [u8]) -> PlainWritten) -> Output {
    let mut bytes = [lent, &GUARD].concat();
    let answer = write(&mut bytes[..lent.len()]);
    Output { answer, bytes }
}
