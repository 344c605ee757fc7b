//! The same calls of the second implementation.

use crate::Once;
use second::conversion::{convert, Conversion};
use second::print::MOST_BYTES;
use second::site::{Call, Direction, Run};
use second::zone::{Answer, Zone};
use second::{journal, page, recording};
use std::hint::black_box;
use std::rc::Rc;

/// The call of a name, on what a journal gives.
pub fn call(name: &str, bytes: Vec<u8>) -> Option<Once> {
    let run = Rc::new(journal::read(&bytes).run);
    let zone = Zone::open(run.edition, 1, run.count, 100).1;
    on_run(name, run)
        .or_else(|| on_zone(name, zone))
        .or_else(|| on_bytes(name, bytes))
}

fn changed(run: Rc<Run>, call: Option<Call>) -> Once {
    Box::new(move || {
        let mut copy = Run::clone(black_box(&run));
        let refusal = call.map_or(0, |call| copy.call(black_box(call)));
        black_box(&copy);
        refusal
    })
}

fn on_run(name: &str, run: Rc<Run>) -> Option<Once> {
    let (from, to) = (1, 2);
    let gate = |direction: Direction| Call::Gate {
        direction,
        zone: 1,
        cars: 3,
    };
    Some(match name {
        "copy" => changed(run, None),
        "open" => Box::new(move || {
            let stocks = &black_box(&run.opening)[..run.size()];
            black_box(&Run::open(run.edition, run.count, stocks)).0
        }),
        "send" => changed(run, Some(Call::HandOver { from, to, cars: 3 })),
        "receive" => changed(run, Some(Call::Receipt { from, to })),
        "start" => changed(run, Some(Call::Start { zone: 1 })),
        "enter" => changed(run, Some(gate(Direction::In))),
        "leave" => changed(run, Some(gate(Direction::Out))),
        "record" => writing(move |lent| recording::write(black_box(&run), lent).0),
        "page" => writing(move |lent| page::write(black_box(&run), lent).0),
        "write" => writing(move |lent| journal::write(black_box(&run), lent).0),
        _ => return None,
    })
}

/// A call that writes into lent bytes.
fn writing(write: impl Fn(&mut [u8]) -> u32 + 'static) -> Once {
    Box::new(move || {
        let mut lent = [0; MOST_BYTES];
        let refusal = write(&mut lent);
        black_box(&lent);
        refusal
    })
}

/// What a writer answers on a journal, or the refusal of reading.
fn read(bytes: &[u8], write: impl FnOnce(&Run) -> u32) -> u32 {
    let reading = journal::read(bytes);
    match reading.refusal {
        0 => write(&reading.run),
        refusal => refusal,
    }
}

fn on_bytes(name: &str, bytes: Vec<u8>) -> Option<Once> {
    Some(match name {
        "read" => Box::new(move || black_box(&journal::read(&bytes)).refusal),
        "read-record" => writing(move |lent| read(&bytes, |run| recording::write(run, lent).0)),
        "read-page" => writing(move |lent| read(&bytes, |run| page::write(run, lent).0)),
        "upgrade" => writing(move |lent| convert(Conversion::Upgrade, &bytes, lent).refusal),
        "downgrade" => writing(move |lent| convert(Conversion::Downgrade, &bytes, lent).refusal),
        _ => return None,
    })
}

fn on_zone(name: &str, zone: Zone) -> Option<Once> {
    let stepped = |step: fn(Zone) -> (Zone, Answer)| -> Once {
        Box::new(move || black_box(&step(*black_box(&zone))).1.refusal)
    };
    Some(match name {
        "zone-open" => Box::new(move || {
            let count = black_box(zone.count);
            black_box(&Zone::open(zone.edition, 1, count, 100)).0
        }),
        "zone-send" => stepped(|zone| zone.send(2, 3)),
        "zone-receive" => stepped(|zone| zone.take_hand_over(2, 3, true)),
        "zone-request" => stepped(|zone| zone.take_request(2)),
        "zone-start" => stepped(Zone::start),
        "zone-enter" => stepped(|zone| zone.enter(3)),
        "zone-leave" => stepped(|zone| zone.leave(3)),
        _ => return None,
    })
}
