//! The recording of a run: what it shows, its bytes and its total.

use crate::edition::is_traffic;
use crate::journal;
use crate::site::{Call, Item, Run};
use crate::zone::Mark;

/// A hand-over of the run and whether each end of it lies inside the recording.
#[derive(Clone, Copy)]
struct Sent {
    cars: u8,
    sent_inside: bool,
    received_inside: bool,
}

/// What the recording shows of a zone.
#[derive(Clone, Copy, Debug)]
pub struct ShownZone {
    pub firm: bool,
    pub events: u32,
    pub stock: u32,
}

/// By sender, then receiver: the cars of the recorded items of each line, in the order sent.
pub type Lines = [[Vec<u8>; 8]; 8];

/// What the recording shows, whether it is written as words or as a page.
pub struct Shown {
    pub zones: Vec<ShownZone>,
    pub lines: Lines,
    /// The recorded total: the stocks and the cars on lines that are shown. It "may exceed 65,535",
    /// for the zones are shown as of different moments.
    pub total: u32,
}

/// Writes the recording and gives the refusal, the number of bytes written and the recorded total.
pub fn write(run: &Run, lent: &mut [u8]) -> (u32, usize, u32) {
    let shown = match shown(run) {
        Ok(shown) => shown,
        Err(refusal) => return (refusal, 0, 0),
    };
    match journal::lend(&journal::bytes_of(&words(run, &shown)), lent) {
        (0, written) => (0, written, shown.total),
        (refusal, _) => (refusal, 0, 0),
    }
}

/// Asks questions 1, 12 and 13, and gives what the recording shows or the refusal.
pub fn shown(run: &Run) -> Result<Shown, u32> {
    if !run.true_run() {
        return Err(1);
    }
    if !run.started() {
        return Err(12);
    }
    if run.holds_request() {
        return Err(13);
    }
    let zones: Vec<ShownZone> = (0..run.size()).map(|index| zone(run, index)).collect();
    let lines = recorded_lines(run);
    let stocks = zones.iter().map(|zone| zone.stock);
    let cars = lines.iter().flatten().flatten();
    let cars = cars.map(|&cars| u32::from(cars));
    let total = stocks.sum::<u32>() + cars.sum::<u32>();
    Ok(Shown {
        zones,
        lines,
        total,
    })
}

/// The words of the recording.
fn words(run: &Run, shown: &Shown) -> Vec<u16> {
    let mut items = Vec::new();
    for (a, b) in run.pairs() {
        for &cars in &shown.lines[a][b] {
            let (from, to) = (a as u32 + 1, b as u32 + 1);
            items.push(journal::encode(Call::HandOver { from, to, cars }));
        }
    }
    let mut words = vec![journal::header(run.edition, run.count, items.len())];
    for zone in &shown.zones {
        words.push(u16::from(zone.firm) << 15 | zone.events as u16);
        words.push(zone.stock as u16);
    }
    words.extend(items);
    words
}

/// What the recording shows of the zone at an index.
fn zone(run: &Run, index: usize) -> ShownZone {
    match run.zones[index].mark {
        Mark::Firm(saved) => ShownZone {
            firm: true,
            events: saved.events,
            stock: saved.stock,
        },
        _ => ShownZone {
            firm: false,
            events: 0,
            stock: u32::from(run.opening[index]),
        },
    }
}

/// Replays the journal and gives, for each line, the hand-overs sent inside the sender's
/// events and not received inside the receiver's. Line checks are passed over.
fn recorded_lines(run: &Run) -> Lines {
    let mut sent: [[Vec<Sent>; 8]; 8] = Default::default();
    let mut received = [[0; 8]; 8];
    let (_, mut replay) = Run::open(run.edition, run.count, &run.opening[..run.size()]);
    // The next own event of a zone is inside when its count is at most the events shown.
    let inside = |replay: &Run, index: usize| replay.zones[index].events < zone(run, index).events;
    for &word in &run.records {
        let call =
            journal::decode(run.edition, word).expect("the journal of a true run is well formed");
        match call {
            Call::HandOver { from, to, cars } if is_traffic(run.edition, cars) => {
                let (a, b) = (from as usize - 1, to as usize - 1);
                sent[a][b].push(Sent {
                    cars,
                    sent_inside: inside(&replay, a),
                    received_inside: false,
                });
            }
            Call::Receipt { from, to } => {
                let (a, b) = (from as usize - 1, to as usize - 1);
                match replay.lines[a][b].front() {
                    Some(&Item::HandOver { cars, .. }) if is_traffic(run.edition, cars) => {
                        sent[a][b][received[a][b]].received_inside = inside(&replay, b);
                        received[a][b] += 1;
                    }
                    _ => (),
                }
            }
            _ => (),
        }
        replay.call(call);
    }
    sent.map(|row| {
        row.map(|line| {
            line.iter()
                .filter(|item| item.sent_inside && !item.received_inside)
                .map(|item| item.cars)
                .collect()
        })
    })
}
